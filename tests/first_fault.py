#!/usr/bin/env python3
"""Makes crates/first_fault/stdin and stdout: texts with their words or the first fault of rows 2, 3 and 4, and with their tape or the fault of row 5, by means of its own, straight from document 01."""
import os, random, re
from actor_words import RUN, constant, is_name, words
from tapes import said


def actor(t):
    found = words(t)
    return found if isinstance(found, str) else "0 " + "".join("%d %d " % (k, p) + (constant(t, p, n) + " " if k == 3 else "") for k, p, n in found)


def number(t, p, most):
    """The place after a number from 0 to most, and its value; or (place, None) where no right text continues."""
    if p >= len(t) or not t[p] in "0123456789":
        return p, None
    v, p = int(t[p]), p + 1
    while p < len(t) and t[p] in "0123456789" and v > 0 and v * 10 + int(t[p]) <= most:
        v, p = v * 10 + int(t[p]), p + 1
    return p, v


def bindings(t):
    """None, or the place of the first byte at which no right text continues."""
    p = 0
    for most in (32, 65535):
        p, k = number(t, p, 16)
        if k is None or t[p:p + 1] != "\n":
            return p
        p, seen = p + 1, []
        for _ in range(k):
            s = ""
            while True:
                c = t[p:p + 1]
                goes = bool(c) and RUN.match(c) and not (s == "" and c.isdigit())
                if goes and (len(s) < 30 or (len(s) == 30 and is_name(s + c) and s + c not in seen)):
                    s, p = s + c, p + 1
                else:
                    break
            if not s or not is_name(s) or s in seen or p >= len(t):
                return p
            seen.append(s)
            if t[p] != " ":
                return p
            p, v = number(t, p + 1, most)
            if v is None or t[p:p + 1] != "\n":
                return p
            p += 1
    return None if p == len(t) else p


# ---- texts for row 5

def around(body, declared="", ports="d.p.1"):
    return "a(d,q){input d;output q;%sor(r(%s){%s})}" % (declared, ports, body)


EXPRESSIONS = """1; 007; d; 8'd255; 8'hFf; 4'b01; 3'o7; 4'd n; <n+1>'d3; <d.type>'h1; <log(8)+max(1,2,n)>'d n; 3{d}; 0{d+1}; (d); {d}; {d,1}; {d,{1,q},2{d}}; d[0]; d[3:0]; d[n-1:log(n)]; (d+1)[2]; (d)[n:0];
m[0]; m[m[d]+1]; ~d; ~~d; !&d; ~&~|~^d; ^~d; +d; |d; &d; d+q; d-q-1; d*q/2%3; d<<1>>2; d<q; d<=q>=1; d==q!=1; d&q~&1^2~^3; d|q~|1; d&&q; d||q&&1; d+q*2; d*q+2; d|q&1; d&q|1; d==q&1; d<q==1; d<<1+2; ~d+1; -d; d+-1; d?1:q;
d?1:q?2:3; d?q?1:2:3; (d?1:2)?3:4; if d then 1 else 2; if d then if q then 1 else 2 else 3; if d then 1 else if q then 2 else 3; if d then 1 else 2?3:4; d?if q then 1 else 2:3; d+if q then 1 else 2; d?1:if q then 1 else 2;
(if d then 1 else 2)+1; {if d then 1 else 2,3}; m[if d then 1 else 2]; case(d){_=>1}; case(d){0=>1|_=>2}; case(d+1){0=>d|q|1=>d|_=>2|3}; case(d){0=>d|1|_=>2}; case(d){0=>(d|1)|_=>2}; case(d){0=>if d then 1 else d|2|_=>3};
case(d){0=>case(q){1=>2|_=>3}|_=>4}; case(d){0=>1}; case(d){}; case(d){1=>}; case(d){_=>1|2=>3}; case d {_=>1}; case(d){x=>1|_=>2}; case(d){0=>1|2}; case(d){0=>1|2=>}; case(d){0=>d|1+2|_=>3}; case(d){0=>(d|1=>2)|_=>3};
case(d){_=>1}[0]; d[0][1]; (d)[0][1]; 3[0]; m; m+1; m[; m[]; m[0; d[]; d[:]; d[1:]; d[1:2:3]; d[m[0]]; 8'd; 8'x1; 3(d); 3{}; 3{d; {}; {,}; {d,}; (; (); (d; d+; +; d d; d 1; 1 d; d.p; d.type; <>'d1; <1>; <1>1; <1'd1; <1>'d input;
if; if d; if d then; if d then 1; if d then 1 else; then; else; let; val; d?; d?1; d?1:; d:1; d=>1; d=1; _; m[0][1]; ~; !; ~m[0]; d ^~ q; d ^ ~ q; d ~^ q; d~ ^q; & & d; d & & q; d && q; d & &q; <max(1,2)-(3+n)>'d1; <log()>'d1; <log 2>'d1; <max(1,)>'d1;
<ceil(floor(log(n)))>'d1; <d.p>'d1; <d.types>'d1; <1+>'d1; <-1>'d1; <(1>'d1; <1)>'d1; <(n)>'d1; <n n>'d1; <m.type+type.type+p>'d1; type; p; p[0]""".replace("\n", " ").split("; ")

BODIES = """q=d;; ;q=d; q=d q=d;; q; q=; q=d,; =d;; q==d;; q[0]=d;; m=d;; m[0]=d;; m[0]=m[1];m[d]=2;; m[0;; m[0]d;; let val x=d; in q=x; end; let val<2>x=d;val y=x; in q=y;m[0]=x; end q=d;; let in q=d; end; let val x=d; in end; let val x=d; q=x; end; let val x=d; in q=x;;
let val x d; in q=x; end; let val<>x=d; in q=x; end; let val<2 x=d; in q=x; end; let val =d; in q=x; end; let val x=d in q=x; end; let val m=d; in q=m; end; let val x=d; in let val y=d; in q=y; end end; val x=d;; end; in; let val x=d; in 1=x; end; 1=d;""".replace("\n", " ").split("; ")

LISTS = ["d.p.0", "d.p.1,q.p.0", "d.p.01", "d.p.2", "d.p.00", "d.p", "d.q.1", "d.p.1,", "", "d", "d p.1", "d.p.1 q.p.1", "d.p.x", "1.p.1", "p.p.1,type.p.0", "d.p.1,,q.p.1"]

HEADS = ["a", "1", "a(", "a()", "a(d", "a(d,)", "a(d q)", "a(d){", "a(d){}", "a(d){or(r(d.p.1){})}", "a(d){input;or(r(d.p.1){})}", "a(d){input d or(r(d.p.1){})}", "a(d){input d;}", "a(d){input d;or(r(d.p.1){})", "a(d){input d;or(r(d.p.1){})}}", "a(d){input d;or(r(d.p.1){})} a",
         "a(d){input<1 d;or(r(d.p.1){})}", "a(d){input<1>d;or(r(d.p.1){})}", "a(d){input<>d;or(r(d.p.1){})}", "a(d){input<n+log(3)>d;output<d.type>q;or(r(d.p.1){})}", "a(d){input 1;or(r(d.p.1){})}", "a(d){reg m;input d;or(r(d.p.1){})}", "a(d){input d;reg m;or(r(d.p.1){})}",
         "a(d){input d;reg m 4;ff<2>n;ff<n>k 007;or(r(d.p.1){m[0]=n[1];})}", "a(d){input d;reg;or(r(d.p.1){})}", "a(d){input d;reg m 4 5;or(r(d.p.1){})}", "a(d){input d;reg 4;or(r(d.p.1){})}", "a(d){input d;reg m n;or(r(d.p.1){})}", "a(d){input d;reg m;input q;or(r(d.p.1){})}", "a(d){input d;reg<m>m;or(r(d.p.1){m[0]=m[0];})}",
         "a(d){input d;reg d;or(r(d.p.1){d[0]=d[0];})}", "a(d){input d;reg m;reg m;or(r(d.p.1){m[0]=1;})}", "a(d){input d;or()}", "a(d){input d;or r(d.p.1){}}", "a(d){input d;and(or(r(d.p.1){}))}", "a(d){input d;and(or(r(d.p.1){})or(s(d.p.0){}))}", "a(d){input d;and()}", "a(d){input d;and(r(d.p.1){})}",
         "a(d){input d;and(or(r(d.p.1){})}", "a(d){input d;or(r(d.p.1){}s(d.p.0){d=1;})}", "a(d){input d;or(r(d.p.1){})or(s(d.p.1){})}", "a(d){input d;or(r d.p.1){})}", "a(d){input d;or(r(d.p.1)})}", "a(d){input d;or(r(d.p.1){)}", "a(d){input d;or(1(d.p.1){})}", "a(d){input d;or(or(d.p.1){})}", "a(a){input a;or(a(a.p.1){a=a;})}",
         "a d){input d;or(r(d.p.1){})}", "a(d)input d;or(r(d.p.1){})}", "a[d]", "", "/* c */", "input(d){input d;or(r(d.p.1){})}", "p(type){input type;output p;or(type(p.p.1,type.p.1){p=type;})}", "a(d){input d;or(r(d.p.1){q=@;})}", "a(d){input d;or(r(d.p.1){q=1a;})}", "a(d)/*"]

WHOLE = ["acc(d,q){input<4>d;output<d.type>q;reg<d.type>m 4;or(run(d.p.1,q.p.1){let val<2>x=d[1:0];val y={x,2'b01};in q=y+m[x];m[x]=q?1:2;end} rest(d.p.0){})}",
         "lfsr(roll,out){input<1>roll;output<8>out;ff<8>s;and(or(go(roll.p.1){s[0]={s[0],^8'hb8};out=case(roll){0=>s[0]|1=>~s[0]|_=>if roll then 1 else 0};}stay(roll.p.0){})or(x(out.p.0){}))}"]


def mutants(text, many, seed):
    """Texts with a word left out, said twice, or another in its place."""
    found = words(text)
    some = random.Random(seed)
    spelled = [text[p:p + n] for k, p, n in found]
    others = sorted(set(spelled)) + ["|", "?", ":", "=>", "if", "then", "else", "case", "_", "m", "p", "type", "1", "'d1", "max", "~&", "let"]
    for _ in range(many):
        l, i = list(spelled), some.randrange(len(spelled))
        how = some.randrange(3)
        l[i:i + 1] = [[], [l[i], l[i]], [some.choice(others)]][how]
        yield " ".join(l)


def actors():
    texts = [around("q=" + e + ";", "reg m;") for e in EXPRESSIONS] + [around(b, "reg<2>m 4;") for b in BODIES] + [around("q=d;", "", l) for l in LISTS] + HEADS + WHOLE
    for i, t in enumerate(WHOLE):
        texts += mutants(t, 55, i)
    return texts + [around("q=d" + "+d" * 40 + ";"), around("q=" + "(" * 20 + "d" + ")" * 20 + ";"), "a" * 31 + "(d){input d;or(r(d.p.1){})}", "a" * 32 + "(d)"]


def main():
    a31, a32 = "a" * 31, "a" * 32
    none = "0\n0\n"
    texts = [("", none), ("acc(d,q){input d;output<d.type>q;or(run(d.p.1){q=d+1;})}", none)]
    spelled = [a31, a32, "_" * 31, "_" * 30 + "a", "_" * 31 + "a", "_", "__", "_1", "1a", "a1", "9", "4294967295", "4294967296", "04294967295", "0" * 40 + "7", "42949672950",
             "/* x */a", "/* x", "/*/", "/**/", "/***/b", "a/*", "// x", "// x\ny", "//", "/", "/ /", "a /* b */ c // d\n e", "'", "'d", "'d ", "'d x", "'dx", "'d1", "'D9", "'d\tx", "'d/**/x",
             "'d//c\nx", "'d input", "'d foreach", "'d 1", "'d _", "'d _a", "'h", "'hfF0", "'hg", "'o7", "'o8", "'b01", "'b2", "'B1", "'x1", "8'd255", "8 'd255", "<3>'hff", "'d " + a31, "'d " + a32,
             "@", "$", "#", "a#b", "foreach", "foreach2", "instruction", "x @ y $", "input", "inputs", "floor ceil log max", "Input", "=>", "= >", "===", "<<<", "<=>", ">>=", "&&&", "|||", "~&|", "~^^~",
             "^~", "!==", "~", "^", "a.b[c:d]?e;f,{g}(h)%i*j-k+l", "\x01", "a\x00", "\x7f", "\"", "\\", "`", "é", "a\r\n\tb", "\x0b", "q=m[0];m[0]=m[0]+d;", "case(e){1=>2|_=>3}"]
    bounds = ["'d18446744073709551615", "'d18446744073709551616", "'hffffffffffffffff", "'h10000000000000000", "'b" + "1" * 64, "'B1" + "0" * 64, "'o1777777777777777777777", "'O2" + "0" * 21, "'d" + "9" * 100, "'d" + "0" * 50 + "7", "'hFf", "'HaB"]
    texts += [(w, none) for w in spelled + bounds]
    lines = ["", "0", "0\n", "00\n", "1", "1\n", "1\nd 4\n0\n", "1\nd 32\n0\n", "1\nd 33\n0\n", "1\nd 04\n0\n", "1\nd  4\n0\n", "1\nd 4 \n0\n", "1\nd 4\n0", "1\nd 4\n0\n ", "1\nd 4\n0\n0", "16\n", "17\n", "9\n", "2\nd 4\nd 5\n0\n",
             "2\nd 4\ndd 5\n0\n", "2\nd 4\ne 5\n1\nd 6\n", "0\n2\nn 1\nn 2\n", "0\n1\nn 65535\n", "0\n1\nn 65536\n", "0\n1\nn 0\n", "0\n1\nn 00\n", "0\n1\nn 100000\n", "1\n" + a31 + " 1\n0\n", "1\n" + a32 + " 1\n0\n", "1\n1d 1\n0\n",
             "1\n_ 1\n0\n", "1\n_1 1\n0\n", "1\n" + "_" * 31 + " 1\n0\n", "1\n" + "_" * 30 + "b 1\n0\n", "1\ninput 1\n0\n", "1\ninputs 1\n0\n", "1\nforeach 1\n0\n", "1\nd\t4\n0\n", "1\nd 4\r\n0\n", "1\n d 4\n0\n", "-1\n0\n", "a\n0\n", " 0\n0\n",
             "2\n" + a31 + " 1\n" + a31 + " 2\n0\n", "1\nd -1\n0\n", "1\nd x\n0\n", "1\n\n0\n", "2\nd 4\n0\n", "0\n1\n", "0\n16\n" + "".join("n%d %d\n" % (i, i) for i in range(16)), "16\n" + "".join("p%d %d\n" % (i, 2 * i) for i in range(16)) + "0\n", "0\n3\na 1\nb 2\na 3\n"]
    texts += [("x", b) for b in lines] + [("x", "1\nd 4\n0\n" + " " * 2041), ("\x01", "0\n0\n" + " " * 2044), (" " * 8193, "1")]
    texts += [(t, none) for t in actors()]
    here = os.path.join(os.path.dirname(os.path.abspath(__file__)), "..", "crates", "first_fault")
    data, out = b"", []
    for a, b in texts:
        for t in (a, b):
            raw = t.encode("utf-8")
            data += b"%d\n" % len(raw) + raw
        raw, place = a.encode("utf-8"), bindings(b)
        if len(raw) > 8192:
            out.append("1 8192")
        elif len(b) > 2048:
            out.append("1 2048")
        elif place is not None:
            out.append("2 %d" % place)
        else:
            out.append(actor(raw.decode("latin-1")))
            if out[-1].startswith("0"):
                out.append(said(raw))
    assert len(data) < 65536, "the program reads no more"
    open(os.path.join(here, "stdin"), "wb").write(data)
    open(os.path.join(here, "stdout"), "w").write("".join(l + "\n" for l in out))
    print(len(texts), "texts,", len(data), "bytes")


if __name__ == "__main__":
    main()
