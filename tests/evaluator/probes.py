#!/usr/bin/env python3
"""probes.py PROGRAM EVALUATOR: inputs written by hand at the edges of the rules, given to both programs; prints each
difference, and with a third argument every answer."""
import subprocess
import sys


def form(actor, bindings='0\n0\n', cycles='1\n7 5 3\n'):
    actor = actor if isinstance(actor, bytes) else actor.encode('latin-1')
    bindings = bindings if isinstance(bindings, bytes) else bindings.encode('latin-1')
    return b'%d\n%s%d\n%s%s' % (len(actor), actor, len(bindings), bindings, cycles.encode())


def body(text, ports='input<8>x;input<8>y;output<32>q;', mems='reg<8>m 4;', lists='x.p.1,y.p.1,q.p.1'):
    return 'a(x,y,q){%s%sor(r(%s){%s}s(x.p.0){})}\n' % (ports, mems, lists, text)


PROBES = []


def p(actor, bindings='0\n0\n', cycles='1\n7 5 3\n'):
    PROBES.append(form(actor, bindings, cycles))


def q(expr, bindings='0\n0\n', cycles='3\n7 5 3\n7 0 255\n7 170 9\n'):
    p(body('q=%s;' % expr), bindings, cycles)


W = '0\n1\nw 5\n'
# constants and words
for t in ["4'd in", "4'd foreach", "4'd instruction", "4'd 5", "4'd @", "4'd _", "4'd __", "4'd " + 'a' * 32, "4'd\tw",
          "4'd//c\nw", "4'd/**/w", "4'dw", "4'd(w)", "4'D w", "4'h w", "4'h", "4'b2", "4'b12", "4'o8", "4'hg", "4'x1",
          "4''d1", "'d1", "x 'd1", "4 'd 1", "4'd \"", "4'd w'd1", "w'd1", "4'd w[0]", "(4'd w)[0]", "4'd1[0]",
          "1abc", "0x1", "08", "00", "4294967295", "4294967296", "04294967295", "00004'd3", "1'd 1", "4'd w{x}",
          "0'd0", "0'd1", "64'd18446744073709551615", "64'd18446744073709551616==0", "65'd0", "4294967295'd0",
          "4294967296'd0", "<4>'d w", "<w>'d w", "<w-2>'d w", "<2>'d w", "<65>'d0==0", "<0-5>'d0", "<0-5>'d1", "<x>'d1",
          "<q.type>'d1", "<zz.type>'d1", "<m.type>'d1", "<w.type>'d1", "< 4 > 'hF", "<4>=1", "<4>>1", "<4>", "<4>x",
          "x<<4>'d3", "x< <4>'d3", "x<=<4>'d3", "x>=<4>'d3", "x><4>'d3", "x>>4>'d3"]:
    q(t, W if 'w' in t else '0\n0\n')
for t in ['__', '_', '___1', '_a', 'a' * 31, 'a' * 32, '_' * 31, '_' * 32, '_' * 30 + '1', '\x0b', '\x0c', '\x80',
          "'", '"', '\\', '`', '/', '/*', '/*/', '/**', '/* * /', '//', '*/', '\0']:
    q(t)
    p(body('q=x;').rstrip('\n') + t)
    p(body('q=x;') + t)
    p(t + body('q=x;'))
    p(t)
    q('x' + t + 'y')
for t in ['//', '/**/', '//x\ny', '/*\n*/', '/*/*/', '//*\n', '\r', '\t']:
    p(body('q=x;').rstrip('\n') + t)
    q('x+' + t + ' y')
# dotted
for t in ['x . p . 1', 'x.p .1', 'x.p.01', 'x.p.10', 'x.p.2', 'x.q.1', 'x.p', 'x.p.', 'x', 'x.p.1.e', 'x.p.1.op', 'x.p.0.e',
          'x.type', 'x.p.1,', ',x.p.1', 'x.p.1 y.p.1', 'x.p.1,x.p.1', 'x.p.1,x.p.0', 'm.p.1', 'zz.p.1', 'x.P.1', 'x.p.1;',
          'x..p.1', 'x.p.1'] :
    p(body('', lists=t), cycles='2\n7 5 3\n6 5 3\n')
for t in ['x . type', 'x.\ntype', 'x.Type', 'x.p', 'x.', '.type', 'type', 'type.type', 'x.type.type', 'x.type x']:
    p(body('q=1;', ports='input<8>x;input<8>y;output<%s>q;' % t), '0\n0\n')
# ends and empty texts
full = body('let val<4>v=x[3:0];in q={v,2{y}};end m[x]=case(y){0=>1|1=>2|_=>m[0]};')
for k in range(0, len(full)):
    p(full[:k])
p('')
p('\n')
# bindings
A1 = body('q=x;', ports='input x;input<8>y;output<32>q;')
N31 = 'a' * 31
for t in ['', '0', '0\n', '0\n0', '0\n0\n', '0\n0\n\n', '00\n0\n', '1\nx 8\n0\n', '1\nx 08\n0\n', '1\nx 33\n0\n', '1\nx 3', '1\nx  8\n0\n',
          '1\nin 8\n0\n', '1\nin1 8\n0\n', '1\nforeach 8\n0\n', '1\ninstruction 8\n0\n', '1\n_ 8\n0\n', '1\n__ 8\n0\n', '1\n_1 8\n0\n',
          '1\n' + N31 + ' 8\n0\n', '1\n' + N31 + 'a 8\n0\n', '2\n' + N31 + ' 8\n' + N31 + ' 8\n0\n', '2\n' + N31 + ' 8\n' + N31[1:] + 'b 8\n0\n',
          '2\n' + N31 + ' 8\n' + N31[1:] + ' 8\n0\n', '2\n' + N31[1:] + ' 8\n' + N31[1:] + ' 8\n0\n',
          '1\n' + '_' * 31 + ' 8\n0\n', '1\n' + '_' * 30 + '1 8\n0\n', '1\n' + '_' * 30 + ' 8\n0\n', '1\n' + '_' * 32 + ' 8\n0\n',
          '2\nx 8\nx 8\n0\n', '2\nx 8\nxx 8\n0\n', '16\n', '17\n', '1', '16', '160', '1\n1x 8\n0\n', '1\nx 8\n1\nx 8\n', '1\nx 8\n1\ny 8\n',
          '1\nx 8\n1\nr 8\n', '1\na 8\n0\n', '1\nm 8\n0\n', '0\n1\nx 8\n', '1\nx 8\n1\nw 65536\n', '1\nx 8\n1\nw 065\n', '1\nx 8\n1\nw 65535\n', '1\nx 8\n1\nw 6553',
          '1\nx -1\n0\n', '1\nx +1\n0\n', '1\nx\t8\n0\n', '1\nx 8\r\n0\n', '1\nx 8\n0\n\0', '1\nx', '1\nx ', '1\n', '\xff', '1\nx\xff 8\n0\n', '1\nx.p 8\n0\n',
          '1\nx 32\n0\n', '1\nx 0\n0\n', '1\nif 1\n0\n', '1\nmax 1\n0\n', '1\nfloor 1\n0\n', '1\nfloo 1\n0\n', '0\n' * 1025, '0\n' * 1024]:
    p(A1, t)
p('#' * 8193, '0\n' * 1025)
p('#' * 8192, '0\n' * 1025)
p('#' * 8192)
p('(' * 8192)
p(' ' * 8193)
# deep ones
for d in (100, 1000, 3900):
    q('(' * d + 'x' + ')' * d)
    q('(' * d)
    q('~' * 2 * d + 'x')
    q('~ ' * d + 'x')
    q('{' * d + 'x' + '}' * d)
    q('<' + '(' * d + '4' + ')' * d + ">'d3")
    q('x' + '?x:x' * (d // 2))
    q('x?' * d + 'x' + ':x' * d)
    q('if x then ' * (d // 10) + 'x' + ' else x' * (d // 10))
    q('m[' * d + 'x' + ']' * d)
    q('1{' * d + 'x' + '}' * d)
    q('case(x){_=>' * (d // 10) + 'x' + '}' * (d // 10))
    q('case(' * (d // 10) + 'x' + '){_=>1}' * (d // 10))
    q('x' + '+x' * d)
    q('<' + '4' + '-0' * d + ">'d3")
    q('<' + 'log(' * (d // 3) + '4' + ')' * (d // 3) + ">'d3")
# names
for d in ['input<8>x;input<8>y;output<32>q;output<3>x;', 'input<8>x;input<8>y;', 'input<8>x;input<8>y;output<32>q;output z;',
          'input<z.type>x;input<8>y;output<32>q;input<3>z;', 'input<8>x;input<8>y;output<32>q;input<8>m;', 'input<m.type>x;input<8>y;output<32>q;',
          'input<m>x;input<8>y;output<32>q;', 'input<q>x;input<8>y;output<32>q;', 'input<m.type>x;input<8>y;output<32>q;input<8>m;',
          'input<8>x;input<8>y;output<x>q;', 'input<8>x;input<8>x;input<8>y;output<32>q;', 'output<32>q;input<8>y;input<8>x;',
          'input<8>x;input<8>y;output<a>q;', 'input<8>x;input<8>y;output<r>q;', 'input<8>x;input<8>y;output<a.type>q;',
          'input<8>x;input<8>y;output<max(x.type,y)>q;', 'input<zz+8>x;input<yy.type>y;output<32>q;']:
    p(body('q=x;', ports=d))
    p(body('q=x;', ports=d), '1\nx 8\n1\na 8\n')
for sig in ['x,x,q', 'x,y,q,q', 'x,y', 'x,y,q,m', 'x,y,m', 'x,y,q,z', 'a,x,y,q', 'y,x,q', 'q,y,x', 'm,x,y,q', 'z,z', 'p,type,q']:
    p(body('q=x-y;').replace('a(x,y,q)', 'a(%s)' % sig))
for mm in ['reg<8>m;reg<8>m;', 'reg<8>x;', 'reg<8>q 4;', 'ff<8>m;', 'reg m;', 'reg<m>m;', 'reg<m.type>m;', 'reg<x.type>m;reg<m2.type>m2;', 'reg<8>m 0;',
           'reg<8>m 257;', 'reg<8>m 256;', 'reg<8>m 256;reg<8>n;', 'reg<8>m 255;reg<8>n;', 'reg<8>m 255;reg<8>n;ff<8>o 1;', 'reg<8>m 200;reg<8>n 0;reg<8>o 57;',
           'reg<8>m 200;reg<8>n 100;reg<8>o 300;', 'reg<8>m 00256;', 'reg<8>m 1 2;', 'reg<33>m;', 'reg<32>m;', 'reg<0>m 3;', '', 'reg<8>m 4294967295;reg<8>n 4294967295;']:
    p(body('q=x;', mems=mm))
    p(body('q=m[0];', mems=mm))
    p(body('q=m;', mems=mm))
    p(body('m[0]=1;', mems=mm))
    p(body('m=1;', mems=mm))
    p(body('x[0]=1;', mems=mm))
    p(body('q[0]=1;', mems=mm))
for t in ['let val v=x;in q=v;end', 'let val v=v;in q=v;end', 'let val v=x;val v=y;in q=v;end', 'let val x=1;in q=x;end', 'let val m=1;in q=m;end', 'let val m=1;in q=m[0];end',
          'let val q=1;in q=q;end', 'let val a=1;in q=a;end', 'let val r=1;in q=r;end', 'let val v=x;in v=1;end', 'let val v=x;in q=1;end q=v;', 'let val v=x;in q=1;end let val v=y;in m[v]=v;end',
          'let val v=w;in q=v;end', "let val w=4'd w;in q=<w>'d w;end", 'let val<w>v=1;in q=v[w-1];end', 'let val<v>v=1;in q=v;end', 'let val<v.type>v=1;in q=v;end',
          'let val v=u;val u=x;in q=v;end', 'let val<65>v=x;in q=x;end', 'let val<65>v=x[9];in q=x;end', 'let val<70>v={x,x,x,x,x,x,x,x,x};in q=v;end', 'let val<64>v=x;in q=v;end', 'let val<64>v=x;in q=(v)[0];end',
          'let val<64>v=x;in q=(v*1)[0];end', 'let val<0-3>v=x;in q=v;end', 'let val<0-3>v=0{x};in q=v;end', 'let val<4>v=x;in q={v,v,v,v,v,v,v,v,v};end', 'let val v=x[9];in q=v[20];end',
          'let val<32>v=x;in q=v;end', 'let val<33>v=x;in q=v;end', 'let val v={x,x,x,x,x,x,x,x,x};in q=v;end', 'let val v=1;in end', 'let in q=1;end', 'let val v=1 in q=1;end', 'let val v=1;q=1;end',
          'let val v=1;in let val u=1;in q=1;end end', 'let val v=1;in q=1;end;', 'let val<4>=1;in q=1;end', 'let val 4=1;in q=1;end', 'q=1;q=2;', 'm[0]=1;m[0]=1;', 'm[0]=1;m[4]=1;m[4]=1;',
          'm[x]=1;m[y]=2;', 'm[m[0]]=m[1]+1;m[m[0]+1]=2;', 'zz=1;', 'zz[0]=1;', 'x=1;', 'q=q;', 'q=q[0];', 'q=m[q];', 'm[q]=1;', 'q=zz[0];', 'q=zz;', 'q=(zz)[zz];', 'q=a;', 'q=r;', 'q=x[x];', 'q=x[x.type-1];',
          'q=x[q.type-32];', 'q=x[m];', 'q=x[m.type];', 'q=x[zz.type];', 'r=1;', 'let val v=1;in q=v;m[0]=v;end m[1]=v;', 'let val v=1;in zz=v;end', 'if=1;', 'q=1', 'q==1;', 'q=;', ';']:
    p(body(t), W if 'w' in t else '0\n0\n')
    p(body(t, lists='x.p.1,y.p.1'), W if 'w' in t else '0\n0\n')
    p(body(t, lists='y.p.1,x.p.0,q.p.1'), W if 'w' in t else '0\n0\n', '1\n6 1 1\n')
# row 11 places
for t in ['(x*y)', '((x))', '(x*y)*(x*y)*(x*y)', '(x*y*x*y)*(x*y*x*y)', '((x*y*x*y)*(x*y*x*y))*1', '1+((x*y*x*y)*(x*y*x*y)*1)', '~((x*y*x*y)*(x*y*x*y)*1)', '!((x*y*x*y)*(x*y*x*y)*1)',
          '{x,y[8]}', '{x,y[8],x[9]}', '{x,x,x,x,x,x,x,x,y[8]}', '{x,x,x,x,x,x,x,x,x}[0]', '({x,x,x,x,x,x,x,x,x})[0]', '({x,x,x,x,x,x,x,x,x})[99]', '{{x,x,x,x,x,x,x,x,x},x}', '64{x}', '8{x}', '9{x}', '65{x}', '0{x[9]}', '0{9{x}}',
          '8{8{x}}', '64{0{x}}', '64{x==y}', 'x?9{x}:1', 'x[9]?9{x}:1', 'x?x[9]:9{x}', 'if x[9] then 9{x} else 1', 'if 1 then x[9] else 9{x}', 'case(9{x}){_=>1}', 'case(x){0=>9{x}|_=>x[9]}', 'case(x){0=>1|_=>9{x}}', 'x<<9{x}',
          'x[9]+9{x}', '9{x}+x[9]', "2'd4", "2'd4+9{x}", "2'd3", '(x)[7:0]', '(x)[8:0]', '(x)[0:8]', '(x)[0-1]', '(x)[0-1:0]', '(x)[0:0-1]', 'x[7]', 'x[8]', 'x[65535]', 'x[65536]', 'x[0:7]', 'x[7:0]', '(0{x})[0]', 'm[0][0]', '(m[0])[7]', '(m[0])[8]',
          'm[9{x}]', 'm[x[9]]', 'm[m[x]]', '5{x}', '4{x}', '33{1}', '32{1}', '8{x}*0{x}', '8{x}*1', '8{x}==8{y}', '8{x}/8{y}', '8{x}%8{y}', '8{x}-8{y}==0', '(8{x}-8{y})[63:40]', '(8{x}<<63)[63:40]', '(8{x}>>63)', '(8{x}>>8{y})==0', '(~8{x})[0:31]',
          '(8{x})[0:63]==8{x}', '(8{x})[63:63]', '(8{x})[64]', '^8{x}', '&8{255}', '~&8{x}', '(+8{x})[63:40]', '8{x}&&8{y}', '(4{x}*4{y})[63:32]', '(4{x}*4{y})', '(4{x}+4{y})', '(4{x}-4{y})', '{1,4{x}}', '{x,y}[0]', '4{x}+{1,4{x}}']:
    q(t)
# case and choice grammar
for t in ['case(x){0=>if x then 2 else 3|1=>4|_=>5}', 'case(x){0=>if x then 2|1=>4 else 3|_=>5}', 'case(x){0=>if x|1=>3 then 2 else 3|_=>5}', 'case(x){0=>x?1:2|3=>4|_=>5}', 'case(x){0=>x?1|3=>4:5|_=>5}', 'case(x){0=>x?1|_=>4:5|_=>5}', 'case(x){_=>1|_=>2}', 'case(x){_=>1|2=>3}', 'case(x){_=>1|2}',
          'case(x){0=>1|2|3=>4|_=>5}', 'case(x){0=>1||2|3=>4|_=>5}', 'case(x){0=>1|2 3=>4|_=>5}', 'case(x){0=>1|2{1}|3=>4|_=>5}', "case(x){0=>1|2'd1|3=>4|_=>5}", 'case(x){0=>1+|2=>3|_=>4}', 'case(x){0=>1+|2|2=>3|_=>4}', 'case(x){0=>|2|2=>3|_=>4}', 'case(x){0=>1|}', 'case(x){0=>1|2}', 'case(x){}', 'case(x){0=>1}', 'case(x){|_=>1}', 'case(x){0=>1 _=>2}',
          'case(x){0=>1~|2|3=>4|_=>5}', 'case(x){0=>{1|2=>3}|_=>4}', 'case(x){0=>{1|2}|_=>4}', 'case(x){0=>m[1|2=>3]|_=>4}', 'case(x){0=>m[1|2]|_=>4}', 'case(x){0=>2{1|2=>3}|_=>4}', 'case(x){0=>case(y){3=>1|_=>2}|3=>4|_=>5}', 'case(x){0=>case(y){3=>1|_=>2|7}|3=>4|_=>5}', 'case(x){5=>case(y|1){3=>1|_=>2}+1|3=>4|_=>5}', 'case(x){5=>1|5=>2|_=>3}', 'case x {_=>1}', 'case(x){0x=>1|_=>2}', "case(x){1'd0=>1|_=>2}", 'case(x){00005=>7|_=>2}', 'case(x){-1=>7|_=>2}', 'case(x){(5)=>7|_=>2}', 'case(if x then y else 3){3=>1|_=>2}', '~case(x){_=>3}', 'case(x){_=>3}[0]', '(case(x){_=>3})[0]', 'case(x){_=>3}{x}', 'case(x){_=>if x then 1 else 2|4}', 'case(x){0=>1,_=>2}', 'case(x){0=>1|_=>2,}', 'case(x){0=>1|_=>2}|4', 'case(x){5=>~3|_=>2}', 'case(x){5=>!3|_=>2}', 'case(x){0=>1|4294967295=>3|_=>2}',
          'if x then y else 3+4', 'if x then y else 3?4:5', '1+if x then y else 3', '~if x then y else 3', '(if x then y else 3)+1', 'x?if y then 1 else 2:3', 'x?y:if x then 1 else 2', 'x?y:(if x then 1 else 2)', 'if if x then y else 3 then 1 else 2', 'if x then if y then 1 else 2 else 3', 'if x then 1', 'if x else 1', 'if x then else 1', 'if(x)then(1)else(2)', 'if x then 1 else', '2{if x then 1 else 0}', '{if x then 1 else 0,y}', '{y,if x then 1 else 0}', 'm[if x then 1 else 0]', '1?0:1?2:3', '1?1?0:1:3', '0?1:0?2:0?3:4', '1?2', '1?2:', '?1:2', '1:2', 'x?y[1:0]:2', 'x?y[1]:2', 'x?y:x[1:0]', 'x?1:2:3', '1?2:3=>4', 'x==y==1', 'x<y<1', 'x!=y==1', 'x|y&x^y', 'x~|y|x', 'x~&y&x', 'x^~y', 'x^ ~y', 'x~^y', 'x~ ^y', 'x&&y||x', 'x||y&&0', 'x-y-1', 'x/y/2', 'x%y*2', 'x<<1>>1', 'x>>1+1', '-x', 'x- -y', 'x+ +y', 'x++y', 'x--y', 'x&&&y', 'x& &y', 'x|||y', 'x~~y', '~~x', '!!x', '!~x', '~!x', '!=x', '^~x', '~^x', '^ ~x', '~ ^x', '~|x', '~&x', '~ |x', '&x&y', '|x|y', '^x^y', 'x<<<y', 'x===y', 'x!==y', 'x<=>y', 'x=>y', 'x<-y', 'x=y', 'x**y', 'x//y', 'x/ /y', 'x()', '()', '{}', '{,}', '{x,}', 'x,y', '2{}', '2{x,y}', '2{{x,y}}', '2 {x}', '2(x)', '(2){x}', '2{x}{y}', '2{2{x}}', 'x{y}', '2[0]', '(2)[0]', '(2)[2]', '(2)[1:0]', 'x[0][0]', '(x[0])[0]', '(x)[0][0]', 'x[]', 'x[:]', 'x[1:]', 'x[:1]', 'x[1:0:0]', 'x[1,0]', 'x[y]', 'x[(1)]', 'x[-1]', 'x[1*1]', 'x[max(1,2)]', 'x[1-max(1)]', 'x[log(4)]', 'x[log(5):0]', 'x[ceil(log(5)):0]', 'm[]', 'm[0:1]', 'm [0]', 'm[0,1]', 'm[m]', 'm[m[0]', 'm[0]]', 'let', 'val', 'end', 'max(1,2)', 'log(2)', '_', 'x.type', 'x.p.1']:
    q(t)
# types
for t in ['floor(log(3)+log(3))', 'floor(log(5+1))', 'log(7)-log(3)', '1-3', 'log(0)', 'log(1)', 'log(2)', 'log(0-5)', 'log(65535)', 'log(65535)+log(65535)', 'log(3)+log(3)+log(3)', 'log(3)+log(3)+floor(log(3))', 'floor(log(3)+log(3)+log(3))', 'max(log(3),log(5),log(7))', 'max(log(3),log(5))+log(7)', 'max(log(3))+max(log(5))', 'max(log(3),log(5))', 'max(log(9),3)+0', 'max(3,log(9))-log(9)+4',
          'max(1,2)-max(3)', 'max(1,2)-3', 'max(1,2)+max(3)', '1+max(2)', '1-2+max(2)', '(max(2))', '((max(2)))', '1+(max(2))', '1-(max(2))', '(1-max(2))', '1+(2-max(2))', '1+(2+max(2))', '(1+2)+max(3)', '(1-2)+max(3)', 'max(max(1))', 'max((max(1)))', 'max(1+max(1))', 'floor(max(1))', 'ceil(max(1))', 'log(max(4))', 'log(floor(max(4)))', 'log(log(4))', 'log(floor(log(4)))', 'log(ceil(log(4))+floor(log(4)))', 'log(floor(log(3)+log(3))+ceil(log(3)))', 'log(1+log(4))', 'log(4)+log(log(3))', 'floor(log(4))+floor(log(4))+floor(log(4))', 'floor(floor(log(4))+log(4)+log(3))',
          '8-x.type', '8-(x.type)', '8-1+x.type', 'x.type-1', '8-log(x.type)', '8-floor(x.type)', '8-max(x.type)', '(8-x.type)+1', 'log(8-x.type)', 'log(x.type-3)', 'max(8-x.type)', '8-(1+x.type)', '8-(1-x.type)', '65535', '65536', '65535-65530', '65536-65530', '65535+65535-65535-65530', 'log(65536)', '1-65536', 'q.type', 'q.type+1', 'q.type+0', 'max(q.type,3)', 'max(q.type,x.type)', 'q.type+q.type', 'q.type+q.type-3', 'max(q.type+q.type-3,4)', 'max(q.type+q.type-3,2)', 'log(q.type)', 'log(q.type)+log(q.type)', 'log(q.type)+log(q.type)+1', 'ceil(log(q.type))+3', 'ceil(log(q.type)+log(q.type))', 'floor(log(q.type))+30', 'floor(log(q.type))+28', 'floor(log(q.type))+27', 'ceil(log(q.type))+27',
          '32', '33', '0', '31+1', '32+1', 'w', 'w+w', '1-w', 'w.type', 'm.type', 'x', 'q', 'm', 'log', 'log()', 'log 4', 'max()', 'max(1,)', 'max 1', '()', '1+', '+1', '-1', '1 2', '1,2', '1*2', '(1', '1)', 'ceil(1,2)', 'instruction.type', '@x.type', '$x', '<1>', '', 'floor(0-log(3))+5', 'ceil(0-log(3))+5', '5-log(3)', '5-log(3)-log(3)', '5-(log(3)-log(3))', '5-ceil(log(3)-log(3))', 'log(3)-log(3)', 'log(3)-log(3)+log(3)', 'floor(log(3)-log(5))+5', 'ceil(log(3)-log(5))+5', 'log(4)-log(8)+2', 'log(6)-log(3)', 'log(3)+log(5)', 'log(15)', 'log(17)-log(2)', 'floor(ceil(log(3)))', 'max(0-5)', 'max(0-5,0-3)+10', 'max(0-log(3),0-2)+10']:
    p(body('q=1;', ports='input<5>x;input<8>y;output<%s>q;' % t), W if 'w' in t and 'w.type' not in t else '0\n0\n')
    p(body('q=1;', ports='input<5>x;input<8>y;output<%s>q;' % t), '1\nq 7\n0\n')
    p(body("q=<%s>'d0;" % t, ports='input<5>x;input<8>y;output<32>q;'), W if 'w' in t and 'w.type' not in t else '0\n0\n')
    p(body("q={1'd1,<%s>'d0};" % t, ports='input<5>x;input<8>y;output<32>q;'), W if 'w' in t and 'w.type' not in t else '0\n0\n')
    p(body("let val<%s>v=0{x};in q={1'd1,v};end" % t, ports='input<5>x;input<8>y;output<32>q;'), W if 'w' in t and 'w.type' not in t else '0\n0\n')
# overridden types and unused environment names
p(body('q=1;', ports='input<w>x;input<8>y;output<32>q;'), '1\nx 8\n0\n')
p(body('q=1;', ports='input<w>x;input<8>y;output<32>q;'), '1\nx 8\n1\nw 40\n')
p(body('q=1;', ports='input<40>x;input<8>y;output<32>q;'), '1\nx 8\n0\n')
p(body('q=1;', ports='input<65536>x;input<8>y;output<32>q;'), '1\nx 8\n0\n')
p(body('q=1;', ports='input x;input y;output<w>q;'), '2\nx 8\nzz 3\n1\nv 3\n')
p(body('q=1;', ports='input x;input y;output<w>q;'), '0\n1\nv 3\n')
p(body('q=1;', ports='input x;input y;output<w>q;'), '2\nx 8\ny 3\n0\n')
p(body('q=1;', ports='input<y.type>x;input<q.type>y;output<x.type>q;'))
p(body('q=0{x};', ports='input<y.type>x;input<q.type>y;output<x.type>q;'), cycles='2\n7 0 0\n7 1 0\n')
p(body('q=0{x};', ports='input<y.type+1>x;input<q.type>y;output<x.type>q;'))
# groups, rules, row 12
G = 'a(x,y,q){input<8>x;input<8>y;output<32>q;reg<8>m 4;%s}\n'
for t in ['and(or(r(x.p.1,q.p.1){q=x;})or(s(y.p.1,q.p.1){q=y;}))', 'and(or(r(x.p.1,q.p.1){q=x;}s(x.p.0,q.p.1){q=1;})or(s(y.p.1){}))', 'and(or(r(x.p.1,q.p.1){m[0]=x;})or(s(y.p.1,q.p.1){m[0]=y;}))',
          'and(or(r(x.p.1){q=x;})or(s(y.p.1,q.p.1){q=y;}))', 'or(r(x.p.1,q.p.1){q=y;})', 'or(r(x.p.1,q.p.1){q=x[0];q=y;})', 'or(r(x.p.1,q.p.1){q=1;q=y;})', 'or(r(x.p.1,q.p.0){q=1;})', 'or(r(x.p.1){m[y]=1;})', 'or(r(x.p.1){m[0]=y[0];})', 'or(r(x.p.1){m[0]=0{y};})', "or(r(x.p.1){m[0]=<y.type-y.type>'d0;})", "or(r(x.p.1){m[0]=<y.type>'d1;})", 'or(r(x.p.1){let val v=y;in m[0]=1;end})',
          'or()', 'and()', 'and(or())', 'and(or(r(x.p.1){}))', 'and(r(x.p.1){})', 'or(or(r(x.p.1){}))', 'or(r(){})', 'or(r(x.p.1))', 'or(r(x.p.1){}),', 'or(r(x.p.1){},s(x.p.0){})', 'or(r(x.p.1){};)', 'and(or(r(x.p.1){}),or(s(y.p.1){}))', 'r(x.p.1){}', '', 'or(r(x.p.1){})or(s(x.p.0){})', 'or(r(x.p.1){}r(x.p.0){})', 'or(x(x.p.1){}m(x.p.0){})', 'or(_(x.p.1){})', 'or(type(x.p.1){})', 'or(1(x.p.1){})', 'or(input(x.p.1){})',
          'and(or(r(x.p.1){})or(s(y.p.1){}s(x.p.1){})or(t(q.p.1){}))', 'and(or(r(x.p.0){})or(s(y.p.1){}s(x.p.1){}))', 'and(or(s(y.p.1){}s(x.p.1){})or(r(x.p.0){}))']:
    p(G % t, cycles='8\n7 5 3\n6 5 3\n5 5 3\n3 5 3\n0 999 999\n8 1 1\n7 256 1\n6 256 1\n')
# the run's form
ok = form(body('q=x;'), '0\n0\n', '')
for t in ['', '0', '0\n', '1\n7 5 3', '1\n7 5 3\n', '1\n7 5\n', '1\n7 5 3 \n', '1\n7  5 3\n', '1\n07 5 3\n', '1\n7 5 03\n', '1\n 7 5 3\n', '2\n7 5 3\n', '01\n7 5 3\n', '1\r\n7 5 3\n', '1\n4294967295 1 1\n', '1\n4294967296 1 1\n', '1\n7 18446744073709551615 1\n',
          '1\n7 18446744073709551616 1\n', '1\n6 18446744073709551615 1\n', '1\n6 18446744073709551616 1\n', '99999999999999999999999\n7 5 3\n', '4294967296\n7 5 3\n', '18446744073709551616\n7 5 3\n', '-1\n', '1\n7 5 3\nrest', '0\nrest', '0 \n', '1\n\n7 5 3\n', '1\n7\t5 3\n', '1\n7 5 3 4\n', '1\n7 5 -3\n']:
    PROBES.append(ok + t.encode())
A = body('q=x;').encode()
for t in [b'', b'0', b'0\n', b'0\n0\n', b'0\n4\n0\n0\n', b'0\n4\n0\n0\n0\n', b'5', b'5\n', b'-1\n', b' 5\nabc', b'%d\n%s' % (len(A), A), b'%d\n%s4' % (len(A), A), b'%d\n%s4\n0\n0' % (len(A), A), b'%d\n%s3\n0\n00\n' % (len(A), A), b'%d\n%s4\n0\n0\n0\n' % (len(A) - 1, A[:-1]),
          b'0%d\n%s4\n0\n0\n0\n' % (len(A), A), b'%d \n%s4\n0\n0\n0\n' % (len(A), A), b'99999999999999999999999\n%s4\n0\n0\n0\n' % A, b'18446744073709551616\nabc', b'18446744073709551615\nabc', b'%d\n%s99999999999999999999\n0\n0\n0\n' % (len(A), A), b'3\n###0\n', b'3\n###4\n0\n0\n', b'3\n###4\n0\n0\nx',
          b'3\n###5\n0\n0\n', b'8193\n' + b'#' * 8193 + b'5\n0\n0\n', b'8193\n' + b'#' * 8193 + b'4\n0\n0\n', b'8193\n' + b'#' * 8192, b'20000\n' + b'#' * 20000 + b'4\n0\n0\n', b'%d\n%s3000\n' % (len(A), A) + b'0' * 3000]:
    PROBES.append(t)


def answer(program, data):
    done = subprocess.run([program], input=data, stdout=subprocess.PIPE, stderr=subprocess.PIPE, timeout=20)
    return done.stdout + (b'' if done.returncode == 0 else b'exit %d\n' % done.returncode)


different = 0
for n, data in enumerate(PROBES):
    a, b = answer(sys.argv[1], data), answer(sys.argv[2], data)
    if a != b or len(sys.argv) > 3:
        different += a != b
        print('=== probe %d%s' % (n, '' if a == b else ' DIFFERS'))
        sys.stdout.flush()
        sys.stdout.buffer.write(data[:700] + b'\n--- program\n' + a + b'--- evaluator\n' + b)
        sys.stdout.buffer.flush()
print('%d agreed, %d differ' % (len(PROBES) - different, different))
sys.exit(1 if different else 0)
