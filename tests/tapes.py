"""The tape of an actor, or its first fault of rows 1, 3, 4 and 5.

The grammar of document 01 and the manual's section 4 stands here as plain productions, read by Earley's method: every reading is
followed at once, so a fault is the first word with which none of them goes on, whatever the order in which a reader tries things."""
from actor_words import SPELLED, words

KIND = {s: 4 + i for i, s in enumerate(SPELLED)}
LEVELS = ["* / %", "+ -", "<< >>", "< <= > >=", "== !=", "& ~& ^ ~^", "| ~|", "&&", "||"]
# the operators in the order of their numbers (docs/PLAN.md): before an operand, and between two
BEFORE = "~ + ! & ~& | ~| ^ ~^".split()
BETWEEN = "* / % + - << >> < <= > >= == != & ~& ^ ~^ | ~| && ||".split()


def item(op, place=0, value=0):
    return [op, place, value]


# ---- productions: (left side, right side, what the parts give). A part in quotes is that word; NUM, DIGITS, NAME, MEM (a name that is a
# memory's), PLAIN (any other name), TYPE, P, ONE and ZERO are words with their place and value.
RULES = []


def rule(left, right, gives):
    RULES.append((left, right.split(), gives))


def both(op, value=0):
    return lambda a, o, b: a + b + item(op, 0, value)


def called(op):
    return lambda f, o, a, c: a + item(op, f.at)


rule("type", "term", lambda a: a)
rule("type", "type '+' term", both(4))
rule("type", "type '-' term", both(5))
rule("term", "NUM", lambda n: item(1, n.at, n.value))
rule("term", "NAME", lambda n: item(2, n.at))
rule("term", "NAME '.' TYPE", lambda n, d, t: item(3, n.at))
rule("term", "'log' '(' type ')'", called(6))
rule("term", "'ceil' '(' type ')'", called(7))
rule("term", "'floor' '(' type ')'", called(8))
rule("term", "'max' '(' entries ')'", called(9))
rule("term", "'(' type ')'", lambda o, a, c: a + item(11, o.at))
rule("entries", "type", lambda a: a)
rule("entries", "entries ',' type", both(10))

rule("expr", "'if' expr 'then' expr 'else' expr", lambda i, a, t, b, e, c: a + b + c + item(28, i.at))
rule("expr", "choice", lambda a: a)
rule("choice", "level8", lambda a: a)
rule("choice", "choice '?' expr ':' level8", lambda a, q, b, c, d: a + b + d + item(27))
for level, signs in enumerate(LEVELS):
    tighter = "level%d" % (level - 1) if level else "operand"
    rule("level%d" % level, tighter, lambda a: a)
    for sign in signs.split():
        rule("level%d" % level, "level%d '%s' %s" % (level, sign, tighter), both(26, BETWEEN.index(sign)))
rule("operand", "NUM", lambda n: item(16, n.at, n.value))
rule("operand", "NUM amount", lambda n, a: item(12, n.at, n.value) + a)
rule("operand", "'<' type '>' amount", lambda o, t, c, a: t + item(13, o.at) + a)
rule("amount", "DIGITS", lambda n: item(14, n.at))
rule("amount", "''d' NAME", lambda d, n: item(15, n.at))
rule("operand", "NUM '{' expr '}'", lambda n, o, e, c: e + item(17, n.at, n.value))
rule("operand", "MEM '[' expr ']'", lambda n, o, a, c: a + item(19, n.at))
rule("sliced", "PLAIN", lambda n: item(18, n.at))
rule("sliced", "'(' expr ')'", lambda o, e, c: e + item(22, o.at))
rule("operand", "sliced", lambda e: e)
rule("operand", "sliced '[' type ']'", lambda e, o, i, c: e + i + item(20, o.at))
rule("operand", "sliced '[' type ':' type ']'", lambda e, o, i, d, j, c: e + i + j + item(21, o.at))
rule("operand", "'{' parts '}'", lambda o, e, c: e + item(23, o.at))
rule("parts", "expr", lambda a: a)
rule("parts", "parts ',' expr", both(24))
for number, sign in enumerate(BEFORE):
    rule("operand", "'%s' operand" % sign, lambda o, e, number=number: e + item(25, o.at, number))
rule("operand", "'case' '(' expr ')' '{' arms", lambda s, o, e, c, b, a: e + item(29, s.at) + a + item(30, s.at))
rule("arms", "NUM '=>' expr '|' arms", lambda n, w, a, b, c: a + c + item(31, n.at, n.value))
rule("arms", "'_' '=>' expr '}'", lambda d, w, a, c: a + item(32, d.at))

rule("assignment", "PLAIN '=' expr ';'", lambda n, i, e, s: e + item(33, n.at))
rule("assignment", "MEM '[' expr ']' '=' expr ';'", lambda n, o, a, c, i, e, s: a + e + item(34, n.at))
rule("val", "'val' NAME '=' expr ';'", lambda v, n, i, e, s: e + item(37, n.at))
rule("val", "'val' '<' type '>' NAME '=' expr ';'", lambda v, o, t, c, n, i, e, s: t + e + item(37, n.at, 1))
rule("statement", "assignment", lambda a: a)
rule("statement", "'let' vals 'in' assignments 'end'", lambda l, v, i, a, e: item(35) + v + a + item(36))
rule("entry", "NAME '.' P '.' ONE", lambda n, d, p, e, f: item(38, n.at, 1))
rule("entry", "NAME '.' P '.' ZERO", lambda n, d, p, e, f: item(38, n.at, 0))
rule("rule", "NAME '(' ports ')' '{' '}'", lambda n, o, l, c, b, d: item(39, n.at) + l + item(40))
rule("rule", "NAME '(' ports ')' '{' statements '}'", lambda n, o, l, c, b, s, d: item(39, n.at) + l + s + item(40))
rule("group", "'or' '(' rules ')'", lambda w, o, l, c: item(41, w.at) + l + item(42))
rule("constraint", "group", lambda g: g)
rule("constraint", "'and' '(' groups ')'", lambda a, o, l, c: l)
for many, one in (("vals", "val"), ("assignments", "assignment"), ("statements", "statement"), ("rules", "rule"), ("groups", "group"), ("inputs", "port"), ("memories", "memory")):
    rule(many, one, lambda a: a)
    rule(many, many + " " + one, lambda a, b: a + b)
for many, one in (("ports", "entry"), ("signature", "signed")):
    rule(many, one, lambda a: a)
    rule(many, many + " ',' " + one, lambda a, c, b: a + b)
rule("signed", "NAME", lambda n: item(46, n.at))
for way, number in (("input", 1), ("output", 0)):
    rule("port", "'%s' NAME ';'" % way, lambda w, n, s, v=2 * number: item(43, n.at, v))
    rule("port", "'%s' '<' type '>' NAME ';'" % way, lambda w, o, t, c, n, s, v=2 * number + 1: t + item(43, n.at, v))
for word in ("reg", "ff"):
    rule("memory", "'%s' NAME ';'" % word, lambda w, n, s: item(44, n.at))
    rule("memory", "'%s' NAME NUM ';'" % word, lambda w, n, m, s: item(45, m.at, m.value) + item(44, n.at))
    rule("memory", "'%s' '<' type '>' NAME ';'" % word, lambda w, o, t, c, n, s: t + item(44, n.at, 1))
    rule("memory", "'%s' '<' type '>' NAME NUM ';'" % word, lambda w, o, t, c, n, m, s: t + item(45, m.at, m.value) + item(44, n.at, 1))
rule("actor", "NAME '(' signature ')' '{' inputs constraint '}'", lambda n, o, s, c, b, i, g, d: item(47, n.at) + s + i + g)
rule("actor", "NAME '(' signature ')' '{' inputs memories constraint '}'", lambda n, o, s, c, b, i, m, g, d: item(47, n.at) + s + i + m + g)

BY_LEFT = {}
for number, (left, right, gives) in enumerate(RULES):
    BY_LEFT.setdefault(left, []).append(number)


# ---- reading

class Word:
    def __init__(self, text, kind, at, long):
        self.kind, self.at, self.spelled = kind, at, text[at:at + long]
        self.value = int(self.spelled) if kind == 1 else 0


def memories(found):
    """The names declared after `reg` or `ff`: the next name, past a type in < >."""
    names = set()
    for i, w in enumerate(found):
        if w.kind in (KIND["reg"], KIND["ff"]):
            j = i + 1
            if j < len(found) and found[j].kind == KIND["<"]:
                while j < len(found) and found[j].kind != KIND[">"]:
                    j += 1
                j += 1
            if j < len(found) and found[j].kind == 2:
                names.add(found[j].spelled)
    return names


def fits(part, w, known):
    if part.startswith("'"):
        return w.kind == KIND[part[1:-1] if part != "''d'" else "'d"]
    name = w.kind == 2
    figure = w.kind == 1 and len(w.spelled) == 1
    return {"NUM": w.kind == 1, "DIGITS": w.kind == 3, "NAME": name, "MEM": name and w.spelled in known, "PLAIN": name and w.spelled not in known, "TYPE": name and w.spelled == "type",
            "P": name and w.spelled == "p", "ONE": figure and w.value == 1, "ZERO": figure and w.value == 0}[part]


def read(found):
    """The tape, or the index of the first word with which no reading goes on."""
    known = memories(found)
    states = [{}]

    def add(i, key, parts, todo):
        if key not in states[i]:
            states[i][key] = parts
            todo.append(key)

    todo = []
    for number in BY_LEFT["actor"]:
        add(0, (number, 0, 0), [], todo)
    for i in range(len(found) + 1):
        if i == len(states):
            return i - 1
        todo = list(states[i])
        while todo:
            number, dot, start = key = todo.pop()
            left, right, gives = RULES[number]
            parts = states[i][key]
            if dot == len(right):
                tape = gives(*parts)
                for other, d, s in list(states[start]):
                    if d < len(RULES[other][1]) and RULES[other][1][d] == left:
                        add(i, (other, d + 1, s), states[start][(other, d, s)] + [tape], todo)
            elif right[dot] in BY_LEFT:
                for other in BY_LEFT[right[dot]]:
                    add(i, (other, 0, i), [], todo)
            elif i < len(found) and fits(right[dot], found[i], known):
                if len(states) == i + 1:
                    states.append({})
                states[i + 1][(number, dot + 1, start)] = parts + [found[i]]
    for number in BY_LEFT["actor"]:
        done = states[-1].get((number, len(RULES[number][1]), 0))
        if done is not None:
            return RULES[number][2](*done)
    return len(found)


def said(raw):
    if len(raw) > 8192:
        return "1 8192"
    text = raw.decode("latin-1")
    found = words(text)
    if isinstance(found, str):
        return found
    found = [Word(text, *w) for w in found]
    tape = read(found)
    if isinstance(tape, int):
        return "5 %d" % (found[tape].at if tape < len(found) else len(text))
    return "0 " + "".join("%d " % n for n in tape)
