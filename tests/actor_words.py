"""The words of an actor's text (rows 3 and 4), straight from document 01: what tests/tapes.py and tests/first_fault.py share."""
import re

KEYWORDS = "input output reg ff and or let val in end case if then else max log ceil floor".split()
LEFT_OUT = ["foreach", "instruction", "@", "$", "#"]
SPELLED = KEYWORDS + ["_", "'d"] + "=> == != << <= >> >= && || ~& ~| ~^ ( ) { } [ ] , ; : ? . = < > ! ~ & | ^ + - * / %".split() + LEFT_OUT
SIGNS = "=> == != << <= >> >= && || ~& ~| ~^ ^~ ( ) { } [ ] , ; : ? . = < > ! ~ & | ^ + - * / % @ $ #".split()
GAP = re.compile(r"[ \t\r\n]|//[^\n]*|/\*.*?\*/", re.S | re.A)
RUN = re.compile(r"[A-Za-z0-9_]+", re.A)
DIGITS = {"d": "[0-9]+", "o": "[0-7]+", "h": "[0-9a-fA-F]+", "b": "[01]+"}


def is_name(s):
    return bool(re.search("[A-Za-z0-9]", s)) and not s[0].isdigit() and len(s) <= 31 and s not in KEYWORDS


def word_at(t, p):
    """The word at p, as (kind, length); None where there is no right word."""
    c = t[p]
    if c in "0123456789":
        m = re.compile("[0-9]+").match(t, p)
        return (1, len(m.group())) if int(m.group()) <= 4294967295 else None
    m = RUN.match(t, p)
    if m:
        s = m.group()
        if s in KEYWORDS or s == "_" or s in LEFT_OUT:
            return 4 + SPELLED.index(s), len(s)
        return (2, len(s)) if is_name(s) else None
    if c == "'":
        base = t[p + 1:p + 2].lower()
        if base not in DIGITS or base == "":
            return None
        m = re.compile(DIGITS[base]).match(t, p + 2)
        if m:
            return 3, 2 + len(m.group())
        if base != "d":
            return None
        q = p + 2
        while GAP.match(t, q):
            q = GAP.match(t, q).end()
        m = RUN.match(t, q)
        return (23, 2) if q > p + 2 and m and is_name(m.group()) and m.group() not in LEFT_OUT else None
    if t.startswith("/*", p):
        return None
    for s in SIGNS:
        if t.startswith(s, p):
            return 4 + SPELLED.index("~^" if s == "^~" else s), len(s)
    return None


def words(t):
    """The words as (kind, place, length), or the fault of row 3 or 4 as a line."""
    p, found = 0, []
    while p < len(t):
        m = GAP.match(t, p)
        if m:
            p = m.end()
            continue
        w = word_at(t, p)
        if w is None:
            return "3 %d" % p
        found.append((w[0], p, w[1]))
        p += w[1]
    bad = [p for k, p, n in found if 60 <= k <= 64]
    return "4 %d" % min(bad) if bad else found


def constant(t, p, n):
    """The value of the sized constant at p, n bytes long, or `big` where 64 bits do not hold it."""
    v = int(t[p + 2:p + n], {"d": 10, "o": 8, "h": 16, "b": 2}[t[p + 1].lower()])
    return str(v) if v < 2 ** 64 else "big"
