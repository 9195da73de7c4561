#!/usr/bin/env python3
"""The vectors of crates/value_vectors: its stdin, and its stdout by document 01's words alone.

Run it at the root of the repository: tests/value_vectors.py. It writes both files anew, the same each time.
A line is: which operator, two widths (or places, or masks), two operands. An operator's number is that of `answer`.
"""

import pathlib
import random

WIDTHS = [0, 1, 2, 7, 8, 31, 32, 33, 63, 64]
BETWEEN = ["*", "/", "%", "+", "-", "<<", ">>", "<", "<=", ">", ">=", "==", "!=",
           "&", "~&", "^", "~^", "|", "~|", "&&", "||"]
BEFORE = ["~", "+", "!", "&", "~&", "|", "~|", "^", "~^"]


def bits(value, width):
    """The bits of a value, the highest first, as text: what 01 speaks of."""
    text = bin(value)[2:] if value else ""
    assert len(text) <= width, (value, width)
    return "0" * (width - len(text)) + text


def number(text):
    return int(text, 2) if text else 0


def width_between(op, m, n):
    if op == "*":
        return m + n
    if op in ("/", "%", "<<", ">>"):
        return m
    if op in ("<", "<=", ">", ">=", "==", "!=", "&&", "||"):
        return 1
    return max(m, n)


def value_between(op, m, n, a, b):
    w = width_between(op, m, n)
    if op == "*":
        return a * b
    if op == "/":
        return number("1" * w) if b == 0 else a // b
    if op == "%":
        return a if b == 0 else a - b * (a // b)
    if op == "+":
        return number(bits(a + b, 130)[130 - w:])
    if op == "-":
        return number(bits(a - b if a >= b else a - b + 2**w, 130)[130 - w:])
    if op == "<<":
        return 0 if b >= w else number((bits(a, w) + "0" * b)[b:])
    if op == ">>":
        return 0 if b >= w else number(bits(a, w)[:w - b])
    if op in ("<", "<=", ">", ">=", "==", "!="):
        return {"<": a < b, "<=": a <= b, ">": a > b, ">=": a >= b, "==": a == b, "!=": a != b}[op] + 0
    if op in ("&&", "||"):
        return {"&&": a != 0 and b != 0, "||": a != 0 or b != 0}[op] + 0
    kept = {"&": "11", "|": "01 10 11", "^": "01 10", "~&": "00 01 10", "~|": "00", "~^": "00 11"}[op].split()
    return number("".join("1" if x + y in kept else "0" for x, y in zip(bits(a, w), bits(b, w))))


def value_before(op, w, a):
    text = bits(a, w)
    if op == "~":
        return number("".join("1" if x == "0" else "0" for x in text))
    if op == "+":
        return a
    if op == "!":
        return 1 if a == 0 else 0
    reduced = {"&": "0" not in text, "|": "1" in text, "^": text.count("1") % 2 == 1}[op.strip("~")]
    return (not reduced if op.startswith("~") else reduced) + 0


def answer(what, m, n, a, b):
    """None where the operands do not fit."""
    if what >= 100:
        if what - 100 < len(BETWEEN):
            return width_between(BETWEEN[what - 100], m, n) if m <= 64 and n <= 64 else None
        return m if BEFORE[what - 121] in ("~", "+") and what < 123 else 1
    if what <= 20:
        op = BETWEEN[what]
        if m > 64 or n > 64 or a.bit_length() > m or b.bit_length() > n or width_between(op, m, n) > 64:
            return None
        return value_between(op, m, n, a, b)
    if what <= 29:
        return None if m > 64 or a.bit_length() > m else value_before(BEFORE[what - 21], m, a)
    if what == 30:
        return number(bits(a, 64)[max(0, 64 - m):])
    if what == 31:
        return max(1, len(bin(a)[2:]) if a else 0)
    if what == 32:
        return bin(m).count("1")
    if what == 33:
        ports = [(m >> i & 1, n >> i & 1, a >> i & 1) for i in range(32)]
        return 1 if all((not p or here) and (not q or not here) for here, p, q in ports) else 0
    if what == 34:
        if m + n > 64 or a.bit_length() > m or b.bit_length() > n:
            return None
        return number(bits(a, m) + bits(b, n))
    if what == 35:
        return None if n > 64 or m > 64 or m * n > 64 or a.bit_length() > m else number(bits(a, m) * n)
    if what == 36:
        return None if m > 63 or n > 63 else abs(m - n) + 1
    if what == 37:
        if m > 63 or n > 63:
            return None
        text = bits(a, 64)[::-1]
        return number(text[n:m + 1][::-1]) if m >= n else number(text[m:n + 1])
    return b if m == 0 else a


def below(rng, w):
    """A value of w bits: an edge, or any."""
    edges = [0, 1, 2**w - 1, 2**w >> 1, 2**w // 3]
    return min(rng.choice(edges + [rng.randrange(2**w)] * 4), 2**w - 1)


def vectors():
    rng = random.Random(1)
    # the examples (8) to (13) of document 01
    yield from [(3, 8, 8, 200, 100), (4, 4, 4, 3, 5), (1, 4, 4, 9, 0), (37, 0, 3, 3, 0), (34, 2, 3, 2, 5), (35, 3, 2, 5, 0)]
    for what in range(21):
        pairs = [(0, 0), (0, 64), (1, 0), (1, 1), (31, 33), (32, 32), (33, 31), (63, 1), (64, 0), (64, 64), (64, 8), (8, 64)]
        pairs += [(rng.choice(WIDTHS), rng.choice(WIDTHS)) for _ in range(6)]
        for m, n in pairs:
            a, b = below(rng, m), below(rng, n)
            yield what, m, n, a, rng.choice([b, b, min(a, 2**n - 1), 0])
        yield what, 64, 64, 2**64 - 1, 2**64 - 1
        yield what, 8, 64, 255, rng.choice([64, 65, 128, 2**32, 2**63])
        yield what, 4, 4, 16, 1
        yield what, 65, 1, 1, 1
        yield 100 + what, rng.choice(WIDTHS), rng.choice(WIDTHS), 0, 0
        yield 100 + what, 63, 64, 0, 0
    for what in range(21, 30):
        for w in WIDTHS:
            yield what, w, 0, rng.choice([0, 2**w - 1, below(rng, w)]), 0
        yield what, 64, 0, rng.randrange(2**64), 0
        yield what, 33, 0, rng.randrange(2**33), 0
        yield what, 3, 0, 8, 0
        yield 100 + what, rng.choice([0, 5, 64]), 0, 0, 0
    for w in WIDTHS + [65, 4294967295]:
        yield 30, w, 0, 2**64 - 1, 0
        yield 30, w, 0, rng.randrange(2**64), 0
    for k in [0, 1, 2, 3, 4, 255, 256, 65535, 2**31, 2**32 - 1, 2**32, 2**63 - 1, 2**63, 2**64 - 1, rng.randrange(2**64)]:
        yield 31, 0, 0, k, 0
    for k in [0, 1, 2**31, 2**32 - 1, 0xAAAA, rng.randrange(2**32), rng.randrange(2**16)]:
        yield 32, k, 0, 0, 0
    for _ in range(12):
        mask = rng.randrange(2**32)
        yield 33, mask, mask & rng.randrange(2**32), ~mask & rng.randrange(2**32), 0
        yield 33, mask, mask | 1 << rng.randrange(32), ~mask & rng.randrange(2**32), 0
        yield 33, mask, mask & rng.randrange(2**32), 1 << rng.randrange(32), 0
    for m, n in [(0, 0), (0, 64), (64, 0), (1, 63), (63, 1), (32, 32), (31, 33), (33, 32), (64, 1), (2, 3)]:
        yield 34, m, n, below(rng, m), below(rng, n)
        yield 34, m, n, 2**m - 1, 2**n - 1
    for w, k in [(0, 0), (0, 64), (0, 65), (64, 0), (64, 1), (1, 64), (2, 32), (3, 21), (3, 22), (32, 2), (33, 2), (31, 2), (65, 0), (8, 8)]:
        yield 35, w, k, below(rng, w) % 2**64, 0
        yield 35, w, k, (2**w - 1) % 2**64, 0
    places = [(0, 0), (63, 0), (0, 63), (63, 63), (31, 32), (32, 31), (0, 3), (3, 0), (7, 64), (64, 7), (5, 4), (4, 5)]
    for i, j in places + [(rng.randrange(64), rng.randrange(64)) for _ in range(20)]:
        yield 36, i, j, 0, 0
        yield 37, i, j, rng.randrange(2**64), 0
    for c in [0, 1, 2, 2**32 - 1]:
        yield 38, c, 0, rng.randrange(2**64), rng.randrange(2**64)


def main():
    here = pathlib.Path("crates/value_vectors")
    lines = list(vectors())
    (here / "stdin").write_text("".join("%d %d %d %d %d\n" % line for line in lines))
    gives = [answer(*line) for line in lines]
    (here / "stdout").write_text("".join("refused\n" if g is None else "%d\n" % g for g in gives))
    print(len(lines), "vectors,", sum(g is None for g in gives), "refused")


if __name__ == "__main__":
    main()
