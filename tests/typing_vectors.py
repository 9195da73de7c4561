#!/usr/bin/env python3
"""Makes crates/typing_vectors/stdin and stdout: types and systems of types in code, and what document 01, "Widths", says of them.

The arithmetic is exact and its own: a value is (k, A, B), "the terms without a log come to k, the arguments of the added logs multiply to A and those of
the subtracted ones to B", and it is at least w exactly when 2**k * A >= 2**w * B. Least widths come by a plain iteration of all at once from zeros, and
for systems of one or two unknowns by trying all widths from 0 to 32 as well.

A row of stdin is fields of six digits. A type: 0, unknowns, length, the widths, the code. A system: 1, unknowns, length, starts, ends, the code. Last: 2.
"""
import itertools
import os
import random

# ---- types as trees: ('n', k) ('p', i) ('+', s, t) ('-', s, t) ('log', t) ('floor', t) ('ceil', t) ('max', s, t)


def raised(k, a, w, b):
    """2**k * a >= 2**w * b, both exponents raised alike where one is negative"""
    up = max(0, -k, -w)
    return 2 ** (k + up) * a >= 2 ** (w + up) * b


def at_least(v, w):
    return raised(v[0], v[1], w, v[2])


def at_most(v, w):
    return raised(w, v[2], v[0], v[1])


def floored(v):
    w = v[0] - v[2].bit_length() - 2
    while at_least(v, w + 1):
        w += 1
    return w


def ceiled(v):
    w = v[0] + v[1].bit_length() + 2
    while at_most(v, w - 1):
        w -= 1
    return w


def value(t, ws):
    op = t[0]
    if op == 'n':
        return (t[1], 1, 1)
    if op == 'p':
        return (ws[t[1]], 1, 1)
    x = value(t[1], ws)
    if op == 'log':
        return (0, max(2, floored(x)), 1)
    if op == 'floor':
        return (floored(x), 1, 1)
    if op == 'ceil':
        return (ceiled(x), 1, 1)
    y = value(t[2], ws)
    if op == '+':
        return (x[0] + y[0], x[1] * y[1], x[2] * y[2])
    if op == '-':
        return (x[0] - y[0], x[1] * y[2], x[2] * y[1])
    return x if raised(x[0], x[1] * y[2], y[0], y[1] * x[2]) else y


def width(t, ws):
    return max(0, floored(value(t, ws)))


def position(t, ws):
    w = floored(value(t, ws))
    return str(w) if w >= 0 else 'outside'


KIND = {'log': 2, 'floor': 3, 'ceil': 4, '+': 5, '-': 6, 'max': 7}


def code(t):
    if t[0] == 'n':
        return [t[1] * 8]
    if t[0] == 'p':
        return [t[1] * 8 + 1]
    return [k for s in t[1:] for k in code(s)] + [KIND[t[0]]]


def words(t):
    if t[0] in 'np':
        return 1 if t[0] == 'n' else 3
    if t[0] in ('log', 'floor', 'ceil'):
        return 3 + words(t[1])
    return 1 + words(t[1]) + words(t[2]) + 2


# ---- types that keep row 8

R = random.Random(2026)


def numeral():
    return R.choice([0, 1, 1, 2, 2, 3, 3, 4, 5, 7, 8, 10, 15, 16, 17, 31, 32, 33, 63, 64, 100, 255, 256, 257, 1000, 4095, 65535, R.randrange(65536)])


def leaf(ports):
    return ('p', R.randrange(ports)) if ports and R.random() < 0.5 else ('n', numeral())


def some(depth, ports, logs, top):
    """a type with at most so many logs together; a `max` only at the top"""
    if depth == 0 or R.random() < 0.12:
        return leaf(ports)
    op = R.choice(['+', '+', '-', '-', 'log', 'log', 'floor', 'ceil'] + (['max'] if top else []))
    if op == 'log':
        return ('log', some(depth - 1, ports, 0, False)) if logs else some(depth - 1, ports, 0, top)
    if op in ('floor', 'ceil'):
        return (op, some(depth - 1, ports, 2, False))
    left = R.randrange(logs + 1)
    if op == '-':
        return ('-', some(depth - 1, ports, left, top), some(depth - 1, 0, logs - left, False))
    return (op, some(depth - 1, ports, left, top and op == '+'), some(depth - 1, ports, logs - left, top and op == '+'))


def n(k):
    return ('n', k)


EXAMPLES = [
    (('floor', ('+', ('log', n(3)), ('log', n(3)))), 3),
    (('floor', ('log', ('+', n(5), n(1)))), 2),
    (('floor', ('+', ('log', n(5)), n(1))), 3),
    (('floor', ('+', ('log', n(1)), n(1))), 2),
    (('ceil', ('log', n(10))), 4),
    (('-', ('log', n(7)), ('log', n(3))), 1),
    (('-', n(1), n(3)), 0),
]

EDGES = [
    ('+', ('log', n(65535)), ('log', n(65535))),
    ('-', ('log', n(65535)), ('log', n(65535))),
    ('-', ('-', n(0), ('log', n(65535))), ('log', n(65535))),
    ('ceil', ('-', n(0), ('log', n(65535)))),
    ('ceil', ('-', ('log', n(3)), ('log', n(3)))),
    ('floor', ('-', ('log', n(4)), ('log', n(3)))),
    ('ceil', ('-', ('log', n(4)), ('log', n(3)))),
    ('ceil', ('-', ('log', n(3)), ('log', n(4)))),
    ('floor', ('-', ('log', n(3)), ('log', n(4)))),
    ('log', ('-', n(1), n(9))),
    ('max', ('log', n(3)), ('log', n(4))),
    ('max', ('-', ('log', n(3)), n(65535)), ('-', n(1), n(65535))),
    ('max', ('max', n(1), ('log', n(5))), ('-', n(3), ('log', n(2)))),
    ('-', ('+', n(65535), n(65535)), n(65535)),
    ('log', ('+', n(65535), n(1))),
    ('ceil', ('log', ('floor', ('+', ('log', n(65535)), ('log', n(1000)))))),
]


def type_rows():
    rows = [(t, []) for t, w in EXAMPLES]
    assert [width(t, []) for t, w in EXAMPLES] == [w for t, w in EXAMPLES]
    rows += [(t, []) for t in EDGES]
    deep = n(1)
    while len(code(deep)) < 60:
        deep = ('+', n(65535), deep)
    rows.append((deep, []))
    while len(rows) < 300:
        ports = R.randrange(4)
        t = some(R.randrange(1, 5), ports, 2, True)
        if len(code(t)) <= 14 and words(t) <= 64:
            rows.append((t, [R.choice([0, 1, 2, 5, 8, 31, 32, R.randrange(65536)]) for _ in range(ports)]))
    return rows


# ---- systems

def least(ts):
    ws = [0] * len(ts)
    while True:
        vs = [width(t, ws) for t in ts]
        if vs == ws:
            return ws
        if max(vs) > 32:
            return None
        ws = vs


def tried(ts):
    all_of = [ws for ws in itertools.product(range(33), repeat=len(ts)) if all(width(t, ws) == w for t, w in zip(ts, ws))]
    return [min(ws[i] for ws in all_of) for i in range(len(ts))] if all_of else None


def p(i):
    return ('p', i)


SYSTEMS = [
    [n(32)],
    [n(33)],
    [n(0)],
    [p(0)],
    [('+', p(0), n(1))],
    [('-', p(0), n(1))],
    [p(1), p(0)],
    [('+', p(1), n(1)), ('-', p(0), n(1))],
    [('+', p(1), n(1)), p(0)],
    [('max', p(1), n(3)), ('max', p(0), n(5))],
    [n(4), p(0)],
    [('log', p(1)), ('+', p(0), n(4))],
    [('max', n(32), p(1)), ('-', p(0), n(1))],
    [('max', n(33), p(1)), ('-', p(0), n(1))],
    [('+', p(i + 1), n(2)) for i in range(15)] + [n(2)],
    [('+', p(i + 1), n(2)) for i in range(15)] + [n(3)],
    [p(15)] + [p(i) for i in range(14)] + [('-', ('max', ('+', p(14), n(1)), n(1)), n(0))],
    [('+', p(1), n(0)), ('max', n(5), ('-', ('+', p(0), n(1)), n(1)))] + [('+', p(0), p(1))] * 2,
    [('max', ('-', ('+', p(1), n(1)), n(0)), n(0)), ('floor', ('+', ('log', p(0)), ('log', p(0))))],
]


def system_rows():
    rows = list(SYSTEMS)
    while len(rows) < 100:
        ports = R.randrange(1, 6)
        memories = R.randrange(3)
        ts = []
        for i in range(ports + memories):
            t = n(R.randrange(33)) if i < ports and R.random() < 0.3 else some(R.randrange(1, 4), ports, 2, True)
            t = ('-', ('max', t, n(R.randrange(9))), n(R.randrange(3))) if R.random() < 0.4 else t
            ts.append(t)
        if all(len(code(t)) <= 9 for t in ts) and (least(ts) or R.random() < 0.1):
            rows.append(ts)
    return rows


def main():
    here = os.path.join(os.path.dirname(os.path.abspath(__file__)), '..', 'crates', 'typing_vectors')
    put, out = [], []
    for t, ws in type_rows():
        c = code(t)
        put.append([0, len(ws), len(c)] + ws + c)
        out.append('%d %s' % (width(t, ws), position(t, ws)))
    for ts in system_rows():
        c, starts, ends = [], [], []
        order = list(range(len(ts)))
        R.shuffle(order)
        at = {}
        for i in order:
            at[i] = (len(c), len(c) + len(code(ts[i])))
            c += code(ts[i])
        put.append([1, len(ts), len(c)] + [at[i][0] for i in range(len(ts))] + [at[i][1] for i in range(len(ts))] + c)
        assert len(c) <= 128
        ws = least(ts)
        if len(ts) < 3:
            assert ws == tried(ts), ts
        out.append(' '.join(map(str, ['1'] + ws if ws else ['0'] + [0] * len(ts))))
    put.append([2, 0, 0])
    text = '\n'.join(' '.join('%06d' % k for k in row) for row in put) + '\n'
    assert len(text) < 65536, len(text)
    with open(os.path.join(here, 'stdin'), 'w') as f:
        f.write(text)
    with open(os.path.join(here, 'stdout'), 'w') as f:
        f.write('\n'.join(out) + '\n')
    print(len(text), 'bytes', len(out), 'rows', sum(o.startswith('0 ') for o in out[300:]), 'systems without widths')


main()
