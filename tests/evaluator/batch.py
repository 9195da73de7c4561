#!/usr/bin/env python3
"""batch.py FIRST COUNT PROGRAM EVALUATOR: inputs with many expressions, or many types, each: every one is written to a
cell of its own, so that the last line shows them all."""
import sys
from generate import Maker, answer


def expressions(maker):
    """a memory of 256 cells, each cell an expression"""
    r = maker.r
    maker.env = {'w': r.randint(0, 9), 'k': r.randint(0, 40)}
    maker.ports, maker.inputs = ['x', 'y', 'z', 'o'], ['x', 'y', 'z']
    maker.widths = {'x': r.randint(0, 32), 'y': r.randint(1, 8), 'z': r.choice([1, 4, 31, 32]), 'o': 4}
    maker.mems = [('n', 7, 3)]
    text = 'a(x,y,z,o){input<%d>x;input<%d>y;input<%d>z;output<4+w-w+k-k>o;' % tuple(maker.widths[n] for n in 'xyz')
    text += 'reg<7>n 3;reg<32>m 253;or(r(x.p.1,y.p.1,z.p.1){'
    scope = [(name, maker.widths[name]) for name in 'xyz']
    cell, lets = 0, 0
    while True:
        if lets < 16 and maker.chance(0.2):
            target = r.choice([64, 64, 63, 33, 20, r.randint(0, 64)])
            e = maker.fitting(3, scope, target)
            inner = scope + [('v', target), ('v', target)]
            line = 'let val<%d>v=%s;in m[%d]=%s;end ' % (target, e, cell, maker.fitting(3, inner, 32))
        else:
            line = 'm[%d]=%s;' % (cell, maker.fitting(r.choice([1, 2, 3, 4, 5]), scope, 32))
        if len(text) + len(line) > 8100 or cell > 250:
            break
        if len(line) < 240:
            text += line
            cell += 1
            lets += line.startswith('let ')
    text += 'n[y]=n[1]+x[0];' if maker.widths['x'] else 'n[y]=n[1]+y;'
    text += '})}\n'
    lines = ''
    count = r.randint(1, 5)
    for _ in range(count):
        values = [r.choice([0, 1, 2 ** maker.widths[n] - 1, r.randrange(2 ** maker.widths[n])]) for n in 'xyz']
        values = [min(v, 2 ** maker.widths[n] - 1) for v, n in zip(values, 'xyz')]
        lines += '7 %d %d %d\n' % tuple(values)
    return text, '0\n2\nw %d\nk %d\n' % (maker.env['w'], maker.env['k']), '%d\n%s' % (count, lines), cell


def types(maker):
    """each cell shows 2 to a type's value"""
    r = maker.r
    maker.env = {'w': r.randint(0, 9), 'k': r.choice([r.randint(0, 40), r.randint(0, 65535)])}
    maker.loose_types = False
    maker.ports, maker.inputs = ['x', 'y', 'z', 'o'], ['x', 'y', 'z']
    maker.widths = {'x': r.randint(0, 32), 'y': r.randint(1, 8), 'z': r.choice([1, 4, 31, 32]), 'o': 4}
    text = 'a(x,y,z,o){input<%d>x;input<%d>y;input<%d>z;output<4+w-w+k-k>o;' % tuple(maker.widths[n] for n in 'xyz')
    text += 'reg<32>m 256;or(r(x.p.1,y.p.1,z.p.1){'
    cell = 0
    while cell < 255:
        tree = maker.type_tree(r.randint(1, 5), maker.ports, [2])
        value = maker.type_sum(tree, maker.widths).floor()
        if value > 31:
            continue
        line = "m[%d]={1'd1,<%s>'d0};" % (cell, maker.type_text(tree))
        if len(text) + len(line) > 8150:
            break
        if len(line) < 180:
            text += line
            cell += 1
    text += '})}\n'
    return text, '0\n2\nw %d\nk %d\n' % (maker.env['w'], maker.env['k']), '1\n7 0 0 0\n', cell


def main():
    first, count, program, evaluator = int(sys.argv[1]), int(sys.argv[2]), sys.argv[3], sys.argv[4]
    kinds, cells, accepted, different, refused = [expressions, types], [0, 0], 0, 0, {}
    for seed in range(first, first + count):
        kind = seed % 2
        maker = Maker(seed)
        maker.loose_widths = False
        actor, bindings, cycles, made = kinds[kind](maker)
        data = ('%d\n%s%d\n%s%s' % (len(actor), actor, len(bindings), bindings, cycles)).encode()
        a, b = answer(program, data), answer(evaluator, data)
        if a != b:
            different += 1
            print('=== seed %d' % seed)
            print(data.decode() + '--- program\n' + a.decode() + '--- evaluator\n' + b.decode())
        elif a.startswith(b'0 '):
            accepted += 1
            cells[kind] += made
        else:
            refused[a.split()[0].decode()] = refused.get(a.split()[0].decode(), 0) + 1
    print('%d accepted alike with %d expressions and %d types, refused alike %s, %d differ'
          % (accepted, cells[0], cells[1], refused, different))
    sys.exit(1 if different else 0)


main()
