#!/usr/bin/env python3
"""operators.py PROGRAM EVALUATOR: every operator on every value of widths 0 to 3, and on chosen values of width 32 and 64;
each output shows the result below a one, and so its width too."""
import sys
from generate import answer, BINARY, UNARY

FORMS = ['x%s y' % op for op in BINARY] + ['%s x' % op for op in UNARY] + [
    'x?x:y', 'if y then x else y', 'case(x){1=>y|1=>x|6=>x|_=>x+y}', '{x,y}', '3{x}', '0{x}', '{x}', 'm[x]', 'm[y]', '!x&&y',
    'x-y-x', 'x?y:x?y:x', '~x+y', '(x)', '{y,3{x},y}']


def run(wide, narrow, pairs, forms, put, width):
    different = 0
    for k in range(0, len(forms), 12):
        part = forms[k:k + 12]
        names = ['q%d' % i for i in range(len(part))]
        text = 'a(x,y,%s){input<%d>x;input<%d>y;%sreg<5>m 2;or(r(x.p.1,y.p.1,%s){m[0]=7;m[1]=m[0]+3;%s})}\n' % (
            ','.join(names), wide, narrow, ''.join('output<%d>%s;' % (width, n) for n in names),
            ','.join(n + '.p.1' for n in names), ''.join(put % (n, f) for n, f in zip(names, part)))
        mask = 2 ** (2 + len(part)) - 1
        data = '%d\n%s4\n0\n0\n%d\n' % (len(text), text, len(pairs)) + ''.join('%d %d %d\n' % (mask, x, y) for x, y in pairs)
        a, b = answer(sys.argv[1], data.encode()), answer(sys.argv[2], data.encode())
        if not a.startswith(b'0 '):
            print('refused', a[:40], text)
        if a != b:
            different += 1
            print('===', text, a, b)
    return different, len(pairs) * len(forms)


def main():
    different = results = 0
    for wide in range(4):
        for narrow in range(4):
            pairs = [(x, y) for x in range(2 ** wide) for y in range(2 ** narrow)]
            d, n = run(wide, narrow, pairs, FORMS, "%s={1'd1,%s};", 32)
            different, results = different + d, results + n
    some = [0, 1, 2, 3, 31, 32, 33, 63, 64, 2 ** 16, 2 ** 31, 2 ** 32 - 1, 0x12345678, 0x80000001, 0xfffffffe]
    pairs = [(x, y) for x in some for y in some]
    # 64 wide: the two halves of {x,y} and {y,x}
    for low in ('31:0', '63:32', '0:31', '32:63'):
        forms = []
        for op in BINARY:
            if BINARY[op] in (3, 4, 7, 8) or op in '/%':
                forms += ['({x,y}%s {y,x})[%s]' % (op, low), '({x,y}%s y)[%s]' % (op, low)]
        forms += ['(x*y)[%s]' % low, '(~{x,y})[%s]' % low, '(+{x,y})[%s]' % low, '({x,y})[%s]' % low]
        d, n = run(32, 32, pairs, forms, '%s=%s;', 32)
        different, results = different + d, results + n
    forms = []
    for op in BINARY:
        if BINARY[op] in (1, 2, 5, 6):
            forms += ['{x,y}%s {y,x}' % op, '{x,y}%s y' % op, 'x%s y' % op]
    forms += ['%s {x,y}' % op for op in UNARY if op not in '+~'] + ['{x,y}?x:y', 'case({x,y}){1=>x|3=>5|33=>9|_=>y}', 'm[{x,y}]']
    d, n = run(32, 32, pairs, forms, '%s=%s;', 32)
    print('%d results, %d inputs differ' % (results + n, different + d))
    sys.exit(1 if different + d else 0)


main()
