#!/usr/bin/env python3
"""big.py PROGRAM EVALUATOR: actors near 8,192 bytes, each one construct many times over; prints where the two differ and
where the program answers 13 although 64 numbers and eight for each word are within its table."""
import re
import sys
from generate import answer


def made(body, cells=256):
    return 'a(x,q){input<8>x;output<32>q;reg<32>m %d;or(r(x.p.1,q.p.1){%s}s(x.p.0){})}\n' % (cells, body)


def filled(unit, least=0):
    text, i = '', 0
    while i < 256 or least:
        piece = unit(i)
        if len(made(text + piece)) > 8192:
            break
        text += piece
        i += 1
    return made(text)


UNITS = [
    lambda i: 'm[%d]=1;' % i, lambda i: 'm[999]=~~~~~~~~x;', lambda i: 'm[%d]=%s;' % (i % 256, '+'.join(['x'] * 120)),
    lambda i: 'm[%d]=%sx;' % (i, '~' * 200), lambda i: 'm[%d]={%s};' % (i, ','.join(['1'] * 32)),
    lambda i: 'm[%d]=64{x==1}==0;' % i, lambda i: 'm[%d]=64{64{64{0{x}}}};' % i, lambda i: 'm[%d]=%sx%s;' % (i, 'm[' * 60, ']' * 60),
    lambda i: 'm[%d]=%sx%s;' % (i, '1?' * 60, ':2' * 60), lambda i: 'm[%d]=x%s;' % (i, '?1:2' * 60),
    lambda i: 'm[%d]=case(x){%s_=>0};' % (i, ''.join('%d=>%d|' % (j, j + i) for j in range(50))),
    lambda i: 'm[%d]=x[0:7];' % i, lambda i: 'm[%d]=x[7:0];' % i, lambda i: "m[%d]=1'b1;" % i, lambda i: "m[%d]=32'hffffffff;" % i,
    lambda i: "m[%d]=64'hffffffffffffffff>0;" % i, lambda i: "m[%d]=(64'hffffffffffffffff)[0];" % i,
    lambda i: 'm[%d]=!x&&x||x;' % i, lambda i: 'm[%d]=%s;' % (i, '|'.join(['1'] * 127)),
    lambda i: 'm[%d]=%s;' % (i, '&&'.join(['1'] * 127)), lambda i: 'm[%d]=if x then 1 else 2;' % i,
    lambda i: 'm[%d]={x[0],x[1:0],x[0:2]};' % i, lambda i: 'm[m[m[m[%d]]]]=m[m[m[0]]];' % i, lambda i: 'm[%d]=(((x)[3:0])[2:0])[1];' % i,
]


def main():
    different = thirteens = 0
    for n, unit in enumerate(UNITS):
        for least in (0, 1):
            if least:
                text = filled(lambda i: unit(i % 256), 1)
            else:
                text = filled(unit)
            words = len(re.findall(r"'[dbho][0-9a-f]*|[A-Za-z_]\w*|\d+|==|=>|&&|\|\||\S", text))
            data = ('%d\n%s4\n0\n0\n3\n3 5\n3 5\n3 170\n' % (len(text), text)).encode()
            a, b = answer(sys.argv[1], data), answer(sys.argv[2], data)
            if a == b'13 0\n' and 64 + 8 * words > 16384:
                thirteens += 1
            elif a != b:
                different += 1
                print(n, least, len(text), words, a[:100], b[:100])
    print('%d agreed, %d answered 13 with too many words to say, %d differ' % (2 * len(UNITS) - different - thirteens, thirteens, different))
    sys.exit(1 if different else 0)


if __name__ == '__main__':
    main()
