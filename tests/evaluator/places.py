#!/usr/bin/env python3
"""places.py PROGRAM EVALUATOR STEP OFFSET: one actor with every construct; each word of a list is put before each word
of the actor, and in its place, and both programs are asked. STEP and OFFSET take every STEP-th of them."""
import collections
import re
import sys
from generate import answer, group_of

ACTOR = """a(x,q){input<max(2,1)+w>x;output<32>q;reg<8>m 4;and(or(r(x.p.1,q.p.1){let val<4>v=~x[1:0];val u=<w>'d w;in
q=case(v){0=>if v==u then 1|u else{v,2{u}}|1=>(x)[log(2)]?m[x]:3'b101|_=>v|!u};end m[x]=1;}s(x.p.0){}))}
"""
WORDS = ['foo', 'm', 'q', 'x', 'v', '7', '65', "'d1", "'d", '_', 'if', 'then', 'else', 'case', 'let', 'val', 'in', 'end',
         'or', 'and', 'reg', 'input', 'max', 'log', '(', ')', '{', '}', '[', ']', '<', '>', ',', ';', ':', '.', '=', '==', '=>',
         '+', '-', '|', '~|', '~', '?', '.type', 'w']


def main():
    words = re.findall(r"'[dbho][0-9a-f]*|[A-Za-z_]\w*|\d+|==|=>|\S", ACTOR)
    step, offset = int(sys.argv[3]), int(sys.argv[4])
    agreed, different, n = collections.Counter(), 0, 0
    for i in range(len(words) + 1):
        for put in WORDS:
            for replace in (0, 1):
                n += 1
                if n % step != offset:
                    continue
                made = words[:i] + [put] + words[i + replace:]
                text = ' '.join(made) + '\n'
                data = ('%d\n%s8\n0\n1\nw 5\n2\n3 5\n2 0\n' % (len(text), text)).encode()
                a, b = answer(sys.argv[1], data), answer(sys.argv[2], data)
                if a == b:
                    agreed[group_of(a)] += 1
                else:
                    different += 1
                    print('===\n' + data.decode() + '--- program\n' + a.decode() + '--- evaluator\n' + b.decode())
    print(dict(agreed))
    print('%d agreed, %d differ' % (sum(agreed.values()), different))
    sys.exit(1 if different else 0)


main()
