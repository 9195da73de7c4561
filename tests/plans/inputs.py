#!/usr/bin/env python3
"""inputs.py made DIR COUNT FIRST: writes the generated inputs of the seeds FIRST to FIRST+COUNT-1 and the longest actors into DIR.
inputs.py asked LINES DIR FILE ..: writes DIR/stdin, the pairs of texts of the files one after the other, and DIR/stdout, what LINES (print.sh's
output) has of each: for try.sh. Inputs that are no two texts, or that LINES does not have, are left out."""
import os
import re
import sys

sys.dont_write_bytecode = True
sys.path.insert(0, os.path.join(os.path.dirname(os.path.abspath(__file__)), '..', 'evaluator'))


def made(folder, count, first):
    import big
    import generate
    for seed in range(first, first + count):
        with open('%s/seed-%06d.in' % (folder, seed), 'wb') as out:
            out.write(generate.Maker(seed).input())
    for n, unit in enumerate(big.UNITS):
        text = big.filled(unit)
        with open('%s/big-%02d.in' % (folder, n), 'w') as out:
            out.write('%d\n%s4\n0\n0\n0\n' % (len(text), text))


def counted(data):
    """A count of bytes with its newline, so many bytes, and the rest."""
    end = data.find(b'\n')
    digits = data[:max(end, 0)]
    if not digits.isdigit() or (len(digits) > 1 and digits[:1] == b'0') or int(digits) > len(data) - end - 1:
        return None
    stop = end + 1 + int(digits)
    return data[end + 1:stop], data[stop:]


def numbers(line):
    refused = re.match(r'refused (\d+) (actor|bindings) (\d+)$', line)
    if refused:
        return '%s %d %s\n' % (refused[1], refused[2] == 'bindings', refused[3])
    plan = re.match(r'plan of \d+, one short 13 actor 0: (.*)$', line)
    return '0 ' + plan[1] + ' \n' if plan else None


def asked(lines, folder, files):
    known = dict(line.rstrip('\n').split(': ', 1) for line in open(lines) if ': ' in line)
    texts, expected = [], []
    for name in files:
        first = counted(open(name, 'rb').read())
        second = first and counted(first[1])
        line = numbers(known.get(os.path.basename(name)[:-3], ''))
        # a pair ends the list where nothing follows its actor's count
        if second and second[0] and line:
            texts.append(b'%d\n%s%d\n%s' % (len(first[0]), first[0], len(second[0]), second[0]))
            expected.append(line)
    with open(folder + '/stdin', 'wb') as out:
        out.write(b''.join(texts))
    with open(folder + '/stdout', 'w') as out:
        out.write(''.join(expected))
    print('%d inputs, %d plans, %d bytes' % (len(texts), sum(x.startswith('0 ') for x in expected), sum(map(len, texts))))


if __name__ == '__main__':
    if sys.argv[1] == 'made':
        made(sys.argv[2], int(sys.argv[3]), int(sys.argv[4]))
    else:
        asked(sys.argv[2], sys.argv[3], sys.argv[4:])
