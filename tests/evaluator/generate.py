#!/usr/bin/env python3
"""generate.py FIRST COUNT PROGRAM EVALUATOR: makes the inputs of the seeds FIRST to FIRST+COUNT-1, gives each to both
programs and prints each difference with its input, then how many agreed by the first number of the answer. Without
the two programs it prints the one input of the seed FIRST. Most actors are valid; the others are damaged ones."""
import collections
import random
import re
import subprocess
import sys

BINARY = {'*': 9, '/': 9, '%': 9, '+': 8, '-': 8, '<<': 7, '>>': 7, '<': 6, '<=': 6, '>': 6, '>=': 6, '==': 5,
          '!=': 5, '&': 4, '~&': 4, '^': 4, '~^': 4, '^~': 4, '|': 3, '~|': 3, '&&': 2, '||': 1}
UNARY = ['!', '&', '~&', '|', '~|', '^', '~^', '^~', '+', '~']


class Sum:
    """k + log2(a / b)"""

    def __init__(self, k, a=1, b=1):
        self.k, self.a, self.b = k, a, b

    def at_least(self, other):
        p, q, x, y = self.k, other.k, self.a * other.b, other.a * self.b
        low = min(p, q)
        return x << (p - low) >= y << (q - low)

    def floor(self):
        w = self.k + self.a.bit_length() - self.b.bit_length() + 1
        while not self.at_least(Sum(w)):
            w -= 1
        return w

    def ceil(self):
        w = self.k + self.a.bit_length() - self.b.bit_length() - 1
        while not Sum(w).at_least(self):
            w += 1
        return w


class Maker:
    def __init__(self, seed):
        self.r = random.Random(seed)
        self.sized_up = self.r.random() < 0.08
        # types that break their rules; rules that read and assign what they may not; values wider than their targets
        self.loose_types = self.r.random() < 0.2
        self.loose_rules = self.r.random() < 0.12
        self.loose_widths = self.r.random() < 0.12

    def chance(self, p):
        return self.r.random() < p

    # types: trees, then text and value

    def type_tree(self, depth, ports, logs, top=True, minus=False, in_log=False):
        r = self.r
        roll = r.random()
        if self.loose_types and self.chance(0.25):
            top, minus, in_log, logs = True, False, False, [3]
        if depth <= 0 or roll < 0.3:
            pick = r.random()
            if pick < 0.35 and ports and not minus:
                return ('port', r.choice(ports))
            if pick < 0.5 and self.env:
                return ('env', r.choice(list(self.env)))
            return ('num', r.choice([0, 1, 2, 3, 4, 5, 7, 8, r.randint(0, 12), r.randint(0, 12)]))
        sub = lambda **k: self.type_tree(depth - 1, ports, k.pop('logs', logs), k.pop('top', top),
                                         k.pop('minus', minus), k.pop('in_log', in_log))
        if roll < 0.5:
            return ('+', sub(), sub())
        if roll < 0.62:
            return ('-', sub(), sub(top=False, minus=True))
        if roll < 0.76 and not in_log and logs[0] > 0:
            logs[0] -= 1
            if self.chance(0.5):
                n = r.choice([0, 1, 2, 3, 4, 5, 7, 8, 9, 15, 16, 17, 31, 32, 33, 255, 256, 257, 65535])
                return ('log', ('num', n))
            return ('log', sub(top=False, in_log=True))
        if roll < 0.86:
            return (r.choice(['ceil', 'floor']), sub(top=False, in_log=False, logs=[2]))
        if top:
            return ('max', [sub(top=False) for _ in range(r.randint(1, 3))])
        return sub()

    def type_text(self, t, right=False):
        kind = t[0]
        if kind in '+-':
            text = self.type_text(t[1]) + self.gap() + kind + self.gap() + self.type_text(t[2], True)
            return '(' + text + ')' if right or self.chance(0.1) else text
        if kind == 'num':
            text = str(t[1]) if not self.chance(0.02) else '0' + str(t[1])
        elif kind == 'env':
            text = t[1]
        elif kind == 'port':
            text = t[1] + '.type'
        elif kind == 'max':
            text = 'max(' + ','.join(self.type_text(e) for e in t[1]) + ')'
        else:
            text = kind + '(' + self.type_text(t[1]) + ')'
        return '(' + text + ')' if self.chance(0.04) else text

    def type_sum(self, t, widths):
        kind = t[0]
        if kind == 'num':
            return Sum(t[1])
        if kind == 'env':
            return Sum(self.env[t[1]])
        if kind == 'port':
            return Sum(widths[t[1]])
        if kind == 'max':
            best = None
            for e in t[1]:
                s = self.type_sum(e, widths)
                if best is None or s.at_least(best):
                    best = s
            return best
        x = self.type_sum(t[1], widths)
        if kind == 'log':
            return Sum(0, max(x.floor(), 2), 1)
        if kind == 'ceil':
            return Sum(x.ceil())
        if kind == 'floor':
            return Sum(x.floor())
        y = self.type_sum(t[2], widths)
        if kind == '+':
            return Sum(x.k + y.k, x.a * y.a, x.b * y.b)
        return Sum(x.k - y.k, x.a * y.b, x.b * y.a)

    def type_of(self, value):
        """a type of this value"""
        r = self.r
        roll = r.random()
        if roll < 0.5:
            return str(value)
        if roll < 0.62:
            name, width = r.choice(list(self.widths.items()))
            if width >= value:
                return '%s.type-%d' % (name, width - value)
            return '%s.type%s+%d' % (name, self.gap(), value - width)
        if roll < 0.72 and self.env:
            name = r.choice(list(self.env))
            if self.env[name] <= value:
                return '%d+%s' % (value - self.env[name], name)
            return '%s-%d' % (name, self.env[name] - value)
        if roll < 0.8 and 1 <= value <= 15:
            return 'ceil(log(%d))' % r.randint(2 ** (value - 1) + (1 if value > 1 else 0), 2 ** value)
        if roll < 0.88 and 1 <= value <= 15:
            return 'log(%d)' % r.randint(2 ** value, 2 ** (value + 1) - 1)
        if roll < 0.94:
            k = r.randint(0, 5)
            return '%d-%s' % (value + k, '(%d)' % k if self.chance(0.3) else k)
        return 'max(%d,%d)' % (value, r.randint(0, value))

    def gap(self):
        return self.r.choice(['', '', '', '', ' ', ' ', '\n', '\t', ' /* | */ ']) if self.chance(0.25) else ''

    # expressions: (text, width, level); level 10 an operand, 0 `?:`, -1 `if`

    def wrap(self, e, least):
        text, width, level = e
        if level < least or self.chance(0.05):
            return '(' + text + ')'
        return text

    def leaf(self, scope):
        r = self.r
        roll = r.random()
        if roll < 0.55 and scope:
            name, width = r.choice(scope)
            if self.chance(0.3) and width > 0:
                return self.index(name, width)
            return (name, width, 10)
        if roll < 0.68 and self.mems:
            name, width, size = r.choice(self.mems)
            if self.chance(0.7) or not scope:
                address = str(r.randint(0, size))
            else:
                address = r.choice(scope)[0]
            return ('%s[%s]' % (name, address), width, 10)
        if roll < 0.85:
            return self.constant()
        n = r.choice([0, 1, 2, 3, r.randint(0, 20), r.randint(0, 300)])
        return (str(n), max(1, n.bit_length()), 10)

    def constant(self):
        r = self.r
        width = r.choice([0, 1, 2, 3, 4, 4, 5, 6, 8, r.randint(0, 16)])
        if self.chance(0.12) and self.env:
            name = r.choice(list(self.env))
            width = max(width, self.env[name].bit_length())
            digits = r.choice(["'d", "'D"]) + r.choice([' ', '\n', '/**/', '  ']) + name
        else:
            value = r.randint(0, 2 ** width - (0 if self.loose_widths else 1))
            base = r.choice('dDoOhHbB')
            shown = {'d': '%d', 'o': '%o', 'h': r.choice(['%x', '%X'])}.get(base.lower())
            digits = "'" + base + (shown % value if shown else bin(value)[2:])
        head = str(width) if self.chance(0.6) else '<' + self.type_of(width) + '>'
        return (head + self.gap() + digits, width, 10)

    def index(self, text, width):
        r = self.r
        i = r.randint(0, width - 1)
        if self.chance(0.2 if self.loose_widths else 0.005):
            i = r.randint(0, width + 1)
        if self.chance(0.4):
            return ('%s[%s]' % (text, self.type_of(i)), 1, 10)
        j = r.randint(0, width - 1)
        return ('%s[%s:%s]' % (text, self.type_of(i), self.type_of(j)), abs(i - j) + 1, 10)

    def expr(self, depth, scope):
        for _ in range(6):
            e = self.expr_once(depth, scope)
            if e[1] <= 64 or self.chance(0.3 if self.loose_widths else 0.01):
                return e
        return self.leaf(scope)

    def expr_once(self, depth, scope):
        r = self.r
        if depth <= 0 or self.chance(0.15):
            return self.leaf(scope)
        roll = r.random()
        sub = lambda: self.expr(depth - 1, scope)
        if roll < 0.45:
            op = r.choice(list(BINARY))
            level = BINARY[op]
            a, b = sub(), sub()
            if op in ('+', '-', '&', '~&', '^', '~^', '^~', '|', '~|'):
                width = max(a[1], b[1])
            elif op == '*':
                width = a[1] + b[1]
            elif op in ('/', '%', '<<', '>>'):
                width = a[1]
            else:
                width = 1
            blank = ' ' if self.chance(0.95) else ''
            return (self.wrap(a, level) + self.gap() + op + blank + self.wrap(b, level + 1), width, level)
        if roll < 0.58:
            op = r.choice(UNARY)
            a = sub()
            blank = ' ' if self.chance(0.9) else ''
            return (op + blank + self.wrap(a, 10), a[1] if op in '+~' else 1, 10)
        if roll < 0.68:
            c, a, b = sub(), sub(), sub()
            return (self.wrap(c, 0) + '?' + a[0] + ':' + self.wrap(b, 1), max(a[1], b[1]), 0)
        if roll < 0.74:
            c, a, b = sub(), sub(), sub()
            return ('if %s then %s else %s' % (c[0], a[0], b[0]), max(a[1], b[1]), -1)
        if roll < 0.82:
            c = sub()
            arms, width = '', 0
            for _ in range(r.choice([0, 1, 1, 2, 3])):
                a = sub()
                width = max(width, a[1])
                arms += '%d=>%s%s|' % (r.choice([0, 1, 2, 3, r.randint(0, 40)]), a[0], self.gap())
            a = sub()
            return ('case(%s){%s_=>%s}' % (c[0], arms + self.gap(), a[0]), max(width, a[1]), 10)
        if roll < 0.9:
            parts = [sub() for _ in range(r.choice([1, 2, 2, 3]))]
            return ('{' + ','.join(p[0] for p in parts) + '}', sum(p[1] for p in parts), 10)
        if roll < 0.95:
            a = sub()
            n = r.choice([0, 1, 2, 2, 3, 4])
            return ('%d%s{%s}' % (n, self.gap(), a[0]), n * a[1], 10)
        if self.mems and self.chance(0.4):
            name, width, _ = r.choice(self.mems)
            return ('%s[%s]' % (name, sub()[0]), width, 10)
        a = sub()
        if a[1] == 0:
            return a
        return self.index('(' + a[0] + ')', a[1])

    def fitting(self, depth, scope, target):
        for _ in range(4):
            e = self.expr(depth, scope)
            if e[1] <= target:
                return e[0]
        if self.chance(0.4 if self.loose_widths else 0.01):
            return e[0]
        if target == 0:
            return "0{%s}" % e[0]
        return '(%s)[%d:%d]' % ((e[0],) + self.r.choice([(target - 1, 0), (0, target - 1)]))

    # the actor

    def names(self, count):
        pool = ['a', 'b', 'c', 'd', 'e', 'x', 'y', 'z', 'p', 'q', 'type', '_1', '__k', 'of', 'Max', 'in1', 'sum', 'h0',
                'b1', 'd1', 'o7', 'k_', 'w', 'u', 'v', 'n', 't0', 't1', 't2', 't3', 'long_' + 'n' * 26]
        return self.r.sample(pool, count)

    def actor(self):
        r = self.r
        n_in, n_out, n_mem, n_env, n_let = r.randint(0, 3), r.randint(0, 3), r.randint(0, 2), r.randint(0, 2), 4
        if n_in + n_out == 0:
            n_out = 1
        names = self.names(n_in + n_out + n_mem + n_env + n_let)
        ports = names[:n_in + n_out]
        inputs = ports[:n_in]
        mem_names = names[len(ports):len(ports) + n_mem]
        env_names = names[len(ports) + n_mem:len(ports) + n_mem + n_env]
        let_names = names[-n_let:]
        r.shuffle(ports)
        self.env = {name: r.choice([0, 1, 2, 3, 5, 8, r.randint(0, 20)]) for name in env_names}
        bound, types = {}, {}
        for name in ports:
            roll = r.random()
            if roll < 0.25:
                bound[name] = r.choice([0, 1, 2, 4, 8, 16, 32, r.randint(0, 32)])
            if roll > 0.15:
                if self.chance(0.55):
                    types[name] = ('num', r.choice([0, 1, 2, 4, 8, 8, 12, 16, 32, r.randint(0, 33)]))
                else:
                    types[name] = self.type_tree(r.randint(1, 3), ports, [2])
            elif name not in bound:
                bound[name] = r.randint(0, 32)
        mem_types = {name: self.type_tree(r.randint(0, 2), ports, [2]) for name in mem_names}
        widths = {name: bound.get(name, 0) for name in ports}
        for _ in range(200):
            new = {name: bound[name] if name in bound else max(0, self.type_sum(types[name], widths).floor())
                   for name in ports}
            if new == widths or max(new.values()) > 40:
                break
            widths = new
        self.widths = {name: min(width, 32) for name, width in widths.items()}
        self.mems = []
        text = r.choice(['a', 'acc', 'or_', ports[0]]) + '(' + (',' + self.gap()).join(ports) + '){' + self.gap()
        order = ports[:]
        r.shuffle(order)
        for name in order:
            head = '<' + self.type_text(types[name]) + '>' if name in types else ' '
            text += ('input' if name in inputs else 'output') + head + name + self.gap() + ';' + self.gap()
        for name in mem_names:
            size = r.choice([None, 1, 2, 3, 4, r.randint(1, 9)])
            text += r.choice(['reg', 'ff']) + '<' + self.type_text(mem_types[name]) + '>' + name
            text += ('' if size is None else ' %d' % size) + ';' + self.gap()
            width = max(0, self.type_sum(mem_types[name], self.widths).floor())
            self.mems.append((name, min(width, 32), size or 1))
        n_groups = r.choice([1, 1, 1, 2, 3])
        outputs = [name for name in ports if name not in inputs]
        owner = {name: r.randrange(n_groups) for name in outputs}
        groups = []
        for g in range(n_groups):
            rules = []
            key = r.choice(ports)
            for present in r.choice([[1], [1, 0], [1, 0], [1, 0], [1, 0, 0]]):
                listed = {key: present}
                for name in ports:
                    if name != key and self.chance(0.75):
                        listed[name] = 1 if self.chance(0.92) else 0
                items = list(listed.items())
                r.shuffle(items)
                rule = r.choice(['r', 's', 'fire', 'idle', 'p', key]) + '('
                rule += ','.join('%s.p.%d' % item for item in items) + '){' + self.gap()
                free = lambda: self.loose_rules and self.chance(0.3)
                scope = [(name, self.widths[name]) for name in inputs if listed.get(name) == 1 or free()]
                mine = [name for name in outputs if listed.get(name) == 1 and (owner[name] == g or free()) or free()]
                if mine and free():
                    mine.append(r.choice(mine))
                targets = [(name, None) for name in mine if self.chance(0.9)]
                targets += [(m, size) for m in self.mems for size in [m[2]] if self.chance(0.6)]
                r.shuffle(targets)
                while targets:
                    take = targets[:r.randint(1, 2)]
                    targets = targets[len(take):]
                    with_let = self.chance(0.35)
                    inner = scope[:]
                    if with_let:
                        rule += 'let '
                        for name in let_names[:r.randint(1, 3)]:
                            if self.chance(0.4):
                                target = r.choice([1, 4, 8, 20, 64, r.randint(0, 64)])
                                rule += 'val<%s>%s=%s;' % (self.type_of(target), name,
                                                           self.fitting(2, inner, target))
                                width = target
                            else:
                                e = self.expr(2, inner)
                                rule += 'val %s=%s;' % (name, e[0])
                                width = e[1]
                            inner.append((name, width))
                        rule += 'in '
                    else:
                        take = take[:1] + []
                        inner = scope
                    for target, size in take if with_let else take[:1]:
                        rule += self.assignment(target, size, inner)
                    if with_let:
                        rule += 'end '
                rules.append(rule + '}')
            groups.append('or(' + (self.gap()).join(rules) + ')')
        text += groups[0] if n_groups == 1 and self.chance(0.8) else 'and(' + ' '.join(groups) + ')'
        text += self.gap() + '}\n'
        bindings = '%d\n' % len(bound) + ''.join('%s %d\n' % one for one in bound.items())
        if not self.chance(0.02):
            self.env = {name: value for name, value in self.env.items()
                        if re.search(r"(?<![\w.'])%s(?![\w(])" % name, text)}
        bindings += '%d\n' % len(self.env) + ''.join('%s %d\n' % one for one in self.env.items())
        self.ports, self.inputs = ports, [name for name in ports if name in inputs]
        return text, bindings

    def assignment(self, target, size, scope):
        depth = self.r.choice([1, 2, 2, 3, 3, 4])
        if size is None:
            return '%s=%s;' % (target, self.fitting(depth, scope, self.widths[target]))
        if self.chance(0.6):
            address = str(self.r.randint(0, size))
        else:
            address = self.expr(1, scope)[0]
        return '%s[%s]=%s;' % (target[0], address, self.fitting(depth, scope, target[1]))

    def at_limits(self):
        """an actor at, or just past, one or two limits"""
        r = self.r
        self.env, self.mems = {}, []
        near = lambda n: n + r.choice([-1, 0, 0, 0, 1, 1, 2])
        few = lambda n: near(n) if self.chance(0.3) else r.randint(1, 2)
        ports = ['x'] + ['q%d' % i for i in range(few(15))]
        self.ports, self.inputs, self.widths = ports, ['x'], {name: 32 for name in ports}
        chain = lambda n: '+'.join(['0'] * (n - 1) + ['1'])
        text = 'a(' + ','.join(ports) + '){input<8>x;'
        for name in ports[1:]:
            if self.chance(0.1):
                n = near(64)
                inside = ('(' * r.randint(0, 2)) if n % 2 else ''
                words = chain((n + 1) // 2) if n % 2 else '(' + chain((n - 2) // 2) + ')+0'
                text += 'output<%s%s%s>%s;' % (inside, words, ')' * len(inside), name)
            else:
                text += 'output<32>%s;' % name
        left = 256
        mems = few(8)
        for i in range(mems):
            size = r.choice([1, near(256), near(32), near(32), near(left), 0])
            if self.chance(0.7):
                size = 256 // mems
            left = max(1, left - size)
            text += 'reg<8>m%d%s;' % (i, '' if self.chance(0.2) else ' %d' % size)
        groups = few(8)
        rules_in_all = few(32)
        rest = rules_in_all
        parts = []
        for g in range(groups):
            n = max(1, rest // (groups - g))
            rest -= n
            rules = []
            for i in range(n):
                body = ''
                if self.chance(0.3) and g == 0:
                    pick = r.random()
                    if pick < 0.3:
                        k = near(16)
                        body = 'let ' + ''.join('val v%d=%d;' % (j, j) for j in range(k)) + 'in q0=v0+x;end'
                    elif pick < 0.5:
                        body = 'q0=%d{1}%s;' % (near(64), '[0]' if self.chance(0.05) else '==0')
                    elif pick < 0.9:
                        k = near(256)
                        form = r.randrange(3)
                        if form == 0:
                            body = 'q0=' + ('~' if k % 2 == 0 else '') + '+'.join(['1'] * ((k + 1) // 2)) + ';'
                        elif form == 1:
                            body = 'q0=' + '~ ' * (k - 1) + 'x;'
                        else:
                            body = 'm0[' + '! ' * (k - 1) + 'x]=' + ('(' * 20 + "1'd1" + ')' * 20) + ';'
                    else:
                        body = 'q0=x[%s];' % chain(near(64) // 2 + 1)
                rules.append('r(x.p.1,q0.p.1){%s}' % body)
            parts.append('or(' + ''.join(rules) + ')')
        text += parts[0] if groups == 1 else 'and(' + ''.join(parts) + ')'
        return text + '}\n', '0\n0\n'

    def cycles(self):
        r = self.r
        lines = []
        full = 2 ** len(self.ports) - 1
        for _ in range(r.randint(0, 6)):
            roll = r.random()
            if roll < 0.55:
                mask = full
            elif roll < 0.8:
                mask = full & ~(1 << r.randrange(len(self.ports)))
            elif roll < 0.97:
                mask = r.randint(0, full)
            else:
                mask = r.randint(0, 2 * full + 1)
            values = []
            for name in self.inputs:
                width = self.widths[name]
                roll = r.random()
                if roll < 0.3:
                    values.append(r.randint(0, min(3, 2 ** width - 1)))
                elif roll < 0.97:
                    values.append(r.randint(0, 2 ** width - 1))
                else:
                    values.append(r.choice([2 ** width, 2 ** 64 - 1, r.randint(0, 2 ** 33)]))
            lines.append(' '.join(str(n) for n in [mask] + values))
        return '%d\n' % len(lines) + ''.join(line + '\n' for line in lines)

    # damage

    def damage(self, data):
        r = self.r
        kind = r.random()
        words = re.findall(rb"\s+|/\*.*?\*/|[A-Za-z_][A-Za-z_0-9]*|[0-9]+|'[a-zA-Z][0-9a-fA-F]*|"
                           rb"==|!=|<=|>=|<<|>>|~&|~\||~\^|\^~|&&|\|\||=>|.", data, re.S)
        if not words:
            return data
        i = r.randrange(len(words))
        solid = [k for k, w in enumerate(words) if not w.isspace()]
        if solid:
            i = r.choice(solid)
        if kind < 0.1:
            k = r.randrange(len(data))
            byte = r.choice([r.randrange(256), r.choice(b" \n\t\r()[]{}<>=+-*/%&|^~!?:;,._'\"@$#`\\0129azAZdhbo")])
            return data[:k] + bytes([byte]) + data[k + r.randint(0, 1):]
        if kind < 0.2:
            del words[i]
        elif kind < 0.28:
            words.insert(i, words[i])
        elif kind < 0.33:
            j = r.choice(solid) if solid else i
            words[i], words[j] = words[j], words[i]
        elif kind < 0.38:
            words[i] = r.choice(words)
        elif kind < 0.5:
            # something inside a type
            inside = [k for k in range(1, len(words) - 1) if words[k - 1] in (b'<', b'+', b'-', b'(', b',', b':')
                      and words[k].isdigit() and words[k + 1] in (b'>', b'+', b'-', b')', b',', b']', b':')]
            if inside:
                i = r.choice(inside)
                names = [n.encode() for n in self.ports]
                words[i] = r.choice([
                    b'log(%s)' % words[i], b'max(%s,2)' % words[i], b'%s-%s.type' % (words[i], r.choice(names)),
                    b'%s.type' % r.choice(names), r.choice(names), b'(%s-max(1))' % words[i], b'floor(max(%s))' % words[i],
                    b'log(log(%s))' % words[i], b'log(3)+log(5)-log(%s)' % words[i], b'log(ceil(log(%s)))' % words[i],
                    b'(max(%s))' % words[i], b'max(log(%s),log(7))' % words[i], b'65536', b'65535', b'undefined'])
        elif kind < 0.68:
            numbers = [k for k, w in enumerate(words) if w.isdigit()]
            if numbers:
                i = r.choice(numbers)
                words[i] = str(r.choice([0, 1, 2, 3, 7, 9, 16, 17, 31, 32, 33, 40, 63, 64, 65, 255, 256, 257, 65535,
                                         65536, 4294967295, 4294967296, r.randint(0, 99)])).encode()
        elif kind < 0.9:
            names = [k for k, w in enumerate(words) if re.match(rb'[A-Za-z_]', w)]
            if names:
                i, j = r.choice(names), r.choice(names)
                words[i] = words[j]
        else:
            words[i] = r.choice([b'foreach', b'instruction', b'max', b'log', b'ceil', b'floor', b'_', b'__', b'if',
                                 b'then', b'else', b'let', b'val', b'in', b'end', b'case', b'or', b'and', b'input',
                                 b'output', b'reg', b'ff', b"'d", b"'h", b"4'd3", b"'d9", b'=>', b'|', b'?', b':',
                                 b'zz', b'a' * 31, b'a' * 32, b'//', b'/*', b'*/', b'(', b')', b'-', b'+', b'.',
                                 b'.type', b'.p.1', b'.p.0', b'm', b'<', b'>', b'65{', b'{', b'}', b'[', b']', b',',
                                 b';', b'log(log(3))', b'log(3)+log(3)+log(3)', b'max(1,max(2))', b'1-x.type',
                                 b'[0]', b'[40]', b'70000', b"<65>'d0", b'(1)', b'1-max(1)', b'=='])
        return b''.join(words)

    def input(self):
        r = self.r
        actor, bindings = self.at_limits() if self.sized_up else self.actor()
        cycles = self.cycles()
        actor, bindings, cycles = actor.encode(), bindings.encode(), cycles.encode()
        roll = r.random()
        if roll < 0.4:
            pass
        elif roll < 0.85:
            for _ in range(r.choice([1, 1, 1, 2])):
                actor = self.damage(actor)
        elif roll < 0.95:
            bindings = self.damage(bindings)
            if self.chance(0.2):
                actor = self.damage(actor)
        whole = b'%d\n%s%d\n%s%s' % (len(actor), actor, len(bindings), bindings, cycles)
        if roll >= 0.985:
            whole = self.damage(whole)
        elif roll >= 0.97:
            cycles = self.damage(cycles)
            whole = b'%d\n%s%d\n%s%s' % (len(actor), actor, len(bindings), bindings, cycles)
        return whole


def answer(program, data):
    done = subprocess.run([program], input=data, stdout=subprocess.PIPE, stderr=subprocess.PIPE, timeout=20)
    return done.stdout + (b'' if done.returncode == 0 else b'exit %d\n' % done.returncode)


def group_of(out):
    first = out.split(b'\n')[0]
    if b'bad' in out:
        return 'bad'
    last_cells = out.endswith(b'\n')
    words = first.split()
    # a reading refusal is one line of two numbers and no cells after it
    if out.count(b'\n') == 1 and len(words) == 2 and 1 <= int(words[0]) <= 13:
        return 'row %d' % int(words[0])
    return 'accepted' if last_cells else 'odd'


def main():
    first = int(sys.argv[1])
    if len(sys.argv) < 5:
        sys.stdout.buffer.write(Maker(first).input())
        return
    count, program, evaluator = int(sys.argv[2]), sys.argv[3], sys.argv[4]
    agreed, answers, different = collections.Counter(), collections.Counter(), 0
    for seed in range(first, first + count):
        data = Maker(seed).input()
        a, b = answer(program, data), answer(evaluator, data)
        if a == b:
            group = group_of(a)
            agreed[group] += 1
            if group == 'accepted':
                for line in a.split(b'\n')[:-2]:
                    answers[int(line.split()[0])] += 1
        elif a == b'13 0\n':
            agreed['row 13 (not compared)'] += 1
        else:
            different += 1
            print('=== seed %d' % seed)
            sys.stdout.flush()
            sys.stdout.buffer.write(data + b'--- program\n' + a + b'--- evaluator\n' + b)
            sys.stdout.buffer.flush()
    for name in sorted(agreed):
        print('%6d %s' % (agreed[name], name))
    print('cycle answers:', ', '.join('%d: %d' % one for one in sorted(answers.items())))
    print('%d agreed, %d differ' % (sum(agreed.values()), different))
    sys.exit(1 if different else 0)


if __name__ == '__main__':
    main()
