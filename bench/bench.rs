// The proved `run` and `cycle` against the same machine in safe Rust, on the same plans, in one run. Not a test.
// README.md beside it says how to run it and what was measured.
use std::time::Instant;

extern "C" {
    fn plan_cycle(plan: *const u32, np: usize, mask: u32, values: *const u64, nv: usize, memory: *mut u64, nm: usize, outputs: *mut u64, no: usize) -> u32;
    fn plan_run(plan: *const u32, np: usize, masks: *const u32, nk: usize, values: *const u64, nv: usize, memory: *mut u64, nm: usize, outputs: *mut u64, no: usize, answers: *mut u32, na: usize) -> u32;
}

fn proved_cycle(p: &[u32], mask: u32, v: &[u64], m: &mut [u64], o: &mut [u64]) -> u32 {
    unsafe { plan_cycle(p.as_ptr(), p.len(), mask, v.as_ptr(), v.len(), m.as_mut_ptr(), m.len(), o.as_mut_ptr(), o.len()) }
}

fn proved_run(p: &[u32], k: &[u32], v: &[u64], m: &mut [u64], o: &mut [u64], a: &mut [u32]) -> u32 {
    unsafe { plan_run(p.as_ptr(), p.len(), k.as_ptr(), k.len(), v.as_ptr(), v.len(), m.as_mut_ptr(), m.len(), o.as_mut_ptr(), o.len(), a.as_mut_ptr(), a.len()) }
}

// ---- the machine in Rust: every item and operator of docs/PLAN.md, every test of a cycle, every index checked

fn ones(w: u32) -> u64 {
    if w >= 64 { u64::MAX } else { (1 << w) - 1 }
}

fn unary(op: u32, w: u32, x: u64) -> u64 {
    match op {
        0 => !x & ones(w),
        1 => x,
        2 => (x == 0) as u64,
        3 => (x == ones(w)) as u64,
        4 => (x != ones(w)) as u64,
        5 => (x != 0) as u64,
        6 => (x == 0) as u64,
        7 => x.count_ones() as u64 % 2,
        8 => 1 - x.count_ones() as u64 % 2,
        _ => unreachable!(),
    }
}

fn binary(op: u32, m: u32, n: u32, x: u64, y: u64) -> u64 {
    let w = m.max(n);
    match op {
        0 => x.wrapping_mul(y),
        1 => x.checked_div(y).unwrap_or(ones(m)),
        2 => x.checked_rem(y).unwrap_or(x),
        3 => x.wrapping_add(y) & ones(w),
        4 => x.wrapping_sub(y) & ones(w),
        5 => if y >= m as u64 { 0 } else { x << y & ones(m) },
        6 => if y >= m as u64 { 0 } else { x >> y },
        7 => (x < y) as u64,
        8 => (x <= y) as u64,
        9 => (x > y) as u64,
        10 => (x >= y) as u64,
        11 => (x == y) as u64,
        12 => (x != y) as u64,
        13 => x & y,
        14 => !(x & y) & ones(w),
        15 => x ^ y,
        16 => !(x ^ y) & ones(w),
        17 => x | y,
        18 => !(x | y) & ones(w),
        19 => (x != 0 && y != 0) as u64,
        20 => (x != 0 || y != 0) as u64,
        _ => unreachable!(),
    }
}

fn range(x: u64, i: u32, j: u32) -> u64 {
    if j <= i { x >> j & ones(i - j + 1) } else { (x >> i).reverse_bits() >> (63 - (j - i)) }
}

fn copies(n: u32, w: u32, x: u64) -> u64 {
    if w >= 64 { return if n == 0 { 0 } else { x } }
    (0..n).fold(0, |r, _| r << w | x)
}

// ---- its test of a plan

fn holds(test: bool) -> Option<()> {
    test.then_some(())
}

// the width of a memory, by its number, its first cell and its size
fn memory_width(p: &[u32], m: u32, first: u32, size: u32) -> Option<u32> {
    let n = p[1] as usize;
    let memories = &p[3 + n..3 + n + 2 * p[2 + n] as usize];
    let own = memories.chunks_exact(2).nth(m as usize)?;
    holds(first == memories.chunks_exact(2).take(m as usize).map(|x| x[1]).sum::<u32>() && size == own[1])?;
    Some(own[0])
}

// the outputs that a rule assigns
fn rule_sound(p: &[u32], code: &[u32], present: u32, taken: u32) -> Option<u32> {
    let (mut ws, mut slots, mut assigned) = (Vec::with_capacity(256), [None; 48], 0u32);
    let port = |k: u32| if k < p[1] && present >> k & 1 == 1 { Some(p[2 + k as usize]) } else { None };
    for item in code.chunks_exact(4) {
        let (a, b, c) = (item[1], item[2], item[3]);
        let w = match item[0] {
            0 => { holds(a <= 64 && b as u64 | (c as u64) << 32 <= ones(a))?; a }
            1 => { let w = port(a)?; holds(b == 0 && c == 0 && w <= 32)?; w }
            2 => { holds(a < 16 && b == 0 && c == 0)?; slots[a as usize]? }
            3 => { ws.pop()?; memory_width(p, a, b, c)? }
            4 => { let x = ws.pop()?; holds(c == 0 && a < x && b < x)?; a.abs_diff(b) + 1 }
            5 => { let x = ws.pop()?; holds(c == 0 && b == x && a <= 64)?; a * x }
            6 => { let (y, x) = (ws.pop()?, ws.pop()?); holds(a == y && b == 0 && c == 0)?; x + y }
            7 => { let x = ws.pop()?; holds(a < 9 && b == x && c == 0)?; if a < 2 { x } else { 1 } }
            8 => {
                let (y, x) = (ws.pop()?, ws.pop()?);
                holds(b == x && c == y)?;
                match a { 0 => x + y, 1 | 2 | 5 | 6 => x, 3 | 4 | 13..=18 => x.max(y), 7..=12 | 19 | 20 => 1, _ => return None }
            }
            9 => { let (y, x) = (ws.pop()?, ws.pop()?); ws.pop()?; holds(a == 0 && b == 0 && c == 0)?; x.max(y) }
            10 => { let (y, x) = (ws.pop()?, ws.pop()?); holds(b >= 16 && c == 0)?; (*slots.get(b as usize)?)?; x.max(y) }
            11 => {
                let (x, slot) = (ws.pop()?, slots.get_mut(a as usize)?);
                holds(c == 0 && x <= b && b <= 64 && (a >= 16 || slot.is_none()))?;
                *slot = Some(b);
                continue
            }
            12 => {
                let (x, w) = (ws.pop()?, port(a)?);
                holds(b == 0 && c == 0 && w >= 256 && x <= w - 256 && (assigned | taken) >> a & 1 == 0)?;
                assigned |= 1 << a;
                continue
            }
            13 => { let x = ws.pop()?; ws.pop()?; holds(x <= memory_width(p, a, b, c)?)?; continue }
            _ => return None,
        };
        holds(w <= 64 && ws.len() < 256)?;
        ws.push(w);
    }
    holds(ws.is_empty())?;
    Some(assigned)
}

fn sound(p: &[u32]) -> Option<()> {
    let n = *p.get(1)? as usize;
    holds(p[0] == 1 && (1..=16).contains(&n) && p.get(2..2 + n)?.iter().all(|w| w % 256 <= 32 && *w < 512))?;
    let memories = *p.get(2 + n)? as usize;
    holds(memories <= 8)?;
    let g0 = 3 + n + 2 * memories;
    let cells = p.get(3 + n..g0)?.chunks_exact(2);
    holds(cells.clone().all(|m| m[0] <= 32 && (1..=256).contains(&m[1])) && cells.map(|m| m[1]).sum::<u32>() <= 256)?;
    let groups = *p.get(g0)? as usize;
    holds((1..=8).contains(&groups))?;
    let (r0, sizes) = (g0 + 1 + groups, p.get(g0 + 1..g0 + 1 + groups)?);
    let rules = *p.get(r0)? as usize;
    holds(rules <= 32 && sizes.iter().all(|s| *s >= 1) && sizes.iter().map(|s| *s as usize).sum::<usize>() == rules)?;
    let mut heads = p.get(r0 + 1..r0 + 1 + 3 * rules)?.chunks_exact(3);
    let mut code = p.get(r0 + 2 + 3 * rules..)?;
    holds(p[r0 + 1 + 3 * rules] as usize == code.len())?;
    let mut taken = 0;
    for size in sizes {
        let mut mine = taken;
        for head in heads.by_ref().take(*size as usize) {
            let (a, b, l) = (head[0], head[1], head[2] as usize);
            holds((a | b) as u64 <= ones(n as u32) && a & b == 0 && a | b != 0 && l % 4 == 0 && l <= code.len())?;
            mine |= rule_sound(p, &code[..l], a, taken)?;
            code = &code[l..];
        }
        taken = mine;
    }
    holds(code.is_empty())
}

// ---- its cycles

// `APART`: operators and constants are asked for before the other items, as the proved machine does
struct Machine<const APART: bool> {
    stack: [u64; 256],
    next: [u64; 256],
    marks: [bool; 256],
    held: [u64; 16],
    fired: [(usize, usize); 8],
}

impl<const APART: bool> Machine<APART> {
    fn new() -> Self {
        Machine { stack: [0; 256], next: [0; 256], marks: [false; 256], held: [0; 16], fired: [(0, 0); 8] }
    }

    // the code of one rule; whether a cell is written twice
    fn rule(&mut self, code: &[u32], v: &[u64], m: &[u64]) -> bool {
        let (st, mut n, mut clash, mut slots) = (&mut self.stack, 0usize, false, [0u64; 48]);
        for item in code.chunks_exact(4) {
            let (a, b, c) = (item[1], item[2], item[3]);
            if APART && item[0] % 8 == 0 {
                if item[0] == 0 { st[n] = b as u64 | (c as u64) << 32; n += 1; } else { n -= 1; st[n - 1] = binary(a, b, c, st[n - 1], st[n]); }
                continue;
            }
            match item[0] {
                0 => { st[n] = b as u64 | (c as u64) << 32; n += 1; }
                1 => { st[n] = v[a as usize]; n += 1; }
                2 => { st[n] = slots[a as usize]; n += 1; }
                3 => { let x = st[n - 1]; st[n - 1] = if x < c as u64 { m[b as usize + x as usize] } else { 0 }; }
                4 => st[n - 1] = range(st[n - 1], a, b),
                5 => st[n - 1] = copies(a, b, st[n - 1]),
                6 => { n -= 1; st[n - 1] = if a < 64 { (st[n - 1] << a) + st[n] } else { st[n] }; }
                7 => st[n - 1] = unary(a, b, st[n - 1]),
                8 => { n -= 1; st[n - 1] = binary(a, b, c, st[n - 1], st[n]); }
                9 => { n -= 2; st[n - 1] = if st[n - 1] != 0 { st[n] } else { st[n + 1] }; }
                10 => { n -= 1; st[n - 1] = if slots[b as usize] == a as u64 { st[n - 1] } else { st[n] }; }
                11 => { n -= 1; slots[a as usize] = st[n]; }
                12 => { n -= 1; self.held[a as usize] = st[n]; }
                13 => {
                    n -= 2;
                    if st[n] < c as u64 {
                        let at = b as usize + st[n] as usize;
                        if self.marks[at] { clash = true } else { self.marks[at] = true; self.next[at] = st[n + 1]; }
                    }
                }
                _ => unreachable!(),
            }
        }
        clash
    }

    fn cycle(&mut self, p: &[u32], mask: u32, v: &[u64], m: &mut [u64], o: &mut [u64]) -> (u32, u32) {
        let n = p[1] as usize;
        if mask as u64 > ones(n as u32) { return (22, 0); }
        for i in 0..n {
            if mask >> i & 1 == 1 && p[2 + i] < 256 && v[i] > ones(p[2 + i]) { return (22, 0); }
        }
        let memories = p[2 + n] as usize;
        let mut at = 0;
        for k in 0..memories {
            let (top, size) = (ones(p[3 + n + 2 * k]), p[4 + n + 2 * k] as usize);
            if m[at..at + size].iter().any(|x| *x > top) { return (22, 0); }
            at += size;
        }
        let g0 = 3 + n + 2 * memories;
        let groups = p[g0] as usize;
        let r0 = g0 + 1 + groups;
        let (mut code, mut q) = (r0 + 2 + 3 * p[r0] as usize, r0 + 1);
        for g in 0..groups {
            let mut found = None;
            for _ in 0..p[g0 + 1 + g] {
                let l = p[q + 2] as usize;
                if mask & p[q] == p[q] && mask & p[q + 1] == 0 {
                    if found.is_some() { return (24, 0); }
                    found = Some((code, l));
                }
                code += l;
                q += 3;
            }
            match found { Some(f) => self.fired[g] = f, None => return (23, 0) }
        }
        self.next[..m.len()].copy_from_slice(m);
        self.marks[..m.len()].fill(false);
        self.held[..n].fill(0);
        let mut clash = false;
        for g in 0..groups {
            let (from, l) = self.fired[g];
            clash |= self.rule(&p[from..from + l], v, m);
        }
        if clash { return (25, 0); }
        m.copy_from_slice(&self.next[..m.len()]);
        o.copy_from_slice(&self.held[..n]);
        (0, mask.count_ones())
    }

    fn run(&mut self, p: &[u32], masks: &[u32], v: &[u64], m: &mut [u64], o: &mut [u64], a: &mut [u32]) -> u32 {
        if sound(p).is_none() { return 20; }
        let (n, k) = (p[1] as usize, masks.len());
        let cells: u32 = p[3 + n..3 + n + 2 * p[2 + n] as usize].chunks_exact(2).map(|x| x[1]).sum();
        if v.len() != n * k || o.len() != n * k || a.len() != 2 * k || m.len() != cells as usize { return 21; }
        for (((mask, v), o), a) in masks.iter().zip(v.chunks_exact(n)).zip(o.chunks_exact_mut(n)).zip(a.chunks_exact_mut(2)) {
            (a[0], a[1]) = self.cycle(p, *mask, v, m, o);
        }
        0
    }
}

// ---- plans

struct Plan { ports: Vec<u32>, memories: Vec<[u32; 2]>, groups: Vec<Vec<(u32, u32, Vec<[u32; 4]>)>> }

impl Plan {
    fn numbers(&self) -> Vec<u32> {
        let mut p = vec![1, self.ports.len() as u32];
        p.extend(&self.ports);
        p.push(self.memories.len() as u32);
        p.extend(self.memories.iter().flatten());
        p.push(self.groups.len() as u32);
        p.extend(self.groups.iter().map(|g| g.len() as u32));
        let rules: Vec<_> = self.groups.iter().flatten().collect();
        p.push(rules.len() as u32);
        for (present, absent, code) in &rules { p.extend([*present, *absent, 4 * code.len() as u32]); }
        p.push(rules.iter().map(|r| 4 * r.2.len() as u32).sum());
        for r in &rules { p.extend(r.2.iter().flatten()); }
        p
    }
}

struct Rng(u64);

impl Rng {
    fn below(&mut self, n: u64) -> u64 {
        self.0 = self.0.wrapping_mul(6364136223846793005).wrapping_add(1442695040888963407);
        (self.0 >> 33) % n
    }
}

// code of every kind of item, sound by its making
struct Writer<'a> { rng: &'a mut Rng, plan: &'a Plan, present: u32, code: Vec<[u32; 4]>, slots: Vec<u32> }

impl Writer<'_> {
    fn cells(&self, m: usize) -> [u32; 4] {
        [0, m as u32, self.plan.memories[..m].iter().map(|x| x[1]).sum(), self.plan.memories[m][1]]
    }

    fn put(&mut self, op: u32, a: u32, b: u32, c: u32) { self.code.push([op, a, b, c]); }

    // an expression's width
    fn expression(&mut self, depth: u32, cases: u32) -> u32 {
        let pick = if depth == 0 { self.rng.below(3) } else { 3 + self.rng.below(18) };
        match pick {
            0 => { let w = 1 + self.rng.below(16) as u32; let x = self.rng.below(1 << w) as u32; self.put(0, w, x, 0); w }
            1 => {
                let inputs: Vec<usize> = (0..self.plan.ports.len()).filter(|i| self.plan.ports[*i] < 256 && self.present >> i & 1 == 1).collect();
                if inputs.is_empty() { self.put(0, 1, 1, 0); return 1; }
                let i = inputs[self.rng.below(inputs.len() as u64) as usize];
                self.put(1, i as u32, 0, 0);
                self.plan.ports[i]
            }
            2 => {
                if self.slots.is_empty() { self.put(0, 2, 3, 0); return 2; }
                let k = self.rng.below(self.slots.len() as u64) as usize;
                self.put(2, k as u32, 0, 0);
                self.slots[k]
            }
            3 | 4 => {
                let w = self.expression(depth - 1, cases);
                if self.plan.memories.is_empty() { return w; }
                let m = self.rng.below(self.plan.memories.len() as u64) as usize;
                let c = self.cells(m);
                self.put(3, c[1], c[2], c[3]);
                self.plan.memories[m][0]
            }
            5 => {
                let w = self.expression(depth - 1, cases);
                if w == 0 { return w; }
                let (i, j) = (self.rng.below(w as u64) as u32, self.rng.below(w as u64) as u32);
                let (i, j) = if self.rng.below(4) == 0 { (i, j) } else { (i.max(j), i.min(j)) };
                self.put(4, i, j, 0);
                i.abs_diff(j) + 1
            }
            6 => {
                let w = self.expression(depth - 1, cases);
                let n = self.rng.below(4) as u32;
                if n * w > 64 { return w; }
                self.put(5, n, w, 0);
                n * w
            }
            7 => {
                let x = self.narrowed(depth - 1, cases, 32);
                let y = self.narrowed(depth - 1, cases, 32);
                self.put(6, y, 0, 0);
                x + y
            }
            8 | 9 => {
                let w = self.expression(depth - 1, cases);
                let u = self.rng.below(9) as u32;
                self.put(7, u, w, 0);
                if u < 2 { w } else { 1 }
            }
            10 => {
                self.expression(depth - 1, cases);
                let x = self.expression(depth - 1, cases);
                let y = self.expression(depth - 1, cases);
                self.put(9, 0, 0, 0);
                x.max(y)
            }
            11 if cases < 31 => {
                let w = self.expression(depth - 1, cases);
                self.put(11, 16 + cases, w, 0);
                let x = self.expression(depth - 1, cases + 1);
                let y = self.expression(depth - 1, cases + 1);
                let label = self.rng.below(4) as u32;
                self.put(10, label, 16 + cases, 0);
                x.max(y)
            }
            _ => {
                let x = self.narrowed(depth - 1, cases, 32);
                let y = self.narrowed(depth - 1, cases, 32);
                let o = self.rng.below(21) as u32;
                self.put(8, o, x, y);
                match o { 0 => x + y, 1 | 2 | 5 | 6 => x, 3 | 4 | 13..=18 => x.max(y), _ => 1 }
            }
        }
    }

    fn narrowed(&mut self, depth: u32, cases: u32, most: u32) -> u32 {
        let w = self.expression(depth, cases);
        if w <= most { return w; }
        if most == 0 { self.put(5, 0, w, 0) } else { self.put(4, most - 1, 0, 0) }
        most
    }

    // a `val`; where the rule has its 16, a slot of a `case`, which nothing reads
    fn keep(&mut self, depth: u32) {
        let w = self.expression(depth, 0);
        let k = self.slots.len();
        if k < 16 { self.slots.push(w); }
        self.put(11, k as u32, w, 0);
    }

    fn assign(&mut self, port: usize, depth: u32) {
        self.narrowed(depth, 0, self.plan.ports[port] - 256);
        self.put(12, port as u32, 0, 0);
    }

    // a rule's statements: `val`s, some writes, an output
    fn rule(&mut self, m: usize, port: usize, items: usize, again: bool) {
        let most = if again { 60 } else { items };
        while self.code.len() + 60 < most.max(100) { self.keep(3); }
        // a `val` is kept once: where its statement comes again, in a slot of a `case`
        let block: Vec<_> = self.code.iter().map(|i| if i[0] == 11 { [11, i[1].max(16), i[2], 0] } else { *i }).collect();
        while again && self.code.len() + block.len() + 100 < items { self.code.extend(&block); }
        if m < self.plan.memories.len() { for cell in 0..(items / 100).min(12) { self.write(m, cell as u32, 2); } }
        self.assign(port, 3);
    }

    fn write(&mut self, m: usize, cell: u32, depth: u32) {
        self.put(0, 9, cell, 0);
        self.narrowed(depth, 0, self.plan.memories[m][0]);
        let c = self.cells(m);
        self.put(13, c[1], c[2], c[3]);
    }
}

// an actor of about 24 items: a sum kept and written, two outputs' worth of parts and a choice
fn small() -> Vec<u32> {
    let code = vec![
        [1, 0, 0, 0], [1, 0, 0, 0], [3, 0, 0, 16], [8, 3, 4, 8], [11, 0, 8, 0], [1, 1, 0, 0], [2, 0, 0, 0], [2, 0, 0, 0], [7, 0, 8, 0], [9, 0, 0, 0], [12, 2, 0, 0],
        [1, 0, 0, 0], [2, 0, 0, 0], [13, 0, 0, 16], [2, 0, 0, 0], [4, 7, 4, 0], [2, 0, 0, 0], [4, 3, 0, 0], [6, 4, 0, 0], [0, 8, 0x5a, 0], [8, 13, 8, 8], [11, 1, 8, 0], [2, 1, 0, 0], [11, 2, 8, 0]];
    Plan { ports: vec![4, 1, 264], memories: vec![[8, 16]], groups: vec![vec![(7, 0, code), (0, 1, vec![])]] }.numbers()
}

// `groups` groups of four rules, of which the fourth fires where every port is present, with about `items` items: statements drawn
// at random, all of them, or some that come again and again
fn wide(rng: &mut Rng, inputs: usize, groups: usize, memories: usize, items: usize, again: bool) -> Vec<u32> {
    let mut plan = Plan { ports: vec![], memories: vec![], groups: vec![] };
    for i in 0..inputs { plan.ports.push([8, 1, 32, 5][i % 4]); }
    for g in 0..groups { plan.ports.push(256 + [16, 32, 1, 8][g % 4]); }
    for m in 0..memories { plan.memories.push([[32, 8, 16, 1][m % 4], (256 / memories) as u32]); }
    for g in 0..groups {
        let mut rules = vec![];
        for r in 0..4u32 {
            let out = 1u32 << (inputs + g);
            let all = (1u32 << inputs) - 1;
            let (present, absent) = match r { 0 => (0, 3), 1 => (1, 2), 2 => (2, 1), _ => (all | out, 0) };
            let mut w = Writer { rng: &mut *rng, plan: &plan, present, code: vec![], slots: vec![] };
            if r < 3 {
                w.keep(1);
            } else {
                w.rule(g, inputs + g, items, again);
            }
            rules.push((present, absent, w.code));
        }
        plan.groups.push(rules);
    }
    plan.numbers()
}

// ---- both machines on one plan

struct Tables { masks: Vec<u32>, values: Vec<u64>, memory: Vec<u64> }

fn tables(p: &[u32], rng: &mut Rng, n: usize, bad: bool) -> Tables {
    let ports = p[1] as usize;
    let mut t = Tables { masks: vec![], values: vec![], memory: vec![] };
    for _ in 0..n {
        let all = (1u32 << ports) - 1;
        t.masks.push(if bad && rng.below(3) == 0 { rng.below(2 << ports) as u32 } else { all });
        for i in 0..ports {
            let w = p[2 + i] % 256 + (bad && rng.below(300) == 0) as u32;
            t.values.push(rng.below(1 << 31) * 2 + rng.below(2) & ones(w));
        }
    }
    for k in 0..p[2 + ports] as usize {
        let (w, size) = (p[3 + ports + 2 * k], p[4 + ports + 2 * k]);
        for _ in 0..size { t.memory.push(rng.below(1 << 31) & ones(w)); }
    }
    t
}

// panics where the two machines do not agree in an answer, an output or a cell
fn agree(p: &[u32], t: &Tables) -> u32 {
    let (n, k) = (p[1] as usize, t.masks.len());
    let (mut m1, mut o1, mut a1) = (t.memory.clone(), vec![7u64; n * k], vec![0u32; 2 * k]);
    let answer = proved_run(p, &t.masks, &t.values, &mut m1, &mut o1, &mut a1);
    let (mut m2, mut o2, mut a2) = (t.memory.clone(), vec![7u64; n * k], vec![0u32; 2 * k]);
    assert_eq!(answer, Machine::<false>::new().run(p, &t.masks, &t.values, &mut m2, &mut o2, &mut a2));
    assert!(m1 == m2 && o1 == o2 && a1 == a2);
    let mut m2 = t.memory.clone();
    assert_eq!(answer, Machine::<true>::new().run(p, &t.masks, &t.values, &mut m2, &mut o2, &mut a2));
    assert!(m1 == m2 && o1 == o2 && a1 == a2);
    if answer != 0 { return 0; }
    let (mut m3, mut o3) = (t.memory.clone(), vec![7u64; n * k]);
    for j in 0..k {
        assert_eq!(a1[2 * j], proved_cycle(p, t.masks[j], &t.values[n * j..n * j + n], &mut m3, &mut o3[n * j..n * j + n]));
    }
    assert!(m1 == m3 && o1 == o3);
    a1.iter().step_by(2).filter(|a| **a == 0).count() as u32
}

fn timed(f: impl FnOnce()) -> f64 {
    let t = Instant::now();
    f();
    t.elapsed().as_secs_f64() * 1e9
}

// the quickest of the rounds: what else the computer does only makes a round longer
fn best(l: &[f64]) -> f64 {
    l.iter().cloned().fold(f64::MAX, f64::min)
}

// the round in the middle, and those that leave a twentieth of the rounds on either side
fn spread(mut l: Vec<f64>) -> String {
    l.sort_by(f64::total_cmp);
    let at = |k: usize| l[(l.len() - 1) * k / 20];
    format!("{:.2} ({:.2} to {:.2})", at(10), at(1), at(19))
}

// each round's quotient: both were timed one right after the other
fn ratios(l: &[f64], m: &[f64]) -> String {
    spread(l.iter().zip(m).map(|(x, y)| x / y).collect())
}

fn items_fired(p: &[u32]) -> usize {
    let n = p[1] as usize;
    let g0 = 3 + n + 2 * p[2 + n] as usize;
    let (r0, all) = (g0 + 1 + p[g0] as usize, (1u32 << n) - 1);
    (0..p[r0] as usize).map(|r| r0 + 1 + 3 * r).filter(|q| p[*q] & all == p[*q] && p[q + 1] & all == 0).map(|q| p[q + 2] as usize / 4).sum()
}

fn measure(name: &str, p: &[u32], rng: &mut Rng, work: usize, rounds: usize) {
    let (n, items) = (p[1] as usize, items_fired(p));
    let k = (work / (items + 60)).max(400);
    let t = tables(p, rng, k, false);
    assert_eq!(agree(p, &t) as usize, k);
    let (mut o, mut a) = (vec![0u64; n * k], vec![0u32; 2 * k]);
    let (mut runs, mut rusts, mut aparts, mut cycles) = (vec![], vec![], vec![], vec![]);
    let (mut machine, mut apart) = (Machine::<false>::new(), Machine::<true>::new());
    for _ in 0..rounds {
        let mut m = t.memory.clone();
        runs.push(timed(|| { proved_run(p, &t.masks, &t.values, &mut m, &mut o, &mut a); }));
        let mut m = t.memory.clone();
        rusts.push(timed(|| { machine.run(p, &t.masks, &t.values, &mut m, &mut o, &mut a); }));
        let mut m = t.memory.clone();
        aparts.push(timed(|| { apart.run(p, &t.masks, &t.values, &mut m, &mut o, &mut a); }));
        let mut m = t.memory.clone();
        cycles.push(timed(|| for j in 0..k { proved_cycle(p, t.masks[j], &t.values[n * j..n * j + n], &mut m, &mut o[n * j..n * j + n]); }));
    }
    let each = (k * items) as f64;
    println!(
        "{name}: {} numbers, {items} items fire; run/Rust {}, run/Rust apart {}, cycle/run {}; ns an item: run {:.2}, Rust {:.2}, Rust apart {:.2}, cycle {:.2}",
        p.len(), ratios(&runs, &rusts), ratios(&runs, &aparts), ratios(&cycles, &runs), best(&runs) / each, best(&rusts) / each, best(&aparts) / each, best(&cycles) / each);
}

// ---- how the cost grows with the length of a plan whose statements are drawn at random

const LENGTHS: [(usize, usize); 6] = [(1, 100), (2, 100), (8, 100), (8, 200), (8, 400), (8, 1000)];

fn random(rng: &mut Rng, (groups, items): (usize, usize)) -> Vec<u32> {
    wide(rng, 8, groups, groups, items, false)
}

// `cycle` on one plan again and again, and on one after the other of many plans, with as many items together whatever the length
fn grown(rng: &mut Rng, length: (usize, usize), rounds: usize) {
    let (mut pool, mut items): (Vec<(Vec<u32>, Tables)>, usize) = (vec![], 0);
    while items < 16_000 {
        let p = random(rng, length);
        items += items_fired(&p);
        let t = tables(&p, rng, 1, false);
        pool.push((p, t));
    }
    let (mut again, mut after, mut o) = (vec![], vec![], vec![0u64; 16]);
    for _ in 0..rounds {
        let mut cycle = |p: &[u32], t: &Tables| {
            let n = p[1] as usize;
            proved_cycle(p, t.masks[0], &t.values, &mut t.memory.clone(), &mut o[..n]);
        };
        let (p, t) = &pool[0];
        let k = items / items_fired(p);
        again.push(timed(|| for _ in 0..k { cycle(p, t); }) / (k * items_fired(p)) as f64);
        after.push(timed(|| for (p, t) in &pool { cycle(p, t); }) / items as f64);
    }
    println!(
        "{} plans of {} numbers, {} items fire: cycle on one again and again {:.1} ns an item, on one after the other {:.1}",
        pool.len(), pool[0].0.len(), items_fired(&pool[0].0), best(&again), best(&after));
}

// so many cycles of one plan, for a tool that counts instructions
fn counted(k: usize, length: (usize, usize)) {
    let rng = &mut Rng(3);
    let p = random(rng, length);
    let t = tables(&p, rng, k, false);
    let n = p[1] as usize;
    let (mut o, mut a) = (vec![0u64; n * k], vec![0u32; 2 * k]);
    proved_run(&p, &t.masks, &t.values, &mut t.memory.clone(), &mut o, &mut a);
    let mut m = t.memory.clone();
    for j in 0..k { proved_cycle(&p, t.masks[j], &t.values[n * j..n * j + n], &mut m, &mut o[n * j..n * j + n]); }
    println!("{} {}", p.len(), items_fired(&p));
}

// 300 plans and 6000 with a number changed, which most often are refused
fn agreed() {
    let mut rng = Rng(1);
    let (mut good, mut refused) = (0, 0);
    for i in 0..300 {
        let mut p = wide(&mut rng, 3 + i % 6, 1 + i % 8, i % 9, 100 + 3 * i, i % 2 == 0);
        good += agree(&p, &tables(&p, &mut rng, 20, true));
        for _ in 0..20 {
            let t = tables(&p, &mut rng, 2, false);
            let at = rng.below(p.len() as u64) as usize;
            let old = p[at];
            p[at] = [old ^ 1, old + 1, rng.below(20) as u32, rng.below(300) as u32][rng.below(4) as usize];
            refused += sound(&p).is_none() as u32;
            agree(&p, &t);
            p[at] = old;
        }
    }
    println!("the machines agree on 300 plans, {good} of 6000 cycles with answer 0, and on 6000 changed ones, {refused} of them not sound");
}

fn main() {
    let words: Vec<usize> = std::env::args().skip(1).map(|x| x.parse().expect("a number")).collect();
    if let [k, length] = words[..] { return counted(k, LENGTHS[length]); }
    let rounds = words.first().copied().unwrap_or(200);
    agreed();
    let rng = &mut Rng(2);
    let middle = wide(rng, 4, 2, 2, 256, true);
    let repeating = wide(rng, 8, 8, 8, 1000, true);
    let largest = random(rng, LENGTHS[5]);
    for (name, p) in [("small", &small()), ("middle", &middle), ("repeating", &repeating), ("largest", &largest)] {
        measure(name, p, rng, 300_000, rounds);
    }
    for length in LENGTHS { grown(rng, length, rounds); }
}
