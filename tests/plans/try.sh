#!/bin/sh
# try.sh LINES FOLDER [COUNT [FIRST]]: whether the code as it stands makes the plans that LINES has, what print.sh FOLDER [COUNT [FIRST]] printed of another
# commit. Nothing is proved: a program over `tipi::read`, of no crate of this repository, is compiled in a copy of crates/ (`rt try`) and its output
# compared, in half a minute. For the way to a change; print.sh is the comparison of two proved states. The last line says `the same` or `not the same`.
set -eu
[ $# -ge 2 ] || { echo "usage: try.sh LINES FOLDER [COUNT [FIRST]]" >&2; exit 2; }
lines=$(cd "$(dirname "$1")" && pwd)/$(basename "$1")
folder=$(cd "$2" && pwd)
cd "$(dirname "$0")/../.."
copy=$(mktemp -d)
trap 'rm -rf "$copy"' EXIT
cp -r crates crates.txt "$copy"
mkdir -p "$copy/made" "$copy/crates/plan_lines/src"
sed -n 's/^tipirun: \(.*\)/plan_lines: \1 io/p' crates.txt >>"$copy/crates.txt"
cat >"$copy/crates/plan_lines/src/main.rt" <<'END'
// Each pair of texts on standard input, as `tipi::read` answers: 0 and the plan's numbers, or row, text and place.
use language::Text;

const STDIN: i32 = 0;

const STDOUT: i32 = 1;

#[derive(Clone, Copy)]
struct Numeral {
    value: usize,
    next: usize,
}

fn say(n: u32, end: &[u8]) {
    io::print_decimal(STDOUT, n as u64);
    io::write_all(STDOUT, end);
}

fn count(all: &[u8], from: usize) -> Numeral {
    let mut v: usize = 0;
    let mut i = from;
    while i < all.len() {
        let b = all[i];
        i += 1;
        if b == b'\n' {
            return Numeral { value: v, next: i };
        }
        v = (v % 65536) * 10 + (b % 16) as usize;
    }
    Numeral { value: v, next: i }
}

fn part_end(len: usize, from: usize, n: usize) -> usize {
    if n <= len - from { from + n } else { len }
}

fn show(plan: &[u32], n: usize) {
    say(0, b" ");
    let mut i = 0;
    while i < n {
        say(plan[i], b" ");
        i += 1;
    }
    io::write_all(STDOUT, b"\n");
}

fn told(actor: &[u8], bindings: &[u8]) {
    let mut plan = [0u32; 65600];
    match tipi::read(actor, bindings, &mut plan) {
        Ok(length) => show(&plan, length as usize),
        Err(why) => {
            say(why.row, b" ");
            match why.text {
                Text::Actor => say(0, b" "),
                Text::Bindings => say(1, b" "),
            }
            say(why.place, b"\n");
        }
    }
}

fn both(all: &[u8], at: usize) -> usize {
    let a = count(all, at);
    let from = a.next;
    let end = part_end(all.len(), from, a.value);
    if all.len() <= end {
        return end;
    }
    let b = count(all, end);
    let start = b.next;
    let stop = part_end(all.len(), start, b.value);
    told(&all[from..end], &all[start..stop]);
    stop
}

fn main() {
    let mut buffer = [0u8; 2097152];
    let n = io::read_full(STDIN, &mut buffer);
    let mut at = 0;
    while at < n {
        at = both(&buffer[..n], at);
    }
}
END
python3 tests/plans/inputs.py made "$copy/made" "${3:-600}" "${4:-20001}"
python3 tests/plans/inputs.py asked "$lines" "$copy/crates/plan_lines" "$folder"/*.in "$copy/made"/*.in
# what counts is the compiled program; the interpreter may give up, which is told on standard error
(cd "$copy/crates/plan_lines" && timeout 300 rt try <stdin >"$copy/said" 2>"$copy/how") || true
if [ -s "$copy/said" ] && cmp -s "$copy/said" "$copy/crates/plan_lines/stdout"; then
    echo "the same"
else
    tail -3 "$copy/how" | cut -c1-600
    echo "not the same"
    exit 1
fi
