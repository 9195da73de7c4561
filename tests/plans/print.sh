#!/bin/sh
# print.sh FOLDER [COUNT [FIRST]]: prints, one line each, what `tipi::read` makes of every FOLDER/*.in (tipirun's inputs) and of COUNT generated ones
# (600, from the seed FIRST, 20001; two of five have a plan) and of the longest actors of tests/evaluator: a refusal with its row, text and place, or the
# plan's numbers. The inputs depend on the arguments alone, so two commits are compared by the lines of both:
#
#     git clone . ../other && git -C ../other checkout COMMIT
#     (cd ../other && tests/plans/print.sh FOLDER > before.txt)
#     tests/plans/print.sh FOLDER > after.txt && diff ../other/before.txt after.txt
#
# It proves `tipi_abi` and what it needs where that is not done yet (`rt lib`), and needs `rustc` and `python3` beside `rt`.
# A commit from before this script gets crates/tipi_abi with its line of crates.txt, tests/plans and tests/evaluator of a later one.
set -eu
[ $# -ge 1 ] || { echo "usage: print.sh FOLDER [COUNT [FIRST]]" >&2; exit 2; }
folder=$(cd "$1" && pwd)
root=$(cd "$(dirname "$0")/../.." && pwd)
cd "$root"
(cd crates/tipi_abi && rt lib) >&2
mkdir -p target
rustc -O --edition 2021 tests/plans/print.rs -L crates/tipi_abi/out -l static=tipi_abi -o target/print
made=target/plans
rm -rf "$made"
mkdir -p "$made"
python3 tests/plans/inputs.py made "$made" "${2:-600}" "${3:-20001}"
exec target/print "$folder"/*.in "$made"/*.in
