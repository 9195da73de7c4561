#!/bin/sh
# Compares the program tipirun with evaluator.rs, a second one written from document 01 and the manual alone, which walks the tree and knows no plan:
# random actors and damaged ones, edges written by hand, a word at each place, every operator, the longest actors. Some 6,000 inputs and 60,000
# values, in about half a minute. Ends with status 1 where the two differ. After `rt run` in crates/tipirun:
#
#     tests/evaluator/compare.sh
set -eu
cd "$(dirname "$0")"
program=$PWD/../../crates/tipirun/out/tipirun
evaluator=$PWD/../../target/evaluator
mkdir -p ../../target
rustc -O --edition 2021 evaluator.rs -o "$evaluator"
python3 generate.py "${1:-10001}" 2500 "$program" "$evaluator"
python3 probes.py "$program" "$evaluator"
python3 places.py "$program" "$evaluator" 9 0
python3 batch.py 1 120 "$program" "$evaluator"
python3 operators.py "$program" "$evaluator"
python3 big.py "$program" "$evaluator"
