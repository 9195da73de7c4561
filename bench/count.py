#!/usr/bin/env python3
"""Instructions of `run` and `cycle` on plans of growing length, counted by valgrind: the same numbers on every computer that runs the same build.

    bench/count.py target/bench
"""
import re, subprocess, sys


def collected(program, function, cycles, length):
    command = ["valgrind", "--tool=callgrind", "--callgrind-out-file=/dev/null", "--toggle-collect=" + function, program, str(cycles), str(length)]
    done = subprocess.run(command, capture_output=True, text=True, check=True)
    return int(re.search(r"Collected : (\d+)", done.stderr).group(1)), done.stdout.split()


def main():
    print("numbers  items that fire  run, each cycle  an item  cycle  a number  cycle/run")
    for length in range(6):
        one, (numbers, items) = collected(sys.argv[1], "plan_run", 1, length)
        nine, _ = collected(sys.argv[1], "plan_run", 9, length)
        cycle, _ = collected(sys.argv[1], "plan_cycle", 1, length)
        run, numbers, items = (nine - one) / 8, int(numbers), int(items)
        print(f"{numbers:7d}  {items:15d}  {run:15.0f}  {run / items:7.1f}  {cycle:5d}  {cycle / numbers:8.1f}  {cycle / run:9.2f}")


main()
