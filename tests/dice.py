#!/usr/bin/env python3
"""The faces of the dice of crates/dice, by plain arithmetic on numbers: a register of eight bits, its bits 7, 5, 4 and 3 added modulo 2 and shifted in at the right.

    tests/dice.py > crates/dice/stdout
"""


def faces(register, rolls):
    for _ in range(rolls):
        yield register
        fresh = sum(register >> bit & 1 for bit in (7, 5, 4, 3)) % 2
        register = register * 2 % 256 + fresh


def main():
    rolled = list(faces(1, 300))
    assert len(set(rolled)) == 255 and rolled[255:] == rolled[:45], "the register runs through all its states before it comes again"
    print(0)
    for face in rolled:
        print(face)


main()
