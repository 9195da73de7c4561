#!/usr/bin/env python3
"""The smallest stack, in KB, with which the program first_fault carries 8,192 bytes of each kind of nesting through rows 1 to 5. Not a test.

    (cd crates/first_fault && rt run < stdin) && bench/stack.py crates/first_fault/out/first_fault
"""
import resource, subprocess, sys


def text(head, deep, tail=""):
    """An actor of at most 8,192 bytes: as many of the nested parts as there is room for."""
    n = (8192 - len(head) - len(tail)) // len(deep)
    return head + deep * n + tail


HEAD = "a(d){input d;reg m;or(r(d.p.1){d="
TYPE = "a(d){input<"
KINDS = {
    "(": text(HEAD, "("), "{": text(HEAD, "{"), "~": text(HEAD, "~"), "m[": text(HEAD, "m["), "if": text(HEAD, "if "), "if .. else if": text(HEAD, "if d then d else "), "case (": text(HEAD, "case("),
    "case arms": text(HEAD, "case(d){0=>"), "2{": text(HEAD, "2{"), "d?(": text(HEAD, "d?("), "d+(": text(HEAD, "d+("), "d+d": text(HEAD, "d+"), "d?d:": text(HEAD, "d?d:"), "d==d&d|d": text(HEAD, "d==d&d|"), "<log(": text(HEAD + "<", "log("),
    "log( in a port": text(TYPE, "log("), "max( in a port": text(TYPE, "max("), "( in a port": text(TYPE, "("), "n+ in a port": text(TYPE, "n+"), "closed (": HEAD + "(" * 4000 + "d" + ")" * 4000 + ";})}",
    "names": text("a(", "d,"), "rules": text("a(d){input d;or(", "r(d.p.1){}"), "statements": text(HEAD, "d;d="), "memories": text("a(d){input d;", "reg m;"), "( alone": "(" * 8192, "{ alone": "{" * 8192, "~ alone": "~" * 8192, "m[ alone": "m[" * 4096, "if alone": "if " * 2730, "log( alone": "log(" * 2048,
}


def answers(program, raw, kilobytes):
    limit = kilobytes * 1024
    done = subprocess.run([program], input=b"%d\n" % len(raw) + raw + b"4\n0\n0\n", stdout=subprocess.PIPE, preexec_fn=lambda: resource.setrlimit(resource.RLIMIT_STACK, (limit, limit)))
    return done.stdout.decode().splitlines()[-1:] if done.returncode == 0 else None


def main():
    for name, actor in KINDS.items():
        raw = actor.encode()
        assert len(raw) <= 8192
        answer = answers(sys.argv[1], raw, 8192)
        low, high = 0, 8192
        while answer and high - low > 64:
            middle = (low + high) // 2
            low, high = (low, middle) if answers(sys.argv[1], raw, middle) else (middle, high)
        print("%-16s %5d bytes: %s" % (name, len(raw), "%5d KB, answer %s" % (high, answer[0][:40]) if answer else "not carried at 8 MB"))


main()
