#!/usr/bin/env python3
"""The tour, run as the README says: tour.py PROGRAM.

examples/tour.vbm goes through `vbm script` in an empty folder, and must give examples/tour.answers. The first screen of the README
shows the same lines and answers.
"""

import os
import re
import subprocess
import sys
import tempfile

ROOT = os.path.dirname(os.path.dirname(os.path.dirname(os.path.abspath(__file__))))


def read(*path):
    with open(os.path.join(ROOT, *path), "rb") as f:
        return f.read()


def lines_of(script):
    """The lines of a script that get an answer."""
    return [line.strip() for line in script.decode().split("\n") if line.strip() and not line.strip().startswith("#")]


def shown():
    """The seed of the README's first screen, and the answers and lines of the tour on it."""
    found = re.search(r"\$ vbm init (\S+)\n.*?\n\$ vbm script <\S+\n(.*?)\n(?:\$|```)", read("README.md").decode(), re.S)
    if not found:
        return "none", []
    return found.group(1), [re.split(r" {2,}", row) for row in found.group(2).split("\n")]


def run(program, folder, words, script=b""):
    done = subprocess.run([program, *words], cwd=folder, input=script, stdout=subprocess.PIPE, stderr=subprocess.PIPE, timeout=60)
    return done.returncode, done.stdout, done.stderr


def main():
    program = os.path.abspath(sys.argv[1])
    script, answers = read("examples", "tour.vbm"), read("examples", "tour.answers")
    wanted = answers.decode().split("\n")[:-1]
    seed, rows = shown()
    with tempfile.TemporaryDirectory() as folder:
        made = run(program, folder, ["init", seed])
        toured = run(program, folder, ["script"], script)
    status = 1 if b"error " in answers else 0
    checks = [
        ("init", (0, b"ok %s\n" % seed.encode(), b""), made),
        ("the status and standard error", (status, b""), toured[::2]),
        ("the answers", wanted, toured[1].decode().split("\n")[:-1]),
        ("a line for each answer", len(wanted), len(lines_of(script))),
        ("the seed in the tour's own comment", True, seed in script.decode()),
        ("the answers on the README's first screen", wanted, [row[0] for row in rows]),
        ("the lines on the README's first screen", lines_of(script), [row[-1] for row in rows]),
    ]
    failed = [(name, a, b) for name, a, b in checks if a != b]
    for name, a, b in failed:
        differing = [(x, y) for x, y in zip(a, b) if x != y] if isinstance(a, list) and len(a) == len(b) else [(a, b)]
        print("tour: %s: wanted %.300r, got %.300r" % (name, *differing[0]))
    print("tour: %d passed, %d failed" % (len(checks) - len(failed), len(failed)))
    return 1 if failed else 0


if __name__ == "__main__":
    sys.exit(main())
