#!/usr/bin/env python3
"""Calls of a disk over real folders: run.py PROGRAM, where PROGRAM is `vbm_folder`, which does one call for each word.

It shows what no contract can: pipes, links, modes, and the system calls that settle files.
"""

import os
import re
import shutil
import stat
import subprocess
import sys
import tempfile

NOBODY = 65534


class Cases:
    def __init__(self, program):
        self.program = program
        self.passed = 0
        self.failed = 0

    def check(self, name, wanted, got):
        if wanted == got:
            self.passed += 1
        else:
            self.failed += 1
            print("%s: wanted %r, got %r" % (name, wanted, got))

    def calls(self, folder, *calls, user=None):
        """The lines that the calls give, to this user where one is given."""
        done = subprocess.run([self.program, *calls], cwd=folder, user=user, stdin=subprocess.DEVNULL, stdout=subprocess.PIPE, timeout=60, check=True)
        return done.stdout.decode().split("\n")[:-1]

    def settled(self, folder, *calls):
        """What each call settles: the names of the files, `.` for the folder."""
        trace = os.path.join(folder, "trace")
        subprocess.run(["strace", "-y", "-e", "trace=fsync,fdatasync,write", "-o", trace, self.program, *calls], cwd=folder, stdin=subprocess.DEVNULL, stdout=subprocess.DEVNULL, timeout=60, check=True)
        settled = [[]]
        with open(trace) as lines:
            for line in lines:
                if line.startswith("write(1<"):
                    settled.append([])
                found = re.match(r"f(?:data)?sync\(\d+<(.*)>\)", line)
                if found:
                    settled[-1].append("." if found.group(1) == os.path.realpath(folder) else os.path.basename(found.group(1)))
        os.remove(trace)
        return [sorted(names) for names in settled[:-1]]


def put(folder, name, text):
    with open(os.path.join(folder, name), "w") as f:
        f.write(text)


def read(folder, name):
    with open(os.path.join(folder, name)) as f:
        return f.read()


def odd_files(cases, folder):
    every = ["length,p.vdi", "read,p.vdi,0", "write,p.vdi,0,new", "cut,p.vdi,1", "remove,p.vdi", "sync"]
    refused = ["failed"] * 5 + ["ok"]
    os.mkfifo(os.path.join(folder, "p.vdi"))
    cases.check("a pipe", refused, cases.calls(folder, *every))
    cases.check("it stays", True, stat.S_ISFIFO(os.lstat(os.path.join(folder, "p.vdi")).st_mode))
    os.remove(os.path.join(folder, "p.vdi"))
    put(folder, "q.vdi", "other")
    os.symlink("q.vdi", os.path.join(folder, "p.vdi"))
    cases.check("a link", refused, cases.calls(folder, *every))
    cases.check("its file stays", "other", read(folder, "q.vdi"))
    os.remove(os.path.join(folder, "p.vdi"))
    os.mkdir(os.path.join(folder, "p.vdi"))
    cases.check("a folder", refused, cases.calls(folder, *every))
    os.rmdir(os.path.join(folder, "p.vdi"))
    # no mode stops root, so root makes these calls as another user
    user = NOBODY if os.geteuid() == 0 else None
    os.chmod(folder, 0o755)
    os.chmod(os.path.join(folder, "q.vdi"), 0o444)
    try:
        got = cases.calls(folder, "write,q.vdi,0,new", "cut,q.vdi,1", "read,q.vdi,0", user=user)
    except PermissionError:
        print("skipped: a file that may not be written, since another user may not run the program")
    else:
        cases.check("a file that may not be written", ["failed", "failed", "other..........."], got)


def places(cases, folder):
    os.mkdir(os.path.join(folder, "sub.vdi"))
    put(folder, "abc.vdi", "abcdef")
    put(folder, "long.vdi", "abcdefghijklmnopqrst")
    cases.check("lengths", ["6", "20", "absent", "failed"], cases.calls(folder, *["length,%s.vdi" % name for name in ("abc", "long", "none", "sub")]))
    reads = [("abc", 0, "abcdef.........."), ("abc", 3, "def............."), ("abc", 6, 16 * "."), ("abc", 2**64 - 1, 16 * "."), ("none", 0, 16 * "."),
             ("sub", 0, "failed"), ("long", 0, "abcdefghijklmnop"), ("long", 5, "fghijklmnopqrst.")]
    cases.check("reads", [text for _, _, text in reads], cases.calls(folder, *["read,%s.vdi,%d" % (name, at) for name, at, _ in reads]))
    cases.check("a folder", 3 * ["failed"], cases.calls(folder, "write,sub.vdi,0,x", "cut,sub.vdi,0", "remove,sub.vdi"))
    cases.check("no file", ["ok", "ok", "absent"], cases.calls(folder, "cut,new.vdi,0", "remove,new.vdi", "length,new.vdi"))
    written = ["write,new.vdi,2,cdefgh", "write,new.vdi,0,ab", "sync", "cut,new.vdi,6", "cut,new.vdi,7", "read,new.vdi,0"]
    cases.check("writes, and a cut", 5 * ["ok"] + ["abcdef.........."], cases.calls(folder, *written))
    cases.check("a gap", ["ok", "ef_z............"], cases.calls(folder, "write,new.vdi,7,z", "read,new.vdi,4"))
    cases.check("a removal", ["ok", "ok", "absent"], cases.calls(folder, "remove,new.vdi", "sync", "length,new.vdi"))


def many_names(cases, folder):
    writes = ["write,m%d.vdi,0,text" % i for i in range(70)]
    cases.check("70 names between two syncs", ["ok"] * 72, cases.calls(folder, "sync", *writes, "sync"))
    cases.check("each of them is there", {"text"}, {read(folder, "m%d.vdi" % i) for i in range(70)})


def settling(cases, folder):
    if not shutil.which("strace"):
        print("skipped: what syncs settle, since there is no strace")
        return
    put(folder, "a.vdi", "some text")
    put(folder, "notes.txt", "not of the store")
    put(folder, "intent.vbm", "0" * 64)
    commit = ["write,intent.vbm,8,record", "sync", "write,intent.vbm,0,O", "sync", "write,a.vdi,0,S", "sync", "write,intent.vbm,0,C", "sync"]
    cases.check(
        "a commit with unsettled data",
        [["."] + sorted(["a.vdi", "intent.vbm"]), [], [], ["a.vdi", "intent.vbm"], [], ["intent.vbm"], [], ["a.vdi"], [], ["intent.vbm"]],
        cases.settled(folder, "sync", "write,a.vdi,2,data", *commit),
    )
    cases.check(
        "names that come and go",
        [[".", "a.vdi", "intent.vbm"], [], [".", "b.vdi"], [], [], ["."], []],
        cases.settled(folder, "sync", "write,b.vdi,0,new", "sync", "write,b.vdi,1,x", "remove,b.vdi", "sync", "sync"),
    )
    cases.check("a cut", [[".", "a.vdi", "intent.vbm"], [], ["a.vdi"], [], []], cases.settled(folder, "sync", "cut,a.vdi,4", "sync", "cut,a.vdi,9", "sync"))
    writes = ["write,m%d.vdi,0,text" % i for i in range(65)]
    full = cases.settled(folder, "sync", *writes)
    cases.check("a full list is settled", (64, sorted("m%d.vdi" % i for i in range(64))), (sum(map(len, full[1:])), full[65]))


def main():
    cases = Cases(os.path.abspath(sys.argv[1]))
    for part in (odd_files, places, many_names, settling):
        with tempfile.TemporaryDirectory() as folder:
            part(cases, folder)
    print("folder: %d passed, %d failed" % (cases.passed, cases.failed))
    return 1 if cases.failed else 0


if __name__ == "__main__":
    sys.exit(main())
