#!/usr/bin/env python3
"""Measures beside qemu: run.py PROGRAM [ROUNDS], which prints a table in Markdown.

Both programs are run by turns in one folder, over a warm cache; a time is the median over the rounds, a ratio the median of the
ratios of each round. Memory is the peak that GNU time tells. Calls are the reads and writes, and the syncs, of files in the folder,
as strace counts them in one more run. docs/PERFORMANCE.md says more.
"""

import os
import platform
import random
import re
import shutil
import statistics
import struct
import subprocess
import sys
import tempfile
import time
import uuid

MIB = 1 << 20
SEED = uuid.UUID("00010203-0405-0607-0809-0a0b0c0d0e0f")
LINES = 10000


# ---- files


def image(file, entries, identifier=None, parent=None):
    """An image with this block map, and holes for data; it stands on the image with the identifier `parent`, if there is one."""
    data = -(-(MIB + 4 * len(entries)) // MIB) * MIB
    head = bytearray(472)
    struct.pack_into("<4I", head, 64, 0xBEDA107F, 0x00010001, 400, 1)
    struct.pack_into("<2I", head, 340, MIB, data)
    struct.pack_into("<I", head, 360, 512)
    struct.pack_into("<Q4I", head, 368, len(entries) * MIB, MIB, 0, len(entries), sum(e < 0xFFFFFFFE for e in entries))
    head[392:408] = (identifier or uuid.UUID(int=1)).bytes_le
    if parent:
        struct.pack_into("<I", head, 76, 4)
        head[424:440] = parent.bytes_le
    with open(file, "wb") as f:
        f.write(head)
        f.seek(MIB)
        f.write(struct.pack("<%dI" % len(entries), *entries))
        f.truncate(data + MIB * sum(e < 0xFFFFFFFE for e in entries))


def shuffled(count):
    entries = list(range(count))
    random.Random(10).shuffle(entries)
    return entries


def library(count):
    """A library of media m0000.vdi, m0001.vdi, .. and their files, of 1 MiB each."""
    names = ["m%04d.vdi" % k for k in range(count)]
    for k, name in enumerate(names):
        image(name, [0xFFFFFFFF], uuid.UUID(int=(2 << 120) + k))
    with open("library.vbm", "wb") as f:
        f.write(b"VBMLIB01" + SEED.bytes + struct.pack("<2QH", 0, 0, count))
        f.write(b"".join(bytes([len(n)]) + n.encode() + b"\0" for n in names) + bytes(6))


# ---- runs


def run(words, source=None):
    """The milliseconds of a run."""
    with open(source or os.devnull, "rb") as stdin:
        start = time.perf_counter()
        done = subprocess.run(words, stdin=stdin, stdout=subprocess.PIPE, stderr=subprocess.PIPE)
        spent = time.perf_counter() - start
    if done.returncode != 0 or b"failed" in done.stdout:
        sys.exit("bench: %s: status %d, %r" % (words, done.returncode, done.stdout[-200:] + done.stderr[-200:]))
    return 1000 * spent


def peak(words, source):
    """The most memory of a run, in MiB."""
    if not os.path.exists("/usr/bin/time"):
        return None
    run(["/usr/bin/time", "-o", "peak.txt", "-f", "%M", *words], source)
    with open("peak.txt") as f:
        return int(f.read()) / 1024


def calls(words, source):
    """How many calls of a run read or write files of the folder, and how many settle them."""
    if not shutil.which("strace"):
        return None
    run(["strace", "-f", "-y", "-o", "calls.txt", "-e", "trace=/^p?(read|write)(64|v|v2)?$,fsync,fdatasync,ftruncate,fallocate,unlink", *words], source)
    with open("calls.txt") as f:
        found = [m.group(1) for m in (re.match(r"\d+ +(\w+)\(\d+<%s[/>]" % re.escape(os.getcwd()), line) for line in f) if m]
    syncs = sum(name in ("fsync", "fdatasync") for name in found)
    return len(found) - syncs, syncs


class Run:
    """A command that is measured; `clean` takes back what it did."""

    def __init__(self, words, clean=None, source=None):
        self.words, self.clean, self.source = words, clean, source

    def measure(self, how):
        got = how(self.words, self.source)
        if self.clean:
            self.clean()
        return got


def row(name, wanted, ours, theirs, rounds):
    """A row of the table: our run beside another, where there is one."""
    pairs = [(ours.measure(run), theirs.measure(run) if theirs else None) for _ in range(rounds + 1)][1:]
    cells = [name, wanted, "%.1f" % statistics.median(a for a, _ in pairs)]
    cells += ["%.1f" % statistics.median(b for _, b in pairs), "%.2f" % statistics.median(a / b for a, b in pairs)] if theirs else ["", ""]
    memory = [r.measure(peak) if r else None for r in (ours, theirs)]
    counts = [r.measure(calls) if r else None for r in (ours, theirs)]
    cells += ["%.1f" % m if m else "" for m in memory] + ["%d + %d" % c if c else "" for c in counts]
    print("| " + " | ".join(cells) + " |", flush=True)


# ---- what is measured


def peeks(program, has_qemu, rounds):
    """A sector of an image, by name and by offset."""
    for name, entries in (("1 GiB", range(1 << 10)), ("2 TiB, ascending", range(1 << 21)), ("2 TiB, shuffled", shuffled(1 << 21))):
        image("p.vdi", entries)
        lba = len(entries) * 2048 - 5
        theirs = Run(["qemu-io", "-r", "-f", "vdi", "-c", "read -P 0 %d 512" % (512 * lba), "p.vdi"])
        row("`peek`, %s" % name, "1×", Run([program, "peek", "p.vdi", str(lba)]), theirs if has_qemu else None, rounds)
        os.remove("p.vdi")


def chains(program, has_qemu, rounds):
    """A sector of the first of many images of 1 GiB, through those above it, of which each has only free blocks."""
    for count in (6, 24):
        names, parent = [], None
        for k in range(count):
            names.append("c%d.vdi" % k)
            image(names[-1], [0xFFFFFFFF] * (1 << 10) if k else range(1 << 10), uuid.UUID(int=k + 1), parent)
            parent = uuid.UUID(int=k + 1)
        if has_qemu:
            run(["qemu-img", "convert", "-f", "vdi", "-O", "qcow2", "c0.vdi", "c0.qcow2"])
            for k in range(1, count):
                run(["qemu-img", "create", "-q", "-f", "qcow2", "-F", "qcow2", "-b", "c%d.qcow2" % (k - 1), "c%d.qcow2" % k])
        lba = (1 << 21) - 5
        theirs = Run(["qemu-io", "-r", "-f", "qcow2", "-c", "read -P 0 %d 512" % (512 * lba), "c%d.qcow2" % (count - 1)])
        row("`peek`, a chain of %d images" % count, "1×", Run([program, "peek", *names, str(lba)]), theirs if has_qemu else None, rounds)


def creations(program, has_qemu, rounds):
    """A new image, in a store with nothing else in it."""
    run([program, "init", str(SEED)])
    for name, size in (("1 GiB", 1 << 10), ("2 TiB", 1 << 21)):
        ours = Run([program, "createmedium", "c.vdi", "--size", str(size)], lambda: run([program, "closemedium", "c.vdi", "--delete"]))
        theirs = Run(["qemu-img", "create", "-q", "-f", "vdi", "q.vdi", "%dM" % size], lambda: os.remove("q.vdi"))
        row("`createmedium`, %s" % name, "2×", ours, theirs if has_qemu else None, rounds)
        settled = Run(["sh", "-c", "qemu-img create -q -f vdi q.vdi %dM && sync q.vdi ." % size], lambda: os.remove("q.vdi"))
        row("`createmedium`, %s, beside `qemu-img create` and `sync`" % name, "", ours, settled if has_qemu else None, rounds)


def libraries(program, _has_qemu, rounds):
    """A store of many media, opened for one question."""
    library(1024)
    row("opening 1024 media", "1000 ms", Run([program, "list", "hdds"]), None, rounds)


def scripts(program, _has_qemu, rounds):
    """Many questions in one run."""
    run([program, "init", str(SEED)])
    for name in ("a.vdi", "b.vdi"):
        run([program, "createmedium", name, "--size", "1024"])
    # They lie outside the folder, so that reading them is no call on a file of the store.
    for name, count in (("none", 0), ("asking", LINES)):
        with open("../%s.txt" % name, "w") as f:
            f.writelines(["list hdds\n", "showmediuminfo a.vdi\n"][k % 2] for k in range(count))
    if subprocess.run([program, "script"], stdin=subprocess.DEVNULL, stdout=subprocess.DEVNULL, stderr=subprocess.DEVNULL).returncode == 2:
        print("| a script: this program has none yet" + " |" * 9)
        return
    row("a script with no lines", "", Run([program, "script"], source="../none.txt"), None, rounds)
    row("a script of %d asking lines" % LINES, "the same calls", Run([program, "script"], source="../asking.txt"), None, rounds)


def machine():
    """What the figures were made on."""
    with open("/proc/cpuinfo") as f:
        model = re.search(r"model name\s*: (.*)", f.read())
    disk = subprocess.run(["stat", "-f", "-c", "%T", "."], stdout=subprocess.PIPE).stdout.decode().strip()
    qemu = subprocess.run(["qemu-img", "--version"], stdout=subprocess.PIPE).stdout.decode().split("\n")[0] if shutil.which("qemu-img") else "no qemu-img"
    return "%d × %s, Linux %s, file system %s, %s, load %.1f at the start" % (
        os.cpu_count(), model.group(1) if model else platform.machine(), platform.release(), disk, qemu, os.getloadavg()[0])


def main():
    program = os.path.abspath(sys.argv[1])
    rounds = int(sys.argv[2]) if len(sys.argv) > 2 else 15
    has_qemu = bool(shutil.which("qemu-img") and shutil.which("qemu-io"))
    with tempfile.TemporaryDirectory() as folder:
        os.chdir(folder)
        print("%s; medians of %d rounds\n" % (machine(), rounds))
        print("| What | Wanted | vbm, ms | qemu, ms | Ratio | vbm, MiB | qemu, MiB | vbm, calls + syncs | qemu, calls + syncs |")
        print("|---|---|---|---|---|---|---|---|---|")
        for part in (peeks, chains, creations, libraries, scripts):
            os.mkdir(part.__name__)
            os.chdir(part.__name__)
            part(program, has_qemu, rounds)
            os.chdir("..")
        os.chdir("/")


if __name__ == "__main__":
    main()
