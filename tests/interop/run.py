#!/usr/bin/env python3
"""Files that other tools share: run.py PROGRAM.

Images that qemu-img and qemu-io made are read and opened by the program; images that the program made are read and written by
qemu-img, qemu-io and, where it is there, 7z. Where there is no qemu-img it is installed, if that can be done; else one line says so.
"""

import os
import random
import shutil
import struct
import subprocess
import sys
import tempfile
import uuid

MIB = 1 << 20
MOST = 1 << 41
SEED = "00010203-0405-0607-0809-0a0b0c0d0e0f"
OURS = "00010203-0405-8600-8000-%012x"


def install():
    """Debian's package of qemu-img and qemu-io, where this user may install it and it comes in time."""
    if os.geteuid() != 0 or not shutil.which("apt-get"):
        return
    get = ["apt-get", "-qq", "-y", "-o", "DPkg::Lock::Timeout=20", "-o", "Acquire::http::Timeout=20", "-o", "Acquire::Retries=0"]
    package = ["install", "--no-install-recommends", "qemu-utils"]
    fetch = [*get, "--download-only", *package]
    # What is stopped for its time only loads: an installation that has begun is let go on.
    if done(fetch, 60) or done([*get, "update"], 60) and done(fetch, 60):
        done([*get, *package], 300)


def done(words, limit):
    """Whether a command succeeds in so many seconds."""
    try:
        return subprocess.run(words, stdin=subprocess.DEVNULL, stdout=subprocess.DEVNULL, stderr=subprocess.DEVNULL, timeout=limit,
                              env={**os.environ, "DEBIAN_FRONTEND": "noninteractive"}).returncode == 0
    except (OSError, subprocess.TimeoutExpired):
        return False


def has_qemu():
    return shutil.which("qemu-img") and shutil.which("qemu-io")


def tool(*words):
    """Runs another tool, and gives what it writes. Its failure ends the part that needs it."""
    return subprocess.run(words, stdin=subprocess.DEVNULL, stdout=subprocess.PIPE, stderr=subprocess.PIPE, timeout=60, check=True).stdout


def header_id(file):
    """The identifier in an image's header."""
    with open(file, "rb") as f:
        return str(uuid.UUID(bytes_le=f.read(408)[392:]))


class Cases:
    def __init__(self, program):
        self.program = program
        self.random = random.Random(10)
        self.passed = 0
        self.failed = 0

    def check(self, name, wanted, got):
        if wanted == got:
            self.passed += 1
            return
        self.failed += 1
        print("interop: %s: wanted %.120r, got %.120r" % (name, wanted, got))

    def answer(self, line):
        """The line of a command, without its newline."""
        done = subprocess.run([self.program, *line.split()], stdin=subprocess.DEVNULL, stdout=subprocess.PIPE, stderr=subprocess.PIPE, timeout=60)
        return done.stdout.decode().rstrip("\n") or "status %d" % done.returncode

    def says(self, line, wanted):
        self.check(line, wanted, self.answer(line))

    def lbas(self, size, count=24):
        """Sectors of a disk: its ends, those around the first border of blocks, and others."""
        last = size // 512 - 1
        some = {0, 1, 2047, 2048, last - 1, last, *(self.random.randint(0, last) for _ in range(count))}
        return sorted(lba for lba in some if 0 <= lba <= last)

    def peeks(self, name, file, wanted, lbas):
        """Whether these sectors are the wanted ones, as `wanted` gives them."""
        wrong = [(lba, got[:20]) for lba in lbas for got in [self.answer("peek %s %d" % (file, lba))] if got != "ok " + wanted(lba).hex()]
        self.check("%s: sectors of %s that differ" % (name, file), [], wrong)

    def opens(self, file, size, variant):
        """Whether a file is opened, with the identifier and the capacity that it has."""
        its = header_id(file)
        self.says("openmedium " + file, "ok " + its)
        told = self.answer("showmediuminfo " + file).split()
        self.check("showmediuminfo " + file, (its, "normal", variant, str(size), "free"), (told[1], *told[3:]) if len(told) == 7 else told)


def zeros(_lba):
    return bytes(512)


def of(content):
    return lambda lba: content[512 * lba:512 * lba + 512]


def content_of(file):
    with open(file, "rb") as f:
        return f.read()


def with_holes(rng, size):
    """A disk with some stretches of random bytes, and zeros between them."""
    disk = bytearray(size)
    for _ in range(8):
        at = rng.randrange(size) // 512 * 512
        count = min(size - at, rng.choice([512, 4096, 65536, 300 * 1024, MIB + 512]))
        disk[at:at + count] = rng.randbytes(count)
    return bytes(disk)


def new_images(cases):
    """Empty images: small ones, odd ones, the largest."""
    for k, size in enumerate([512, 1024, MIB - 512, MIB, MIB + 512, 7 * MIB + 1536, 1 << 30, MOST]):
        for kind, words, variant in (("new", [], "Standard"), ("static", ["-o", "static=on"], "Fixed")):
            file = "%s%d.vdi" % (kind, k)
            if size == MOST and kind == "static" and not takes_large_files():
                print("skipped: a fixed image of 2 TiB (tests/interop), since this file system does not take the file")
                continue
            tool("qemu-img", "create", "-q", "-f", "vdi", *words, file, str(size))
            cases.peeks("empty", file, zeros, cases.lbas(size, 4))
            cases.says("peek %s %d" % (file, size // 512), "error 20 OutOfRange")
            cases.opens(file, size, variant)
    cases.says("closemedium static0.vdi --delete", "ok")
    cases.check("the deleted file", False, os.path.exists("static0.vdi"))


def takes_large_files():
    try:
        with open("large.tmp", "wb") as f:
            f.truncate(MOST + 16 * MIB)
    except OSError:
        return False
    finally:
        os.remove("large.tmp")
    return True


def converted_images(cases):
    """Images that qemu-img made of raw files."""
    for k, size in enumerate([512, 1536, MIB, 3 * MIB + 512, 9 * MIB - 512]):
        raw = with_holes(cases.random, size)
        with open("some.raw", "wb") as f:
            f.write(raw)
        for kind, words in (("holes", []), ("whole", ["-S", "0"]), ("fixed", ["-o", "static=on"]), ("coarse", ["-S", "64k"])):
            file = "%s%d.vdi" % (kind, k)
            tool("qemu-img", "convert", "-f", "raw", "-O", "vdi", *words, "some.raw", file)
            cases.peeks("converted", file, of(raw), cases.lbas(size))
            cases.opens(file, size, "Fixed" if kind == "fixed" else "Standard")


def writes(cases, file, size, count, steps):
    """Has qemu-io write some runs of sectors, of one byte each, and gives what each sector then is."""
    sectors = {}
    words = []
    for _ in range(steps):
        lba = cases.random.randrange(size // 512 - count)
        byte, n = cases.random.randrange(1, 256), cases.random.randint(1, count)
        words += ["-c", "write -P %d %d %d" % (byte, 512 * lba, 512 * n)]
        sectors.update((lba + i, bytes([byte]) * 512) for i in range(n))
    tool("qemu-io", "-f", "vdi", *words, file)
    return sectors


def written_images(cases):
    """Images whose blocks stand in the order in which they were written."""
    for file, size in (("grown.vdi", 40 * MIB + 512), ("large.vdi", MOST)):
        tool("qemu-img", "create", "-q", "-f", "vdi", file, str(size))
        sectors = writes(cases, file, size, 64, 30)
        cases.peeks("written", file, lambda lba: sectors.get(lba, bytes(512)), {*cases.lbas(size), *cases.random.sample(sorted(sectors), 40)})
        cases.opens(file, size, "Standard")


def own_images(cases):
    """Images that the program made, as other tools read them."""
    for k, size in enumerate([512, 1024, MIB - 512, MIB, MIB + 512, 5 * MIB + 1024, 1 << 30, MOST]):
        file = "own%d.vdi" % k
        cases.says("createmedium %s --sizebyte %d" % (file, size), "ok " + OURS % k)
        cases.check("the identifier of " + file, OURS % k, header_id(file))
        its_tools(cases, file, size, {})
        with open(file, "rb") as f:
            made = f.read()
        sectors = writes(cases, file, size, min(64, size // 1024), 20) if size > 512 else {}
        cases.check("the header of %s in front of the map, but for the count" % file, made[:388] + made[392:472], content_of(file)[:388] + content_of(file)[392:472])
        its_tools(cases, file, size, sectors)
        cases.peeks("written by qemu-io", file, lambda lba: sectors.get(lba, bytes(512)), {*cases.lbas(size, 8), *list(sectors)[:40]})
        told = cases.answer("showmediuminfo " + file).split()
        cases.check("showmediuminfo " + file, ["ok", OURS % k, (OURS % k).replace("8600", "8601"), "normal", "Standard", str(size), "free"], told)


def its_tools(cases, file, size, sectors):
    """What qemu-img, qemu-io and 7z say of a file."""
    cases.check("qemu-img check of " + file, b"No errors were found on the image.\n", tool("qemu-img", "check", "-f", "vdi", file))
    words = [w for lba in cases.lbas(size, 8) + list(sectors)[:40] for w in ("-c", "read -P %d %d 512" % (sectors.get(lba, b"\0")[0], 512 * lba))]
    said = tool("qemu-io", "-r", "-f", "vdi", *words, file)
    cases.check("qemu-io reads %s" % file, (len(words) // 2, 0), (said.count(b"read 512/512"), said.count(b"verification failed")))
    if size > 64 * MIB:
        return
    disk = b"".join(sectors.get(lba, bytes(512)) for lba in range(size // 512))
    tool("qemu-img", "convert", "-f", "vdi", "-O", "raw", file, "some.raw")
    cases.check("qemu-img convert of %s gives the disk" % file, True, content_of("some.raw") == disk)
    if shutil.which("7z"):
        cases.check("7z gives the disk of " + file, True, tool("7z", "x", "-so", file) == disk)


def changed(file, new, at=0, content=b"", cut=0):
    """A copy of a file with other bytes at a place, and fewer at its end."""
    kept = bytearray(content_of(file))
    kept[at:at + len(content)] = content
    with open(new, "wb") as f:
        f.write(kept[:len(kept) - cut])


def copied(file, new, kind="vdi"):
    """A new image of a file's disk."""
    tool("qemu-img", "convert", "-f", kind, "-O", "vdi", file, new)


def refused_images(cases):
    """Files that are refused, and the ways out that the manual names."""
    raw = cases.random.randbytes(3 * MIB)
    with open("some.raw", "wb") as f:
        f.write(raw)
    copied("some.raw", "whole.vdi", "raw")
    count = struct.unpack("<I", content_of("whole.vdi")[388:392])[0]
    changed("whole.vdi", "count.vdi", 388, struct.pack("<I", count - 1))
    changed("whole.vdi", "short.vdi", cut=1024)
    changed("whole.vdi", "nil.vdi", 392, bytes(16))
    changed("whole.vdi", "twice.vdi", 512, struct.pack("<3I", 1, 1, 2))
    tool("qemu-img", "convert", "-f", "raw", "-O", "qcow2", "some.raw", "qcow.vdi")
    short, twice = raw[:-1024] + bytes(1024), raw[MIB:2 * MIB] + raw[MIB:]
    for file, k, disk, kind in (("qcow.vdi", 2, raw, "qcow2"), ("nil.vdi", 9, raw, "vdi"), ("count.vdi", 10, raw, "vdi"), ("short.vdi", 11, short, "vdi"), ("twice.vdi", 12, twice, "vdi")):
        cases.says("openmedium " + file, "error 09 NotAnImage %d" % k)
        copied(file, "new_" + file, kind)
        cases.opens("new_" + file, len(raw), "Standard")
        cases.peeks("copied", "new_" + file, of(disk), cases.lbas(len(raw)))
    changed("whole.vdi", "{%s}.vdi" % SEED, 76, b"\4")
    cases.says("peek {%s}.vdi 0" % SEED, "status 2")
    os.link("{%s}.vdi" % SEED, "linked.vdi")
    cases.says("peek linked.vdi 0", "error 28 BrokenChain 0")


def large_disks(cases):
    """A disk of more than 2 TiB, cut at 2 TiB."""
    if not takes_large_files():
        print("skipped: a disk of more than 2 TiB (tests/interop), since this file system does not take the file")
        return
    tool("qemu-img", "create", "-q", "-f", "vdi", "past.vdi", str(MOST + 512))
    tool("qemu-io", "-f", "vdi", "-c", "write -P 5 0 512", "-c", "write -P 6 %d 1024" % (MOST - 512), "past.vdi")
    cases.says("peek past.vdi 0", "error 09 NotAnImage 7")
    cases.says("openmedium past.vdi", "error 09 NotAnImage 7")
    tool("qemu-img", "convert", "-f", "vdi", "-O", "raw", "past.vdi", "past.raw")
    os.truncate("past.raw", MOST)
    copied("past.raw", "cut.vdi", "raw")
    cases.opens("cut.vdi", MOST, "Standard")
    cases.peeks("cut", "cut.vdi", lambda lba: bytes([{0: 5, MOST // 512 - 1: 6}.get(lba, 0)]) * 512, cases.lbas(MOST, 4))


def mended_stores(cases):
    """Refusals by identifiers, and stores whose files were changed from outside, with the ways out that the manual names."""
    for file, k in (("one.vdi", 0), ("two.vdi", 1)):
        cases.says("createmedium %s --size 1" % file, "ok " + OURS % k)
    shutil.copy("one.vdi", "copy.vdi")
    cases.says("openmedium copy.vdi", "error 10 DuplicateId")
    copied("copy.vdi", "other.vdi")
    cases.opens("other.vdi", MIB, "Standard")
    changed("one.vdi", "ahead.vdi", 392, uuid.UUID(OURS % 9).bytes_le)
    cases.says("openmedium ahead.vdi", "error 11 ForeignId")
    copied("ahead.vdi", "given.vdi")
    cases.opens("given.vdi", MIB, "Standard")
    os.replace("ahead.vdi", "two.vdi")
    cases.says("list hdds", "store 7 WrongId two.vdi")
    copied("two.vdi", "new.vdi")
    os.replace("new.vdi", "two.vdi")
    cases.says("list hdds", "ok 4 given.vdi one.vdi other.vdi two.vdi")
    shutil.copy("one.vdi", "other.vdi")
    cases.says("list hdds", "store 9 SameId other.vdi")
    os.remove("other.vdi")
    cases.says("list hdds", "store 4 MissingFile other.vdi")
    tool("qemu-img", "create", "-q", "-f", "vdi", "other.vdi", "1M")
    cases.says("closemedium other.vdi --delete", "ok")
    cases.says("list hdds", "ok 3 given.vdi one.vdi two.vdi")
    changed("library.vbm", "library.vbm", cut=1)
    cases.says("list hdds", "store 3 BadLibrary %d" % os.path.getsize("library.vbm"))
    os.remove("library.vbm")
    cases.check("init", True, cases.answer("init").startswith("ok "))
    cases.says("openmedium one.vdi", "ok " + OURS % 0)
    cases.opens("two.vdi", MIB, "Standard")


def run(cases, part):
    """Runs a part of the cases in a store of its own."""
    with tempfile.TemporaryDirectory() as folder:
        os.chdir(folder)
        try:
            cases.says("init " + SEED, "ok " + SEED)
            part(cases)
        except (OSError, subprocess.SubprocessError) as fault:
            cases.check(part.__name__, "no fault", "%s %s" % (fault, (getattr(fault, "stderr", b"") or b"")[:200]))
        os.chdir("/")


def main():
    program = os.path.abspath(sys.argv[1])
    if not has_qemu():
        install()
    if not has_qemu():
        print("skipped: files shared with other tools (tests/interop), since there is no qemu-img")
        return 0
    cases = Cases(program)
    for part in (new_images, converted_images, written_images, own_images, refused_images, large_disks, mended_stores):
        run(cases, part)
    print("interop: %d passed, %d failed" % (cases.passed, cases.failed))
    return 1 if cases.failed else 0


if __name__ == "__main__":
    sys.exit(main())
