#!/usr/bin/env python3
"""Runs of the program over real folders and streams: run.py PROGRAM.

Each case runs the program in a folder of its own and compares the status, standard output and standard error.
"""

import os
import struct
import subprocess
import sys
import tempfile
import time

ROOT = os.path.dirname(os.path.dirname(os.path.dirname(os.path.abspath(__file__))))
MIB = 1 << 20
FREE, ZERO = 0xFFFFFFFF, 0xFFFFFFFE


def image(entries=(FREE, ZERO, 0), capacity=3 * MIB, allocated=1, image_type=1, cb_header=400, off_blocks=512, off_data=4096):
    """A VDI 1.1 image without its data: its header and its block map."""
    f = bytearray(off_data)
    f[0:8] = b"any text"
    struct.pack_into("<4I", f, 64, 0xBEDA107F, 0x00010001, cb_header, image_type)
    struct.pack_into("<2I", f, 340, off_blocks, off_data)
    struct.pack_into("<Q4I", f, 368, capacity, MIB, 0, len(entries), allocated)
    f[392:408] = bytes.fromhex("11111111111111418111111111111111")
    struct.pack_into("<%dI" % len(entries), f, off_blocks, *entries)
    return bytes(f)


def data():
    """One block whose sector j is filled with the byte j + 1."""
    return b"".join(bytes([(j + 1) % 256]) * 512 for j in range(2048))


def sector(byte):
    return b"ok " + b"%02x" % byte * 512 + b"\n"


class Cases:
    def __init__(self, program):
        self.program = program
        self.passed = 0
        self.failed = 0

    def run(self, name, words, status, out, err=b"", files=(), before=None, program=None, **streams):
        with tempfile.TemporaryDirectory() as folder:
            for file, content in files:
                with open(os.path.join(folder, file), "wb") as f:
                    f.write(content)
            if before:
                before(folder)
            kept = tree(folder)
            streams.setdefault("stdout", subprocess.PIPE)
            done = subprocess.run([program or self.program, *words], cwd=folder, stdin=subprocess.DEVNULL, stderr=subprocess.PIPE, timeout=60, **streams)
            got = (done.returncode, done.stdout or b"", done.stderr)
            same = tree(folder) == kept
        if got == (status, out, err) and same:
            self.passed += 1
            return
        self.failed += 1
        print("%s: wanted %r, got %r%s" % (name, short((status, out, err)), short(got), "" if same else ", and the folder has changed"))


def tree(folder):
    """The names in a folder, with the size and the time of the last change of each."""
    return sorted((e.name, e.stat(follow_symlinks=False).st_size, e.stat(follow_symlinks=False).st_mtime_ns) for e in os.scandir(folder))


def short(got):
    return tuple(g[:60] if isinstance(g, bytes) else g for g in got)


def sectors(cases):
    p = [("p.vdi", image() + data())]
    for lba, byte in [(0, 0), (2048, 0), (4096, 1), (4097, 2), (6143, 0)]:
        cases.run("sector %d" % lba, ["peek", "p.vdi", str(lba)], 0, sector(byte), files=p)
    cases.run("past the capacity", ["peek", "p.vdi", "6144"], 1, b"error 20 OutOfRange\n", files=p)
    one = [("p.vdi", image(entries=[0], capacity=512, cb_header=384) + data())]
    cases.run("short header", ["peek", "p.vdi", "0"], 0, sector(1), files=one)
    cases.run("one sector", ["peek", "p.vdi", "1"], 1, b"error 20 OutOfRange\n", files=one)
    cases.run("through bin/vbm", ["peek", "p.vdi", "4096"], 0, sector(1), files=p, program=os.path.join(ROOT, "bin", "vbm"))


def chain(n):
    """The files of a chain of n images of n blocks, base first: image k alone has block k, filled with the byte k + 1."""
    files = []
    for k in range(n):
        f = bytearray(image([0 if b == k else FREE for b in range(n)], n * MIB, 1, 4 if k else 1))
        f[392:456] = bytes([2 * k + 1] * 16 + [2 * k + 2] * 16 + ([2 * k - 1] * 16 + [2 * k] * 16 if k else [0] * 32))
        files.append(("%d.vdi" % k, bytes(f) + bytes([k + 1]) * MIB))
    return files


def chains(cases):
    files = chain(32)
    names = [name for name, _ in files]
    for k in (0, 16, 31):
        cases.run("block %d of a chain" % k, ["peek", *names, str(2048 * k + 1)], 0, sector(k + 1), files=files)
    cases.run("a block that those below have", ["peek", *names[:2], "4096"], 0, sector(0), files=files[:3])
    cases.run("a chain without a file", ["peek", *names, "0"], 1, b"error 08 NoSuchFile\n", files=files[:31])
    cases.run("a chain without an image", ["peek", *names[:3], *names[4:], "0"], 1, b"error 28 BrokenChain 3\n", files=files)
    cases.run("a file too many", ["peek", *names, names[31], "0"], 2, b"", b"words not understood\n", files=files)
    cases.run("a chain through bin/vbm", ["peek", *names[:2], "2048"], 0, sector(2), files=files[:2], program=os.path.join(ROOT, "bin", "vbm"))


def refusals(cases):
    good = image() + data()

    def changed(at, new):
        return good[:at] + new + good[at + len(new):]

    for name, content, line in [
        ("short file", good[:455], "09 NotAnImage 1"),
        ("empty file", b"", "09 NotAnImage 1"),
        ("signature", changed(64, b"\0"), "09 NotAnImage 2"),
        ("version", changed(68, b"\x02"), "09 NotAnImage 3"),
        ("position past the count", changed(520, b"\x01"), "09 NotAnImage 10"),
        ("block past the end", good[:-1], "09 NotAnImage 11"),
        ("position twice", changed(512, struct.pack("<2I", 0, 0)), "09 NotAnImage 12"),
        ("differencing image", changed(76, b"\x04"), "28 BrokenChain 0"),
    ]:
        cases.run(name, ["peek", "p.vdi", "0"], 1, b"error %s\n" % line.encode(), files=[("p.vdi", content)])
    cases.run("no file", ["peek", "p.vdi", "0"], 1, b"error 08 NoSuchFile\n")


def words(cases):
    for line in [[], [""], ["frob"], ["peek"], ["peek", "p.vdi"], ["peek", "p.vdi", "0", "0"], ["peek", "p.vdi", "00"], ["peek", "p.vdi", "+1"],
                 ["peek", "p.vdi", "q.vdi"], ["peek", "p.vdi", "0", "q.vdi"], ["peek", "p.vdi", "../q.vdi", "0"],
                 ["peek", "p.vdi", "18446744073709551616"], ["peek", "../p.vdi", "0"], ["peek", ".vdi", "0"], ["peek", "p.vdi ", "0"],
                 ["peek", b"\xff.vdi", "0"], ["peek", "p.vdi", "1" * 20000], ["x" * 100000]]:
        cases.run("words %.40r" % line, line, 2, b"", b"words not understood\n")
    cases.run("the last number", ["peek", "p.vdi", "18446744073709551615"], 1, b"error 08 NoSuchFile\n")


def folders(cases):
    fault = (3, b"", b"disk fault\n")
    peek = ["peek", "p.vdi", "0"]
    cases.run("a folder of the name", peek, *fault, before=lambda d: os.mkdir(os.path.join(d, "p.vdi")))
    cases.run("a pipe of the name", peek, *fault, before=lambda d: os.mkfifo(os.path.join(d, "p.vdi")))
    cases.run("a link of the name", peek, *fault, files=[("q.vdi", image() + data())], before=lambda d: os.symlink("q.vdi", os.path.join(d, "p.vdi")))
    if os.geteuid() != 0:
        cases.run("a file that may not be read", peek, *fault, files=[("p.vdi", image())], before=lambda d: os.chmod(os.path.join(d, "p.vdi"), 0))

    def large(entries):
        n = len(entries)
        head = image(entries=entries, capacity=n * MIB, allocated=n, off_blocks=MIB, off_data=MIB + -(-4 * n // MIB) * MIB)

        def make(folder):
            with open(os.path.join(folder, "p.vdi"), "wb") as f:
                f.write(head)
                f.truncate(len(head) + n * MIB)
        return make

    most = 1 << 21
    cases.run("a full map of 2 TiB", ["peek", "p.vdi", str(most * 2048 - 1)], 0, sector(0), before=large(range(most)))
    cases.run("a repeat at its ends", peek, 1, b"error 09 NotAnImage 12\n", before=large([most - 1, *range(1, most)]))


def outputs(cases):
    peek = ["peek", "p.vdi", "0"]
    with open("/dev/full", "wb") as full:
        cases.run("a full device", peek, 5, b"", b"output fault\n", stdout=full)
    read, write = os.pipe()
    os.close(read)
    cases.run("a closed pipe", peek, 5, b"", b"output fault\n", stdout=write)
    os.close(write)


SEED = "00010203-0405-0607-0809-0a0b0c0d0e0f"
A_ID = b"00010203-0405-8600-8000-000000000000"
A_MODIFY = b"00010203-0405-8601-8000-000000000000"
HEAD = b"VBMLIB01" + bytes(range(16))


class Store:
    """Runs of the program, one after the other, in one folder."""

    def __init__(self, cases, name, files=()):
        self.cases, self.name = cases, name
        self.folder = tempfile.TemporaryDirectory()
        for file, content in files:
            with open(self.path(file), "wb") as f:
                f.write(content)

    def path(self, file):
        return os.path.join(self.folder.name, file)

    def does(self, line, status, out):
        done = subprocess.run([self.cases.program, *line.split()], cwd=self.folder.name, stdin=subprocess.DEVNULL, stdout=subprocess.PIPE, stderr=subprocess.PIPE, timeout=60)
        self.holds(line, (done.returncode, done.stdout, done.stderr) == (status, out, b""), (done.returncode, done.stdout, done.stderr))

    def runs(self, what, script, status, out, err=b"", **streams):
        """A script whose lines come from a pipe, or from the stream that is given."""
        if "stdin" not in streams:
            streams["input"] = script
        streams.setdefault("stdout", subprocess.PIPE)
        done = subprocess.run([self.cases.program, "script"], cwd=self.folder.name, stderr=subprocess.PIPE, timeout=60, **streams)
        got = (done.returncode, done.stdout or b"", done.stderr)
        self.holds(what, got == (status, out, err), short(got))

    def holds(self, what, good, got=None):
        if good:
            self.cases.passed += 1
            return
        self.cases.failed += 1
        print("%s: %s: %r" % (self.name, what, got))


def library(next_number=0, media=(), tail=bytes(6)):
    entries = b"".join(bytes([len(m)]) + m + b"\0" for m in media)
    return HEAD + struct.pack("<2QH", next_number, 0, len(media)) + entries + tail


def media(cases):
    s = Store(cases, "media")
    s.does("list hdds", 7, b"store 1 NoLibrary\n")
    s.does("init " + SEED, 0, b"ok " + SEED.encode() + b"\n")
    s.holds("the library's bytes", open(s.path("library.vbm"), "rb").read() == library())
    s.does("init", 7, b"store 0 LibraryThere\n")
    s.does("createmedium a.vdi --size 1", 0, b"ok " + A_ID + b"\n")
    made = open(s.path("a.vdi"), "rb").read()
    s.holds("the image's bytes", len(made) == 2 * MIB and made[392:408] == bytes.fromhex("03020100050400868000000000000000")
            and made[MIB:MIB + 8] == b"\xff" * 4 + bytes(4))
    s.does("showmediuminfo a.vdi", 0, b"ok " + A_ID + b" " + A_MODIFY + b" normal Standard 1048576 free\n")
    s.does("createmedium a.vdi --size 1", 1, b"error 06 NameTaken\n")
    s.does("createmedium b.vdi --size 2097152", 0, b"ok 00010203-0405-8600-8000-000000000001\n")
    s.does("createmedium c.vdi --size 2097153", 1, b"error 24 BadSize\n")
    s.does("list hdds", 0, b"ok 2 a.vdi b.vdi\n")
    s.does("closemedium a.vdi", 0, b"ok\n")
    s.does("createmedium a.vdi --size 1", 1, b"error 07 FileExists\n")
    s.does("showmediuminfo a.vdi", 1, b"error 02 NoSuchMedium\n")
    s.does("openmedium a.vdi", 0, b"ok " + A_ID + b"\n")
    s.does("peek a.vdi 2047", 0, sector(0))
    s.does("closemedium b.vdi --delete", 0, b"ok\n")
    s.holds("the file is gone", not os.path.exists(s.path("b.vdi")))
    s.does("list hdds", 0, b"ok 1 a.vdi\n")
    s.holds("a refused command writes nothing", open(s.path("a.vdi"), "rb").read() == made)


def machines(cases):
    s = Store(cases, "machines", [("library.vbm", library())])
    kept = lambda: open(s.path("library.vbm"), "rb").read()
    s.does("createmedium a.vdi --size 1", 0, b"ok " + A_ID + b"\n")
    s.does("createvm v", 0, b"ok\n")
    s.does("storageattach v 29 a.vdi", 0, b"ok\n")
    disks = b"".join(b"createmedium d%02d.vdi --sizebyte 512\nstorageattach v %d d%02d.vdi\n" % (i, i, i) for i in range(29))
    s.runs("a machine with all ports", disks, 0, b"".join(b"ok 00010203-0405-8600-8000-%012x\nok\n" % (i + 1) for i in range(29)))
    attached = kept()
    s.runs("a machine runs as long as the script", b"startvm v\nlist vms\nstorageattach v 29 none\n", 1, b"ok\nok 1 v:running\nerror 14 Running\n")
    s.holds("a start changes no byte of the library", kept() == attached)
    s.does("list vms", 0, b"ok 1 v:off\n")
    s.does("closemedium a.vdi --delete", 1, b"error 12 InUse\n")
    s.does("unregistervm v", 1, b"error 12 InUse\n")
    s.runs("no slot is left", b"".join(b"storageattach v %d none\n" % i for i in range(30)), 0, 30 * b"ok\n")
    s.runs("no disk but one is left", b"".join(b"closemedium d%02d.vdi --delete\n" % i for i in range(29)), 0, 29 * b"ok\n")
    s.does("unregistervm v", 0, b"ok\n")
    s.holds("nothing of the machine is left", kept() == library(30, [b"a.vdi"]))
    names = [b"m%03d" % i for i in range(256)]
    s.runs("the most machines, and one more", b"".join(b"createvm %s\n" % n for n in names + [b"more"]), 1, 256 * b"ok\n" + b"error 26 Full machines\n")
    s.does("list vms", 0, b"ok 256 " + b" ".join(n + b":off" for n in names) + b"\n")


def foreign_files(cases):
    files = [("library.vbm", library(1)), ("p.vdi", image() + data()), ("short.vdi", b"x"), ("link.vdi", image(image_type=4) + data()),
             ("ours.vdi", (image() + data()).replace(bytes.fromhex("11111111111111418111111111111111"), bytes.fromhex("03020100050400868000000000000009")))]
    s = Store(cases, "foreign files", files)
    s.does("openmedium x.vdi", 1, b"error 08 NoSuchFile\n")
    s.does("openmedium short.vdi", 1, b"error 09 NotAnImage 1\n")
    s.does("openmedium ours.vdi", 1, b"error 11 ForeignId\n")
    s.does("openmedium link.vdi", 1, b"error 28 BrokenChain 0\n")
    s.does("openmedium p.vdi", 0, b"ok 11111111-1111-4111-8111-111111111111\n")
    s.does("showmediuminfo p.vdi", 0, b"ok 11111111-1111-4111-8111-111111111111 00000000-0000-0000-0000-000000000000 normal Standard 3145728 free\n")
    s.does("openmedium link.vdi", 1, b"error 10 DuplicateId\n")
    s.does("closemedium p.vdi --delete", 0, b"ok\n")
    s = Store(cases, "spent", [("library.vbm", library(1 << 62))])
    s.does("createmedium a.vdi --size 1", 1, b"error 27 IdsSpent\n")
    small = image(entries=[FREE], capacity=512, allocated=0)
    many = [b"m%04d.vdi" % i for i in range(1024)]
    ids = [b"\x22" + struct.pack("<I", i) + bytes(11) for i in range(1024)]
    s = Store(cases, "full", [("library.vbm", library(0, many))] + [(m.decode(), small[:392] + i + small[408:516]) for m, i in zip(many, ids)])
    s.does("createmedium z.vdi --size 1", 1, b"error 26 Full media\n")


def refused_stores(cases):
    good = image() + data()
    for line, files in [
        (b"store 3 BadLibrary 48", [("library.vbm", library() + b"x")]),
        (b"store 3 BadLibrary 48", [("library.vbm", HEAD + struct.pack("<2QH", 0, 0, 1) + b"\5a.vdi\7")]),
        (b"store 3 BadLibrary 49", [("library.vbm", library(0, [b"b.vdi", b"a.vdi"]))]),
        (b"store 3 BadLibrary 0", [("library.vbm", b"")]),
        (b"store 4 MissingFile a.vdi", [("library.vbm", library(0, [b"a.vdi"]))]),
        (b"store 5 BadImage a.vdi 1", [("library.vbm", library(0, [b"a.vdi"])), ("a.vdi", b"")]),
        (b"store 6 WrongType a.vdi", [("library.vbm", library(0, [b"a.vdi"])), ("a.vdi", image(image_type=4) + data())]),
        (b"store 9 SameId b.vdi", [("library.vbm", library(0, [b"a.vdi", b"b.vdi"])), ("a.vdi", good), ("b.vdi", good)]),
        (b"store 2 BadLog", [("library.vbm", library()), ("intent.vbm", b"\xa5" + bytes(7) + struct.pack("<2I", 33554433, 1))]),
        (b"store 2 BadLog", [("library.vbm", library()), ("intent.vbm", b"\xa5" + bytes(7) + struct.pack("<2I", 20, 1) + b"\1\5a.vdi" + struct.pack("<QI", 1, 1) + b"\1")]),
    ]:
        cases.run("refused store %s" % line.decode(), ["list", "hdds"], 7, line + b"\n", files=files + ([] if line.startswith(b"store 2") else [("intent.vbm", bytes(16))]))
    s = Store(cases, "a log that waits", [("library.vbm", library()), ("a.vdi", bytes(100)),
              ("intent.vbm", b"\xa5" + bytes(7) + struct.pack("<2I", 15, 1) + b"\3\5a.vdi" + struct.pack("<Q", 10))])
    s.does("list hdds", 0, b"ok 0\n")
    s.holds("it is redone", os.path.getsize(s.path("a.vdi")) == 10 and open(s.path("intent.vbm"), "rb").read(1) != b"\xa5")


def log(changes):
    """A log that waits, with a record of these changes."""
    body = b"".join(changes)
    return b"\xa5" + bytes(7) + struct.pack("<2I", len(body), len(changes)) + body


def named(kind, name):
    return bytes([kind, len(name)]) + name


def written(name, at, data):
    return named(1, name) + struct.pack("<QI", at, len(data)) + data


# No record has more bytes, or more changes.
BODY, CHANGES = 1 << 25, 1 << 16

# A record is judged in less, in seconds, even on a busy machine.
LONGEST = 20


def long_records(cases):
    """Logs near their limits. Where a record has as many changes as there may be, the last of them is bad."""
    places = [(i * 40503) % CHANGES for i in range(1, CHANGES)]
    bad = written(b"b.vdi", 1, b"1")
    done, refused = (0, b"ok 0\n"), (7, b"store 2 BadLog\n")
    room = BODY - len(written(b"a.vdi", 0, b""))
    for name, changes, before, wanted, after in [
        ("the longest body", [written(b"a.vdi", 0, b"\7" * room)], b"", done, b"\7" * room),
        ("a body that is too long", [written(b"a.vdi", 0, b"\7" * (room + 1))], b"", refused, b""),
        ("the most changes", [written(b"a.vdi", i, b"1") for i in range(CHANGES)], b"", done, b"1" * CHANGES),
        ("too many changes", [written(b"a.vdi", i, b"1") for i in range(CHANGES + 1)], b"", refused, b""),
        ("many changes of one file", [written(b"a.vdi", i, b"1") for i in places] + [bad], b"\7" * CHANGES, refused, b"\7" * CHANGES),
        ("long changes of one file", [written(b"a.vdi", 480 * i, b"\1" * 480) for i in places] + [bad], b"\7" * (480 * CHANGES), refused, b"\7" * (480 * CHANGES)),
        ("many files", [named(4, b"%08d.vdi" % i) for i in places] + [bad], b"x", refused, b"x"),
    ]:
        s = Store(cases, name, [("library.vbm", library()), ("a.vdi", before), ("intent.vbm", log(changes))])
        start = time.monotonic()
        s.does("list hdds", *wanted)
        s.holds("in time", time.monotonic() - start < LONGEST)
        s.holds("the file", open(s.path("a.vdi"), "rb").read() == after)


BAD = b"error 01 BadLine\n"
PARTS = [b"\n", b"\r", b" ", b"\t", b"#", b"list hdds", b"list", b"\r\n", b"showmediuminfo a.vdi\n", b"x"]


def random_script(seed):
    x, parts = seed, []
    for _ in range(40):
        x = (x * 6364136223846793005 + 1442695040888963407) % (1 << 64)
        parts.append(PARTS[(x >> 33) % len(PARTS)])
    return b"".join(parts)


def answers_to(script, info):
    """What docs/MACHINE.md says of these parts of lines."""
    lines = script.split(b"\n")
    ended = [line[:-1] if line.endswith(b"\r") else line for line in lines[:-1]]
    commands = [line.replace(b"\t", b" ").split(b" ") for line in ended + [lines[-1]]]
    commands = [[word for word in words if word] for words in commands]
    known = {(b"list", b"hdds"): b"ok 1 a.vdi\n", (b"showmediuminfo", b"a.vdi"): info}
    return b"".join(known.get(tuple(words), BAD) for words in commands if words and not words[0].startswith(b"#"))


def random_scripts(cases):
    s = Store(cases, "random scripts", [("library.vbm", library())])
    s.does("createmedium a.vdi --size 1", 0, b"ok " + A_ID + b"\n")
    info = b"ok " + A_ID + b" " + A_MODIFY + b" normal Standard 1048576 free\n"
    for seed in range(60):
        script = random_script(seed)
        wanted = answers_to(script, info)
        s.runs("seed %d" % seed, script, 1 if BAD in wanted else 0, wanted)


def scripts(cases):
    s = Store(cases, "scripts", [("library.vbm", library())])
    s.runs("an empty script", b"", 0, b"")
    s.runs("a script", b"# media\n\ncreatemedium a.vdi --size 1\n\tlist  hdds\r\nfrob\nlist hdds", 1, b"ok " + A_ID + b"\nok 1 a.vdi\n" + BAD + b"ok 1 a.vdi\n")
    s.does("list hdds", 0, b"ok 1 a.vdi\n")
    s.runs("forms of the program alone", b"init\nscript\npeek a.vdi 0\n", 1, 3 * BAD)
    s.runs("the longest line", b"#" * 16384 + b"\n" + b"list hdds" + b" " * 16375, 0, b"ok 1 a.vdi\n")
    s.runs("longer lines", b"#" * 16385 + b"\n" + b"list hdds" + b" " * 16376 + b"\nlist hdds\n", 1, 2 * BAD + b"ok 1 a.vdi\n")
    s.runs("a line of 3 MiB", b"x" * (3 * MIB) + b"\nlist hdds\n", 1, BAD + b"ok 1 a.vdi\n")
    s.runs("bytes that are no text", b"\xff\0\n", 1, BAD)
    s.runs("ten thousand lines", 10000 * b"list hdds\n", 0, 10000 * b"ok 1 a.vdi\n")
    folder = os.open(s.folder.name, os.O_RDONLY)
    s.runs("a source that fails", b"", 4, b"", b"input fault\n", stdin=folder)
    os.close(folder)
    with open("/dev/full", "wb") as full:
        s.runs("a full device", b"list hdds\n", 5, b"", b"output fault\n", stdout=full)
    with open(s.path("lines"), "wb") as f:
        f.write(b"createmedium b.vdi --size 1\nlist hdds\n")
    with open(s.path("lines"), "rb") as lines:
        s.runs("lines of a file", b"", 0, b"ok 00010203-0405-8600-8000-000000000001\nok 2 a.vdi b.vdi\n", stdin=lines)
    refused = Store(cases, "a refused store", [("library.vbm", library() + b"x")])
    refused.runs("no line is taken", b"list hdds\n", 7, b"store 3 BadLibrary 48\n")
    with Answers(cases.program, s.folder.name) as answers:
        s.holds("an answer before the next line comes", answers.of(b"list hdds\n") == b"ok 2 a.vdi b.vdi\n" and answers.of(b"frob\n") == BAD)


class Answers:
    """A script whose lines are written one by one, each when the one before is answered."""

    def __init__(self, program, folder):
        self.run = subprocess.Popen([program, "script"], cwd=folder, stdin=subprocess.PIPE, stdout=subprocess.PIPE, bufsize=0)

    def __enter__(self):
        return self

    def __exit__(self, *_):
        self.run.stdin.close()
        self.run.stdout.close()
        self.run.wait(timeout=60)

    def of(self, line):
        self.run.stdin.write(line)
        return self.run.stdout.readline()


def main():
    cases = Cases(os.path.abspath(sys.argv[1]))
    for part in (sectors, chains, refusals, words, folders, outputs, media, machines, foreign_files, refused_stores, long_records, scripts, random_scripts):
        part(cases)
    print("program: %d passed, %d failed" % (cases.passed, cases.failed))
    return 1 if cases.failed else 0


if __name__ == "__main__":
    sys.exit(main())
