#!/usr/bin/env python3
"""What stands around the program: run.py PROGRAM.

bin/vbm and tools/dist are run in small repositories, whose program is PROGRAM or a stand-in, and whose kit is a stand-in.
"""

import concurrent.futures
import fcntl
import os
import pty
import re
import shutil
import signal
import subprocess
import sys
import tempfile
import time

ROOT = os.path.dirname(os.path.dirname(os.path.dirname(os.path.abspath(__file__))))
TOOLS = "bash cat chmod cmp cp env find flock grep mkdir mktemp mv readlink rm sed sh sha256sum sleep sort stat tail touch wc xargs".split()
NOBODY = {"user": 65534} if os.geteuid() == 0 else {}
KIT = b"kit-1 logic 0123456789abcdef\n"

# A kit's command, which says a crate's name and builds what it was given as the program.
RT = """#!/bin/sh
case $1 in
  version) echo 'kit-1 logic 0123456789abcdef' ;;
  run)
    echo 'rt: chose --jobs 2 for low'
    sleep 1.5
    mkdir -p out
    [ ! -f %(kit)s/program ] || cp %(kit)s/program out/vbm
    ;;
esac
"""
# A kit's strip, called as `llvm-strip -o OUT IN`.
STRIP = """#!/bin/sh
sed /debug/d "$3" >"$2"
"""


class Tree:
    """A repository of three crates, a stand-in for the kit, and a folder to work in."""

    def __init__(self, program="#!/bin/sh\n# debug\necho built\n", built=True):
        self.room = tempfile.TemporaryDirectory()
        self.top, self.kit, self.folder = (os.path.join(self.room.name, it) for it in ("top", "kit", "folder"))
        os.chmod(self.room.name, 0o755)
        os.mkdir(self.folder)
        self.write("crates.txt", "# NAME: what it stands on\nlow: uuid\nvbm: low uuid\nother: low\n")
        for crate in ("low", "vbm", "other"):
            self.write("crates/%s/src/lib.rt" % crate, "// %s\n" % crate)
        self.write("crates/low/specs/Lib.antt", "-- nothing\n")
        for file in ("bin/vbm", "tools/program.sh", "tools/dist"):
            os.makedirs(os.path.dirname(self.path(file)), exist_ok=True)
            shutil.copy(os.path.join(ROOT, file), self.path(file))
        self.write("bin/rt", RT % {"kit": self.kit}, self.kit)
        self.write("toolchain/bin/clang", STRIP, self.kit)
        self.give(program, "program", self.kit)
        if built:
            self.give(program, "crates/vbm/out/vbm", self.top)

    def give(self, program, file, top):
        """Puts a program there: a file, or the text of a script."""
        if program.startswith("#!"):
            self.write(file, program, top)
        else:
            self.write(file, "", top)
            shutil.copy(program, os.path.join(top, file))

    def path(self, file):
        return os.path.join(self.top, file)

    def write(self, file, text, top=None):
        path = os.path.join(top or self.top, file)
        os.makedirs(os.path.dirname(path), exist_ok=True)
        with open(path, "w", encoding="utf-8") as f:
            f.write(text)
        os.chmod(path, 0o755)

    def environment(self, lacks=(), **more):
        """Where the commands are that the scripts take, but for those that are lacking."""
        folder = tempfile.mkdtemp(dir=self.room.name)
        os.chmod(folder, 0o755)
        for tool in set(TOOLS) - set(lacks):
            os.symlink(shutil.which(tool), os.path.join(folder, tool))
        if "rt" not in lacks:
            os.symlink(os.path.join(self.kit, "bin", "rt"), os.path.join(folder, "rt"))
        return {**{k: v for k, v in os.environ.items() if not k.startswith("VBM_")}, "PATH": folder, **more}

    def run(self, *words, tool="bin/vbm", script=b"", lacks=(), user=None, **environment):
        done = subprocess.run([self.path(tool), *words], cwd=self.folder, input=script, stdout=subprocess.PIPE, stderr=subprocess.PIPE,
                              timeout=120, env=self.environment(lacks, **environment), user=user)
        return done.returncode, done.stdout, done.stderr

    def on_terminal(self, *words, lacks=(), **environment):
        """The status, and what a run writes on a terminal; its standard output is none."""
        ours, theirs = pty.openpty()
        run = subprocess.Popen([self.path("bin/vbm"), *words], cwd=self.folder, stdin=theirs, stdout=subprocess.DEVNULL, stderr=theirs,
                               env=self.environment(lacks, **environment), start_new_session=True)
        os.close(theirs)
        said = b""
        while True:
            try:
                piece = os.read(ours, 4096)
            except OSError:
                break
            if not piece:
                break
            said += piece
        os.close(ours)
        return run.wait(timeout=60), said.replace(b"\r\n", b"\n")


class Cases:
    def __init__(self):
        self.passed = 0
        self.failed = 0

    def holds(self, name, good, got=None):
        self.passed += bool(good)
        self.failed += not good
        if not good:
            print("shell: %s: %.600r" % (name, got))

    def same(self, name, wanted, got):
        self.holds(name, wanted == got, (wanted, got))


# ---- which program runs


def dist(cases):
    tree = Tree()
    cases.same("no dist", b"built\n", tree.run("x")[1])
    cases.same("a check without dist", (0, b"dist: there is no program; tools/dist makes it\n", b""), tree.run("--check", tool="tools/dist"))
    cases.same("making dist", 0, tree.run(tool="tools/dist")[0])
    with open(tree.path("dist/vbm"), "rb") as f:
        cases.same("it is stripped", b"#!/bin/sh\necho built\n", f.read())
    with open(tree.path("dist/kit"), "rb") as f:
        cases.same("the kit's line", KIT, f.read())
    cases.same("it is what was built", 0, tree.run("--check", tool="tools/dist")[0])
    tree.write("dist/vbm", "#!/bin/sh\necho kept\n")
    cases.same("another program is found", 1, tree.run("--check", tool="tools/dist")[0])
    cases.same("dist runs", (0, b"kept\n", b""), tree.run("x", lacks=["rt"]))
    cases.same("its kit", KIT, tree.run("--version", lacks=["rt"])[1].split(b"\n", 1)[1])
    cases.same("what was proved here runs where that is asked for", b"built\n", tree.run("x", VBM_PROVE="1")[1])
    shutil.rmtree(tree.path("out"))
    cases.same("where nothing can be written", b"kept\n", tree.run("x", lacks=["rt"], **NOBODY)[1])
    tree.write("dist/kit", "kit-2\n")
    cases.same("another kit's is not compared", 0, tree.run("--check", tool="tools/dist")[0])
    tree.write("crates/other/src/lib.rt", "// another crate\n")
    tree.write("crates/vbm/src/lib.rt~", "a copy\n")
    cases.same("what the program does not stand on is no matter", b"kept\n", tree.run("x", lacks=["rt"])[1])


def changes(cases):
    """Each change of what the program stands on is seen, also behind the kept checksum and with an old time."""
    def edited(tree):
        tree.write("crates/low/src/lib.rt", "// LOW\n")

    def dated_back(tree):
        edited(tree)
        os.utime(tree.path("crates/low/src/lib.rt"), (1, 1))

    def restored(tree):
        edited(tree)
        tree.run("x")
        tree.write("crates/low/src/lib.rt", "// low\n")

    for name, change, wanted in [
        ("an edit", edited, b"built\n"),
        ("an edit with an old time", dated_back, b"built\n"),
        ("an edit that is taken back", restored, b"kept\n"),
        ("a new file", lambda t: t.write("crates/vbm/src/more.rt", "// more\n"), b"built\n"),
        ("a removed file", lambda t: os.remove(t.path("crates/low/specs/Lib.antt")), b"built\n"),
        ("a removed folder", lambda t: shutil.rmtree(t.path("crates/low/specs")), b"built\n"),
        ("another list of crates", lambda t: t.write("crates.txt", "low:\nvbm: low uuid\n"), b"built\n"),
        ("another program in the list", lambda t: t.write("crates.txt", "low: uuid\nvbm: low uuid\nmore: low\n"), b"kept\n"),
    ]:
        tree = Tree()
        tree.run(tool="tools/dist")
        tree.write("dist/vbm", "#!/bin/sh\necho kept\n")
        cases.same("before " + name, b"kept\n", tree.run("x")[1])
        change(tree)
        os.utime(tree.path("crates/vbm/out/vbm"))
        cases.same(name, wanted, tree.run("x")[1])
        cases.same("again " + name, wanted, tree.run("x")[1])
        if wanted == b"built\n":
            cases.holds("tools/dist tells " + name, b"of other sources" in tree.run("--check", tool="tools/dist")[1])


def builds(cases):
    tree = Tree(built=False)
    status, out, err = tree.run("x", lacks=["rt"])
    cases.holds("no kit", status == 9 and out == b"" and b"there is no command rt" in err, (status, out, err))
    cases.same("no version of a kit", b"not proved and built yet\n", tree.run("--version", lacks=["rt"])[1].split(b"\n", 1)[1])
    status, said = tree.on_terminal("x")
    cases.holds("how far it is", status == 0 and b"\r\x1b[Kvbm: proving low, crate 1 of 2, 0 minutes so far" in said and said.endswith(b"\r\x1b[K"), (status, said))
    cases.same("it is built", (0, b"built\n", b""), tree.run("x", lacks=["rt"]))
    cases.same("by this kit", KIT, tree.run("--version", lacks=["rt"])[1].split(b"\n", 1)[1])
    tree.write("crates/low/src/lib.rt", "// Low\n")
    with concurrent.futures.ThreadPoolExecutor() as pool:
        first = pool.submit(tree.run, "x")
        time.sleep(0.7)
        tree.write("crates/low/src/lib.rt", "// LoW\n")
        first = first.result()
    second = tree.run("x")
    cases.holds("an edit during a build", all(it[:2] == (0, b"built\n") and b"proving and building" in it[2] for it in (first, second)), (first, second))
    cases.same("no edit since", (0, b"built\n", b""), tree.run("x"))
    os.remove(os.path.join(tree.kit, "program"))
    tree.write("crates/low/src/lib.rt", "// LOW\n")
    os.utime(tree.path("crates/vbm/out/vbm"), (1, 1))
    status, out, err = tree.run("x")
    cases.holds("a build that fails", status == 9 and out == b"" and b"chose --jobs" in err, (status, out, err))


# ---- help


def helps(cases):
    tree = Tree(built=False)
    asked = tree.run("--help", lacks=["rt"])
    cases.holds("help", asked[0] == 0 and asked[2] == b"" and b"vbm init [SEED]" in asked[1] and b"doc/vbm.1" in asked[1], asked)
    for words in [(), ("-h",), ("help",)]:
        cases.same("help by %r" % (words,), asked, tree.run(*words, lacks=["rt"]))
    tree = Tree("#!/bin/sh\nexit $2\n")
    cases.same("no hint for a script", (2, b"", b""), tree.run("x", "2"))
    cases.same("a hint on a terminal", (2, b"vbm: 'vbm --help' tells what can be said\n"), tree.on_terminal("x", "2"))
    cases.same("none for another status", (5, b""), tree.on_terminal("x", "5"))
    cases.same("an empty word is the program's", 7, Tree("#!/bin/sh\nexit 7\n").run("")[0])


# ---- statuses, signals, streams


def ends(cases):
    tree = Tree('#!/bin/sh\ncase $1 in kill) kill -$2 $$ ;; exit) exit $2 ;; cat) cat ;; wait) echo; exec sleep 20 ;; words) printf "%s." "$@" ;; esac\n')
    for status in (0, 1, 4, 9):
        cases.same("status %d" % status, (status, b"", b""), tree.run("exit", str(status)))
    for number in (signal.SIGKILL, signal.SIGSEGV, signal.SIGXFSZ, signal.SIGTERM):
        cases.same("ended by %s" % number.name, (-number, b"", b""), tree.run("kill", str(int(number))))
    cases.same("standard input", b"a line\n", tree.run("cat", script=b"a line\n")[1])
    cases.same("words", b"words.a b..*.", tree.run("words", "a b", "", "*")[1])
    closed = subprocess.run([tree.path("bin/vbm"), "cat"], cwd=tree.folder, stdout=subprocess.PIPE, stderr=subprocess.PIPE, preexec_fn=lambda: os.close(0))
    cases.holds("a closed standard input can't be read", closed.returncode != 0 and closed.stdout == b"", closed)
    for number in (signal.SIGTERM, signal.SIGINT, signal.SIGHUP):
        for whole in (False, True):
            run = subprocess.Popen([tree.path("bin/vbm"), "wait"], cwd=tree.folder, stdout=subprocess.PIPE, start_new_session=True)
            run.stdout.readline()
            (os.killpg if whole else os.kill)(run.pid, number)
            # The program holds its end of the pipe as long as it lives.
            cases.same("%s to %s ends the program" % (number.name, "all" if whole else "the script"), (b"", -number), (run.stdout.read(), run.wait(timeout=10)))


# ---- the lock


def locks(cases, program):
    tree = Tree(program)
    made = tree.run("init")
    cases.same("a store", 0, made[0])
    files = sorted(os.listdir(tree.folder))
    held = os.open(tree.folder, os.O_RDONLY)
    fcntl.flock(held, fcntl.LOCK_EX)
    start = time.monotonic()
    cases.same("a folder that is in use", (75, b"", b"vbm: another run works in %s\n" % tree.folder.encode()), tree.run("list", "hdds", VBM_WAIT="0.5"))
    cases.holds("it is waited for", 0.5 <= time.monotonic() - start < 9, time.monotonic() - start)
    cases.same("peek needs no lock", (1, b"error 08 NoSuchFile\n", b""), tree.run("peek", "a.vdi", "0"))
    cases.same("help needs none", 0, tree.run("--help")[0])
    with concurrent.futures.ThreadPoolExecutor() as pool:
        waits = pool.submit(tree.run, "list", "hdds", VBM_WAIT="60")
        time.sleep(0.5)
        fcntl.flock(held, fcntl.LOCK_UN)
        cases.same("a lock that is given back", (0, b"ok 0\n", b""), waits.result())
    os.close(held)
    cases.same("nothing is left behind", files, sorted(os.listdir(tree.folder)))
    with subprocess.Popen([tree.path("bin/vbm"), "script"], cwd=tree.folder, stdin=subprocess.PIPE, stdout=subprocess.PIPE, bufsize=0) as run:
        run.stdin.write(b"list hdds\n")
        cases.same("a script holds the lock", (b"ok 0\n", 75), (run.stdout.readline(), tree.run("list", "hdds", VBM_WAIT="0")[0]))
        os.kill(run.pid, signal.SIGKILL)
        cases.same("as long as the program lives", 75, tree.run("list", "hdds", VBM_WAIT="0")[0])
        run.stdin.close()
        cases.same("and no longer", 0, tree.run("list", "hdds", VBM_WAIT="60")[0])


def at_once(cases, program):
    """Two scripts, single commands and askers in one folder: all is answered, and nothing is lost."""
    tree = Tree(program)
    tree.run("init")
    scripts = [["%s%02d.vdi" % (letter, i) for i in range(12)] for letter in "ab"]
    single = ["c%02d.vdi" % i for i in range(8)]
    with concurrent.futures.ThreadPoolExecutor(12) as pool:
        script = lambda names: tree.run("script", script="".join("createmedium %s --size 1\n" % n for n in names).encode(), VBM_WAIT="100")
        ran = [pool.submit(script, names) for names in scripts]
        ran += [pool.submit(tree.run, "createmedium", name, "--size", "1", VBM_WAIT="100") for name in single]
        asked = [pool.submit(tree.run, "list", "hdds", VBM_WAIT="100") for _ in range(8)]
        answers = [it.result() for it in ran]
        asked = [it.result() for it in asked]
    lines = [line for _, out, _ in answers for line in out.decode().splitlines()]
    cases.same("every run is answered", ([0] * 18, [b""] * 18), ([it[0] for it in answers + asked], [it[2] for it in answers + asked]))
    cases.holds("every medium has its own identifier", len(set(lines)) == 32 and all(re.fullmatch(r"ok [0-9a-f-]{36}", it) for it in lines), lines)
    names = sorted(sum(scripts, single))
    cases.same("no medium is lost", (0, ("ok 32 %s\n" % " ".join(names)).encode(), b""), tree.run("list", "hdds"))
    shown = {"ok " + tree.run("showmediuminfo", name)[1].decode().split()[1] for name in names}
    cases.same("each answer is kept", set(lines), shown)
    # An asker sees media that were made before it, in whole.
    cases.holds("every list is one of some moment", all(re.fullmatch(r"ok (\d+)((?: \S+)*)\n", out.decode()) and len(out.split()) == 2 + int(out.split()[1]) for _, out, _ in asked), asked)


def without_flock(cases):
    tree = Tree("#!/bin/sh\necho ran\n")
    cases.same("without flock", (0, b"ran\n", b""), tree.run("list", "hdds", lacks=["flock"]))
    said = b"vbm: there is no flock (util-linux), so nothing keeps other runs out of this folder\n"
    cases.same("it is said on a terminal", (0, said), tree.on_terminal("list", "hdds", lacks=["flock"]))


# ---- after a disk fault


def causes(cases, program):
    inner = "{00010203-0405-0607-0809-0a0b0c0d0e0f}.vdi"
    tree = Tree("#!/bin/sh\nexit 3\n")
    said = lambda *words, **how: tree.run(*(words or ("list", "hdds")), **how)[2].decode().splitlines()
    for name in ("notes.txt", "x.vdi", "library.vbm", "intent.vbm"):
        with open(os.path.join(tree.folder, name), "w"):
            pass
    cases.holds("nothing is found", said()[0].startswith("vbm: no cause is seen in " + tree.folder), said())
    os.symlink("x.vdi", os.path.join(tree.folder, "link.vdi"))
    os.mkdir(os.path.join(tree.folder, "folder.vdi"))
    os.mkfifo(os.path.join(tree.folder, inner))
    for other in ("a b.vdi", "-a.vdi", ".vdi", "{x}.vdi", "x" * 61 + ".vdi"):
        os.mkdir(os.path.join(tree.folder, other))
    wanted = {"vbm: link.vdi is a symbolic link", "vbm: folder.vdi is a folder", "vbm: %s is a pipe or a device, and no file" % inner}
    cases.same("links, folders and pipes under names of the store", wanted, set(said()))
    cases.same("those of peek", ["vbm: folder.vdi is a folder"], said("peek", "folder.vdi", "0"))
    cases.same("those of peek at several files", ["vbm: link.vdi is a symbolic link", "vbm: folder.vdi is a folder"],
               said("peek", "link.vdi", "x.vdi", "folder.vdi", "0"))
    for name in ("link.vdi", inner):
        os.remove(os.path.join(tree.folder, name))
    os.rmdir(os.path.join(tree.folder, "folder.vdi"))
    os.chmod(os.path.join(tree.folder, "x.vdi"), 0)
    os.chmod(os.path.join(tree.folder, "library.vbm"), 0o444)
    os.chmod(tree.folder, 0o555)
    wanted = {"vbm: x.vdi can't be read", "vbm: library.vbm can't be written", "vbm: the folder %s can't be written" % tree.folder}
    cases.holds("rights", wanted <= set(said(**NOBODY)), said(**NOBODY))
    cases.same("rights of peek", ["vbm: x.vdi can't be read"], said("peek", "x.vdi", "0", **NOBODY))
    os.chmod(tree.folder, 0o311)
    cases.same("a folder that can't be read", ["vbm: the folder %s can't be read" % tree.folder], said("peek", "y.vdi", "0", **NOBODY))
    os.chmod(tree.folder, 0o755)
    real = Tree(program)
    real.run("init")
    os.remove(os.path.join(real.folder, "intent.vbm"))
    os.mkdir(os.path.join(real.folder, "intent.vbm"))
    cases.same("the program's own fault", (3, b"", b"disk fault\nvbm: intent.vbm is a folder\n"), real.run("createmedium", "a.vdi", "--size", "1"))
    full_disk(cases, program)


def full_disk(cases, program):
    """A file system of 1 MiB, where one can be mounted."""
    tree = Tree(program)
    if subprocess.run(["mount", "-t", "tmpfs", "-o", "size=1m", "tmpfs", tree.folder], stderr=subprocess.DEVNULL).returncode:
        print("skipped: a full disk (tests/shell), since nothing can be mounted")
        return
    try:
        tree.run("init")
        with open(os.path.join(tree.folder, "filler"), "wb") as f:
            try:
                f.write(bytes(1 << 20))
            except OSError:
                pass
        status, _, err = tree.run("createmedium", "a.vdi", "--size", "1")
        cases.holds("a full disk", status == 3 and re.search(rb"vbm: \d+ KiB of room are left in this file system\n", err), (status, err))
    finally:
        subprocess.run(["umount", tree.folder])


def main():
    cases, program = Cases(), os.path.abspath(sys.argv[1])
    for part in (dist, changes, builds, helps, ends, without_flock):
        part(cases)
    for part in (locks, at_once, causes):
        part(cases, program)
    print("shell: %d passed, %d failed" % (cases.passed, cases.failed))
    return 1 if cases.failed else 0


if __name__ == "__main__":
    sys.exit(main())
