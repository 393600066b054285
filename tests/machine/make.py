"""Makes crates/vbm_machine/stdin and stdout: worked rows, every command in many states, limits, bad lines, and a random walk.

The answers are the model's (model.py); where rows.txt tells an answer, the model's has to be that one.
python3 tests/machine/make.py writes both files; with --check it compares them with what stands there.
"""
import copy
import itertools
import pathlib
import random
import sys

import model
from model import World

HERE = pathlib.Path(__file__).resolve().parent
CRATE = HERE.parent.parent / "crates" / "vbm_machine"
SEED = "00010203-0405-0607-0809-0a0b0c0d0e0f"
U = "{0}{0}{0}{0}{0}{0}{0}{0}-{0}{0}{0}{0}-4{0}{0}{0}-8{0}{0}{0}-{0}{0}{0}{0}{0}{0}{0}{0}{0}{0}{0}{0}".format


class Script:
    """The lines of the program's input, the answers, and which refusals came and could have come."""

    def __init__(self):
        self.input, self.output, self.world, self.kept, self.seen = [], [], None, None, {}

    def line(self, text):
        """A line that is no command."""
        self.input.append(text)
        words = text.split(" ")
        if words[0] == "world":
            self.world = World(words[1], int(words[2]), int(words[3]))
        elif words[0] == "volume":
            self.world.shelf[words[1]] = ("volume", words[2], words[3], words[4], sectors(words[5:]))
        elif words[0] == "link":
            self.world.shelf[words[1]] = ("link", words[2], words[3], (words[4], words[5], sectors(words[6:])))
            self.world.shelf[words[1]] = ("link", words[2], words[3], words[4], words[5], sectors(words[6:]))
        elif words[0] == "bad":
            self.world.shelf[words[1]] = ("bad", int(words[2]))
        elif words[0] == "keep":
            self.kept = copy.deepcopy(self.world)
        elif words[0] == "back":
            self.world = copy.deepcopy(self.kept)

    def repeat(self, count, command):
        """The command with 0, 1 and so on for `%`; the last answer alone is told."""
        self.input.append(f"repeat {count} {command}")
        for i in range(count):
            answer = self.world.answer(command.replace("%", str(i)))
        self.output.append(answer)
        return answer

    def do(self, command):
        self.input.append("> " + command)
        answer = self.world.answer(command)
        self.output.append(answer)
        verb = " ".join(w for w in command.split(" ")[:1])
        self.seen.setdefault((verb, answer[:8] if answer.startswith("error") else "ok"), command)
        return answer


def sectors(words):
    """One byte for each sector: `aa`, `aa*5`, or `-` for none."""
    disk = []
    for word in words:
        byte, _, count = word.partition("*")
        disk += [None if byte == "-" else int(byte, 16)] * int(count or 1)
    return disk


def rows(script):
    asked = None
    for text in (HERE / "rows.txt").read_text().splitlines():
        if text.startswith("> "):
            asked = script.do(text[2:])
        elif text.startswith("= "):
            assert asked == text[2:], (script.input[-1], asked, text[2:])
        elif not text.startswith("#"):
            script.line(text)


MEDIA = ["n.vdi", "o.vdi", "i.vdi", "t.vdi", "m.vdi", "r.vdi", "f.vdi", "s.vdi", "x.vdi"]


def settled(next=0, inner=0):
    """A world with a medium of each mode, a fixed one and a small one, and with files on the shelf."""
    yield f"world {SEED} {next} {inner}"
    for name, digit in zip(MEDIA[:-1], "12345678"):
        size = "10*1 20*1" if name != "s.vdi" else "30*1"
        yield f"volume {name} {U(digit)} {U('a')} {'Fixed' if name == 'f.vdi' else 'Standard'} {size}"
        yield f"> openmedium {name}"
    for name, mode in [("i.vdi", "immutable"), ("t.vdi", "writethrough"), ("m.vdi", "multiattach"), ("r.vdi", "readonly")]:
        yield f"> modifymedium {name} --type {mode}"
    yield f"volume v.vdi {U('9')} {U('b')} Standard 40*2"
    yield f"volume d.vdi {U('1')} {U('b')} Standard 40*2"
    yield f"link l.vdi {U('c')} {U('d')} {U('9')} {U('b')} - 50 60"
    yield f"link k.vdi {U('1')} {U('d')} {U('9')} {U('b')} - 50 60"
    yield "bad b.vdi 7"
    yield "> createvm v"
    yield "> createvm w"


ATTACHED = [f"> storageattach v {p} {n}" for p, n in enumerate(["n.vdi", "i.vdi", "t.vdi", "m.vdi", "r.vdi", "f.vdi"])]
FILLED = ["> startvm v"] + [f"> fill v {p} 0 1 a{p}" for p in (0, 1, 2, 3, 5)] + ["> poweroff v"]
SHARED = ["> storageattach w 0 n.vdi", "> storageattach w 1 i.vdi", "> storageattach w 2 t.vdi"]
TREE = ["> snapshot v take A", "> startvm v", "> fill v 0 1 1 b0", "> poweroff v", "> storageattach v 9 o.vdi", "> snapshot v take B",
        "> snapshot v restore A", "> snapshot v take C", "> snapshot v restore B"]
STATES = {
    "media": [],
    "attached": ATTACHED,
    "shared": ATTACHED + FILLED + SHARED,
    "running": ATTACHED + FILLED + SHARED[1:2] + ["> startvm v"],
    "locked": ATTACHED + SHARED + ["> startvm v"],
    "snapshots": ATTACHED + FILLED + TREE,
    "in a run with snapshots": ATTACHED + FILLED + TREE + ["> startvm v", "> fill v 1 0 2 c1"],
    "a line of snapshots": ATTACHED + FILLED + ["> snapshot v take A", "> snapshot v take B", "> storageattach w 3 m.vdi"],
    "a snapshot without the machine": ATTACHED + FILLED + ["> snapshot v take A", "> storageattach v 2 none", "> snapshot v take B",
                                                             "> snapshot v restore A", "> snapshot v delete B"],
    "one snapshot": ATTACHED + FILLED + ["> snapshot v take A"],
    "the current one is none's child": ["> storageattach v 0 n.vdi", "> snapshot v take A", "> storageattach v 1 o.vdi", "> snapshot v take B",
                                        "> startvm v", "> fill v 1 0 1 d1", "> poweroff v", "> snapshot v restore A"],
}


def commands(world):
    """Every form with every name that matters in a world."""
    media = ["n.vdi", "i.vdi", "t.vdi", "m.vdi", "r.vdi", "f.vdi", "s.vdi", "none.vdi"]
    vms = ["v", "w", "u"]
    snapshots = sorted(world.machines["v"].snapshots) + ["Z"]
    ports = [0, 1, 2, 3, 4, 5, 7, 9]
    files = ["v.vdi", "l.vdi", "d.vdi", "k.vdi", "b.vdi", "n.vdi", "none.vdi"]
    places = ["n.vdi", "i.vdi", "r.vdi", "f.vdi", "none.vdi", "u:0", "v:8", "w:0"] + [f"v:{p}" for p in ports]
    places += [f"v/{s}:{p}" for s in snapshots for p in (0, 1, 2, 5, 9)] + ["w/A:0"]
    yield from ["list hdds", "list vms"]
    for name in ["new.vdi", "n.vdi", "v.vdi"]:
        yield from (f"createmedium {name} {size}" for size in
                    ["--sizebyte 0", "--sizebyte 513", "--sizebyte 1024", "--size 2097153", "--sizebyte 1024 --variant Fixed"])
    for name in files + ["new.vdi"]:
        yield f"openmedium {name}"
    for name in media:
        yield from [f"closemedium {name}", f"closemedium {name} --delete", f"showmediuminfo {name}"]
        yield from (f"modifymedium {name} --type {mode}" for mode in ["normal", "immutable"])
        yield from (f"modifymedium {name} --resize {mb}" for mb in [0, 1, 2097153])
    for place in places:
        yield from [f"modifymedium {place} --compact", f"clonemedium {place} new.vdi", f"usage {place}"]
        yield f"clonemedium {place} {places.index(place) % 2 and 'o.vdi' or 'n.vdi'} --existing"
    for place in ["n.vdi", "o.vdi", "i.vdi", "v:0", "v:3", "u:0"]:
        yield from (f"clonemedium {place} {name} --existing" for name in ["n.vdi", "o.vdi", "r.vdi", "f.vdi", "s.vdi", "none.vdi"])
    for place in ["n.vdi", "v:0", "none.vdi"]:
        yield from [f"clonemedium {place} o.vdi", f"clonemedium {place} v.vdi"]
    for a, b in itertools.product(files, files):
        yield f"importchain {a} {b} new.vdi"
    yield from ["importchain v.vdi l.vdi n.vdi", "importchain v.vdi l.vdi v.vdi", "importchain v.vdi l.vdi l.vdi new.vdi"]
    for vm in vms:
        yield from [f"createvm {vm}", f"unregistervm {vm}", f"startvm {vm}", f"poweroff {vm}", f"flush {vm}", f"snapshot {vm} list",
                    f"snapshot {vm} restorecurrent"]
        for name in snapshots:
            yield from [f"snapshot {vm} take {name}", f"snapshot {vm} restore {name}", f"snapshot {vm} delete {name}"]
    for vm, port in [("v", p) for p in ports] + [("w", 0), ("w", 1), ("u", 0)]:
        yield from [f"storageattach {vm} {port} none", f"modifymedium {vm}:{port} --autoreset on", f"modifymedium {vm}:{port} --autoreset off"]
        yield from (f"storageattach {vm} {port} {name}" for name in media)
        yield from [f"read {vm} {port} 0 2", f"read {vm} {port} 1 2", f"fill {vm} {port} 1 1 ee", f"fill {vm} {port} 2 1 ee",
                    f"read {vm} {port} 18446744073709551615 1"]
    yield from (f"write v {port} {lba} {'ef' * 512}" for port, lba in [(0, 1), (1, 0), (4, 0), (0, 2)])
    yield f"write v 0 0 {'ab' * 512}{'cd' * 512}"


def every_command(script):
    """In each state every command, each from the same world; and in a state with few numbers left."""
    for counters in [(0, 0), (2 ** 62 - 1, 2 ** 62 - 1), (2 ** 62, 2 ** 62)]:
        for name, lines in STATES.items():
            if counters != (0, 0) and name not in ("media", "attached", "one snapshot", "in a run with snapshots"):
                continue
            play(script, settled(), lines, counters)
            script.line("keep")
            for command in commands(script.world):
                if counters != (0, 0) and not draws(command):
                    continue
                answer = script.do(command)
                if not answer.startswith("error"):
                    script.line("back")
            script.line("back")


def draws(command):
    return command.split(" ")[0] in ("createmedium", "clonemedium", "importchain", "startvm", "snapshot", "storageattach", "fill", "write")


def play(script, world, lines, counters):
    for text in itertools.chain(world, lines):
        if text.startswith("> "):
            answer = script.do(text[2:])
            assert answer.startswith("ok"), (text, answer)
        else:
            script.line(text)
    if counters != (0, 0):
        script.line(f"counters {counters[0]} {counters[1]}")
        script.world.next, script.world.inner = counters


def limits(script):
    """One below each limit, and at it."""
    script.line(f"world {SEED} 0 0")
    assert script.repeat(model.MACHINES, "createvm m%") == "ok"
    assert script.do("createvm one.more") == "error 26 Full machines"
    script.line(f"world {SEED} 0 0")
    script.repeat(model.MEDIA - 1, "createmedium d%.vdi --sizebyte 512")
    script.line(f"volume x.vdi {U('9')} {U('b')} Standard 40")
    script.line(f"volume y.vdi {U('8')} {U('b')} Standard 40")
    script.line(f"link z.vdi {U('7')} {U('b')} {U('8')} {U('b')} 41")
    script.line("keep")
    assert script.do("openmedium x.vdi").startswith("ok")
    for command in ["createmedium e.vdi --sizebyte 512", "clonemedium d0.vdi e.vdi", "openmedium y.vdi", "importchain y.vdi z.vdi e.vdi"]:
        assert script.do(command) == "error 26 Full media"
    script.line("back")
    assert script.do("importchain y.vdi z.vdi e.vdi").startswith("ok")
    script.line("back")
    assert script.do("clonemedium d0.vdi e.vdi").startswith("ok")
    script.line(f"world {SEED} 0 0")
    assert script.do("createvm v") == "ok"
    script.repeat(model.SNAPSHOTS - 1, "snapshot v take S%")
    assert script.do("snapshot v take one.more") == "ok"
    assert script.do("snapshot v take two.more") == "error 26 Full snapshots"
    script.line(f"world {SEED} 0 0")
    assert script.do("createvm v") == "ok"
    for port in range(16):
        script.do(f"createmedium d{port}.vdi --sizebyte 512")
        script.do(f"modifymedium d{port}.vdi --type readonly")
        script.do(f"storageattach v {port} d{port}.vdi")
    assert script.repeat(model.PLACES // 16 - 1, "snapshot v take S%") == "ok"
    script.line("keep")
    assert script.do("snapshot v take one.more") == "ok"
    assert script.do("snapshot v take two.more") == "error 26 Full places"
    script.line("back")
    script.do("createmedium e.vdi --sizebyte 512")
    script.do("storageattach v 16 e.vdi")
    assert script.do("snapshot v take one.more") == "error 26 Full places"


BAD = """createmedium|createmedium a.vdi|createmedium a.vdi --size|createmedium a.vdi --size 01|createmedium a.vdi --size -1|createmedium a.vdi --size +1
createmedium a.vdi --size 18446744073709551616|createmedium a.vdi --size 1 --variant|createmedium a.vdi --size 1 --variant Standard
createmedium a.vdi --size 1 --variant fixed|createmedium a.vdi --variant Fixed --size 1|createmedium a.vdi --Size 1|createmedium a.VDI --size 1
createmedium -a.vdi --size 1|createmedium .vdi --size 1|createmedium a/b.vdi --size 1|createmedium a.vdi --size 1 1|openmedium|openmedium a|openmedium a.vdi b.vdi
closemedium|closemedium a.vdi --del|closemedium --delete a.vdi|closemedium a.vdi --delete --delete|modifymedium|modifymedium a.vdi
modifymedium a.vdi --type|modifymedium a.vdi --type Normal|modifymedium a.vdi --type shareable|modifymedium a.vdi normal|modifymedium v:0 --type normal
modifymedium v:0 --autoreset|modifymedium v:0 --autoreset yes|modifymedium a.vdi --autoreset on|modifymedium v/S:0 --autoreset on|modifymedium v:30 --autoreset on
modifymedium v:00 --autoreset on|modifymedium v: --autoreset on|modifymedium :0 --autoreset on|modifymedium v:0:0 --compact|modifymedium v/S/T:0 --compact
modifymedium v/:0 --compact|modifymedium /S:0 --compact|modifymedium v/S --compact|modifymedium a.vdi --compact 1|modifymedium --compact a.vdi
modifymedium a.vdi --resize|modifymedium a.vdi --resize 01|modifymedium v:0 --resize 1|modifymedium a.vdi --resize 18446744073709551616|modifymedium a.vdi --resize 1.5
clonemedium|clonemedium a.vdi|clonemedium a.vdi b|clonemedium a.vdi b.vdi --exist|clonemedium --existing a.vdi b.vdi|clonemedium a.vdi v:0|clonemedium v:31 b.vdi
clonemedium a.vdi b.vdi c.vdi|clonemedium a.vdi b.vdi --existing x|importchain|importchain a.vdi|importchain a.vdi b.vdi|importchain a.vdi b c.vdi|importchain a b.vdi c.vdi
importchain a.vdi b.vdi c|showmediuminfo|showmediuminfo a|showmediuminfo a.vdi a.vdi|showmediuminfo v:0|usage|usage a|usage v:30|usage v/S|usage a.vdi b.vdi
list|list hdd|list hdds x|list vm|list vms x|list HDDS|createvm|createvm -v|createvm v w|createvm v:0|createvm v/w|unregistervm|unregistervm -v|unregistervm v --delete
storageattach|storageattach v|storageattach v 0|storageattach v 30 a.vdi|storageattach v 00 a.vdi|storageattach v -1 a.vdi|storageattach v 0 None|storageattach v 0 a
storageattach v 0 none x|storageattach v x a.vdi|storageattach -v 0 a.vdi|startvm|startvm v w|startvm -v|poweroff|poweroff v w|poweroff -v|snapshot|snapshot v
snapshot v take|snapshot v take -S|snapshot v take S T|snapshot v restore|snapshot v restore S T|snapshot v restorecurrent S|snapshot v delete|snapshot v delete S T
snapshot v list S|snapshot v List|snapshot take v S|snapshot -v list|snapshot v showvminfo|read|read v|read v 0|read v 0 0|read v 0 0 0|read v 0 0 257|read v 0 0 01
read v 30 0 1|read v 0 00 1|read v 0 18446744073709551616 1|read v 0 0 1 1|read v 0 -1 1|read -v 0 0 1|write|write v 0 0|write v 0 0 aa|write v 0 0 {aa*511}|write v 0 0 {aa*513}
write v 0 0 {AA*512}|write v 0 0 {ag*512}|write v 0 0 {aa*4608}|write v 0 0 {aa*512} x|write v 30 0 {aa*512}|write v 0 x {aa*512}|write -v 0 0 {aa*512}|fill|fill v 0 0 1
fill v 0 0 1 a|fill v 0 0 1 aaa|fill v 0 0 1 AA|fill v 0 0 1 0x|fill v 0 0 0 aa|fill v 0 0 257 aa|fill v 0 0 1 aa bb|fill v 30 0 1 aa|fill v 0 01 1 aa|flush|flush v w|flush -v
frob|init|peek a.vdi 0|script|selftest 1|ok|CREATEVM v|createvmv|createvm  |--help|createmedium|a.vdi|v:0|0"""


def bad_lines(script):
    script.line(f"world {SEED} 0 0")
    lines = []
    for text in BAD.replace("\n", "|").split("|"):
        while "{" in text:
            head, _, rest = text.partition("{")
            run, _, tail = rest.partition("}")
            digits, count = run.split("*")
            text = head + digits * int(count) + tail
        lines.append(text)
    lines += ["createvm " + "x" * 33, "createmedium " + "x" * 61 + ".vdi --size 1", "importchain " + " ".join(["a.vdi"] * 34),
              "snapshot v take " + "S" * 33, "usage " + "v" * 33 + ":0", "usage v/" + "S" * 33 + ":0"]
    for text in lines:
        assert script.do(text) == "error 01 BadLine", text
    script.do("createvm v")
    script.do("\tcreatevm \t " + "x" * 32 + " ")
    script.do("createmedium " + "x" * 60 + ".vdi --sizebyte 512")
    script.do("importchain " + " ".join(["a.vdi"] * 33))
    script.do("write v 0 0 " + "aa" * 4096)
    script.do("read v 0 18446744073709551615 256")


def walk(script, steps):
    """A walk over three machines and small disks, which avoids most refusals."""
    dice = random.Random(17)
    for text in itertools.chain(settled(), ["> createvm u"]):
        script.do(text[2:]) if text.startswith("> ") else script.line(text)
    named = 0
    for _ in range(steps):
        world = script.world
        vm = dice.choice(sorted(world.machines) or ["v"])
        machine = world.machines.get(vm) or model.Machine(vm)
        medium = dice.choice(sorted(world.media) or ["n.vdi"])
        port = dice.choice(sorted(machine.slots) or [0]) if dice.random() < 0.8 else dice.randrange(6)
        snapshot = dice.choice(sorted(machine.snapshots) or ["S0"])
        place = dice.choice([medium, f"{vm}:{port}", f"{vm}/{snapshot}:{port}"])
        named += 1
        lba, byte = dice.randrange(2), f"{dice.randrange(256):02x}"
        kinds = [f"storageattach {vm} {dice.randrange(6)} {medium}"] * 6 + [f"startvm {vm}"] * (8 if not machine.running else 1)
        kinds += [f"poweroff {vm}"] * (6 if machine.running else 1)
        kinds += ([f"fill {vm} {port} {lba} {dice.randint(1, 2 - lba)} {byte}"] * 12 + [f"read {vm} {port} 0 2"] * 10
                  + [f"write {vm} {port} {lba} {byte * 512}"] * 4) if machine.running else []
        kinds += [f"snapshot {vm} take S{named}"] * (6 if len(machine.snapshots) < 8 else 0)
        kinds += [f"snapshot {vm} restore {snapshot}"] * 4 + [f"snapshot {vm} restorecurrent"] * 2
        kinds += [f"snapshot {vm} delete {snapshot}"] * 7 + [f"snapshot {vm} list"] * 2 + [f"storageattach {vm} {port} none"] * 3
        kinds += [f"modifymedium {medium} --type {dice.choice(model.MODES)}"] * 2 + [f"modifymedium {vm}:{port} --autoreset {dice.choice(['on', 'off'])}"] * 2
        kinds += [f"clonemedium {place} c{named}.vdi"] * (2 if len(world.media) < 14 else 0) + [f"clonemedium {place} {medium} --existing"]
        kinds += [f"closemedium {medium} --delete"] * (2 if len(world.media) > 10 else 0) + [f"showmediuminfo {medium}"] * 4
        kinds += [f"modifymedium {place} --compact", f"usage {place}", "list vms", "list hdds", f"flush {vm}", f"unregistervm {vm}"]
        kinds += [f"createvm {dice.choice('uvw')}"] * (1 if len(world.machines) == 3 else 9)
        script.do(dice.choice(kinds))


def made():
    script = Script()
    rows(script)
    every_command(script)
    limits(script)
    bad_lines(script)
    walk(script, 2000)
    return script


def main():
    script = made()
    files = {"stdin": "\n".join(script.input) + "\n", "stdout": "\n".join(script.output) + "\n"}
    if "--check" in sys.argv:
        for name, text in files.items():
            if (CRATE / name).read_text() != text:
                sys.exit(f"crates/vbm_machine/{name} is not what tests/machine/make.py makes")
        print(f"machine: {len(script.output)} commands are answered as the model answers them")
        return
    CRATE.mkdir(exist_ok=True)
    for name, text in files.items():
        (CRATE / name).write_text(text)
    print(len(script.output), "commands", sum(len(t) for t in files.values()), "bytes")
    if "--seen" in sys.argv:
        for key in sorted(script.seen):
            print(*key)


if __name__ == "__main__":
    main()
