"""The abstract machine again, after docs/MACHINE.md and apart from the sources, to be compared with the plain program.

A disk is a list of bytes, one for each sector: sectors are always filled with one byte here.
"""
import re

MEDIA, MACHINES, SNAPSHOTS, PLACES, NUMBERS = 1024, 256, 4096, 16384, 2 ** 62
LONGEST_DISK = 2 ** 41
NAMES = {1: "BadLine", 2: "NoSuchMedium", 3: "NoSuchMachine", 4: "NoSuchSnapshot", 5: "NoSuchSlot", 6: "NameTaken", 7: "FileExists",
         8: "NoSuchFile", 9: "NotAnImage", 10: "DuplicateId", 11: "ForeignId", 12: "InUse", 13: "Frozen", 14: "Running", 15: "NotRunning",
         16: "Locked", 17: "SharedMedium", 18: "SlotTaken", 19: "AlreadyAttached", 20: "OutOfRange", 21: "WriteProtected",
         22: "HasChildren", 23: "Shrinks", 24: "BadSize", 25: "WrongKind", 26: "Full", 27: "IdsSpent", 28: "BrokenChain", 29: "TooSmall",
         30: "NoCurrent"}
MODES = ["normal", "immutable", "writethrough", "multiattach", "readonly"]


class Refused(Exception):
    def __init__(self, number, detail=None):
        self.line = f"error {number:02d} {NAMES[number]}" + ("" if detail is None else f" {detail}")


def first(*checks):
    """The first check that holds refuses: (holds, number) or (holds, number, detail)."""
    for check in checks:
        if check[0]:
            raise Refused(*check[1:])


def identifier(seed, kind, n):
    b = bytearray(bytes.fromhex(seed.replace("-", "")))
    b[6] = 0x80 + b[6] % 16
    b[7] = kind
    b[8:16] = (2 ** 63 + n).to_bytes(8, "big")
    h = b.hex()
    return "-".join([h[:8], h[8:12], h[12:16], h[16:20], h[20:]])


class Medium:
    def __init__(self, name, id, modify, variant, disk, capacity=None):
        self.name, self.id, self.modify, self.variant, self.disk = name, id, modify, variant, disk
        self.mode, self.changed, self.capacity = "normal", False, capacity if capacity is not None else 512 * len(disk)


class Slot:
    def __init__(self, medium, autoreset, own):
        self.medium, self.autoreset, self.own = medium, autoreset, own

    def copy(self):
        return Slot(self.medium, self.autoreset, None if self.own is None else list(self.own))


class Machine:
    def __init__(self, name):
        self.name, self.running, self.slots, self.snapshots, self.current = name, False, {}, {}, None


class Snapshot:
    def __init__(self, parent, slots):
        self.parent, self.slots = parent, slots


class World:
    def __init__(self, seed, next=0, inner=0):
        self.seed, self.next, self.inner = seed, next, inner
        self.media, self.machines, self.shelf = {}, {}, {}

    # ---- what holds of media

    def uses(self, name):
        """All slots and places that have the medium: (machine, slot, whether a snapshot's)."""
        for machine in self.machines.values():
            for slot in machine.slots.values():
                if slot.medium == name:
                    yield machine, slot, False
            for snapshot in machine.snapshots.values():
                for slot in snapshot.slots.values():
                    if slot.medium == name:
                        yield machine, slot, True

    def in_use(self, name):
        return any(True for _ in self.uses(name))

    def in_snapshot(self, name):
        return any(kept for _, _, kept in self.uses(name))

    def frozen(self, name):
        return self.media[name].mode == "normal" and self.in_snapshot(name)

    def in_run(self, name):
        return any(machine.running and not kept for machine, _, kept in self.uses(name))

    # ---- look-ups

    def medium(self, name):
        first((name not in self.media, 2))
        return self.media[name]

    def machine(self, name):
        first((name not in self.machines, 3))
        return self.machines[name]

    def snapshot(self, machine, name):
        first((name not in machine.snapshots, 4))
        return machine.snapshots[name]

    def slot(self, slots, port):
        first((port not in slots, 5))
        return slots[port]

    def disk(self, slot):
        return self.media[slot.medium].disk if slot.own is None else slot.own

    def place(self, text):
        """(medium, disk or None, whether a base place)"""
        if ":" not in text:
            medium = self.medium(text)
            return medium, medium.disk, True
        owner, port = text.split(":")
        vm, _, name = owner.partition("/")
        machine = self.machine(vm)
        if not name:
            slot = self.slot(machine.slots, int(port))
            return self.media[slot.medium], self.disk(slot), slot.own is None
        snapshot = self.snapshot(machine, name)
        slot = self.slot(snapshot.slots, int(port))
        return self.media[slot.medium], self.disk(slot), self.is_base(machine, snapshot, slot)

    def is_base(self, machine, snapshot, slot):
        if slot.own is None:
            return True
        above = machine.snapshots[snapshot.parent].slots if snapshot.parent else {}
        return self.media[slot.medium].mode == "normal" and all(other.medium != slot.medium for other in above.values())

    # ---- numbers

    def draw(self):
        self.next += 1
        return self.next - 1

    def enter(self, name, variant, disk):
        n = self.draw()
        id = identifier(self.seed, 0, n)
        self.media[name] = Medium(name, id, identifier(self.seed, 1, n), variant, disk)
        return f"ok {id}"

    def spent(self, drawn=1):
        return self.next + drawn > NUMBERS

    def short(self, taken):
        return self.inner + taken > NUMBERS

    # ---- media

    def createmedium(self, name, capacity, variant="Standard"):
        first((name in self.media, 6), (name in self.shelf, 7), (capacity == 0 or capacity > LONGEST_DISK or capacity % 512, 24),
              (len(self.media) >= MEDIA, 26, "media"), (self.spent(), 27))
        return self.enter(name, variant, [0] * (capacity // 512))

    def is_foreign(self, id):
        for kind in range(4):
            n = int(id.replace("-", "")[16:], 16) - 2 ** 63
            if 0 <= n < NUMBERS and identifier(self.seed, kind, n) == id:
                return kind > 0 or n >= self.next
        return False

    def openmedium(self, name):
        first((name in self.media, 6), (name not in self.shelf, 8))
        kind, *rest = self.shelf[name]
        first((kind == "bad", 9, rest[0]))
        id = rest[0]
        first((any(m.id == id for m in self.media.values()), 10), (self.is_foreign(id), 11), (len(self.media) >= MEDIA, 26, "media"),
              (kind == "link", 28, 0))
        id, modify, variant, disk = rest
        del self.shelf[name]
        self.media[name] = Medium(name, id, modify, variant, list(disk))
        return f"ok {id}"

    def closemedium(self, name, delete):
        medium = self.medium(name)
        first((self.in_use(name), 12))
        del self.media[name]
        if not delete:
            self.shelf[name] = ("volume", medium.id, medium.modify, medium.variant, medium.disk)
        return "ok"

    def settype(self, name, mode):
        medium = self.medium(name)
        first((self.in_use(name), 12))
        medium.mode = mode
        return "ok"

    def showmediuminfo(self, name):
        m = self.medium(name)
        return f"ok {m.id} {m.modify} {m.mode} {m.variant} {m.capacity} {'frozen' if self.frozen(name) else 'free'}"

    def resize(self, name, capacity):
        m = self.medium(name)
        first((any(slot.own is not None for _, slot, _ in self.uses(name)), 13), (self.in_run(name), 14), (m.mode == "readonly", 21),
              (capacity < m.capacity, 23), (capacity > LONGEST_DISK, 24), (m.variant == "Fixed", 25))
        m.disk += [0] * (capacity // 512 - len(m.disk))
        m.capacity = capacity
        return "ok"

    def compact(self, place):
        medium, _, base = self.place(place)
        first((self.in_run(medium.name), 14), (medium.mode == "readonly", 21), (medium.variant == "Fixed" and base, 25))
        return "ok"

    def usage(self, place):
        self.place(place)
        return "ok 0"

    def clonenew(self, place, name):
        _, disk, _ = self.place(place)
        first((name in self.media, 6), (name in self.shelf, 7), (disk is None, 13), (len(self.media) >= MEDIA, 26, "media"),
              (self.spent(), 27))
        return self.enter(name, "Standard", list(disk))

    def cloneexisting(self, place, name):
        medium, disk, _ = self.place(place)
        target = self.medium(name)
        first((self.in_use(name) or medium is target, 12), (disk is None, 13), (target.mode == "readonly", 21),
              (target.variant == "Fixed", 25), (self.spent(), 27), (target.capacity < 512 * len(disk or []), 29))
        target.modify = identifier(self.seed, 1, self.draw())
        target.disk = disk + [0] * (len(target.disk) - len(disk))
        return f"ok {target.id}"

    def importchain(self, files, name):
        first((name in self.media, 6), (name in self.shelf, 7), (any(f not in self.media and f not in self.shelf for f in files), 8))
        for f in files:
            if f in self.shelf and self.shelf[f][0] == "bad":
                raise Refused(9, self.shelf[f][1])
        first((any(f in self.media for f in files), 12), (len(self.media) >= MEDIA, 26, "media"), (self.spent(), 27))
        below = None
        for i, f in enumerate(files):
            kind, id, modify, *rest = self.shelf[f]
            if kind == "volume":
                first((below is not None, 28, i))
                disk = list(rest[1])
            else:
                link, parent_modify, sectors = rest
                first((below is None, 28, i), (below != (link, parent_modify) or len(sectors) < len(disk), 28, i))
                disk = [own if own is not None else (disk[j] if j < len(disk) else 0) for j, own in enumerate(sectors)]
            below = (id, modify)
        return self.enter(name, "Standard", disk)

    # ---- machines and slots

    def createvm(self, name):
        first((name in self.machines, 6), (len(self.machines) >= MACHINES, 26, "machines"))
        self.machines[name] = Machine(name)
        return "ok"

    def unregistervm(self, vm):
        machine = self.machine(vm)
        first((bool(machine.slots or machine.snapshots), 12), (machine.running, 14))
        del self.machines[vm]
        return "ok"

    def attach(self, vm, port, name):
        machine, medium = self.machine(vm), self.medium(name)
        own = medium.mode in ("immutable", "multiattach")
        first((self.frozen(name), 13), (machine.running, 14), (port in machine.slots, 18),
              (any(slot.medium == name for slot in machine.slots.values()), 19), (self.short(own), 27))
        self.inner += own
        machine.slots[port] = Slot(name, medium.mode == "immutable", list(medium.disk) if own else None)
        return "ok"

    def detach(self, vm, port):
        machine = self.machine(vm)
        slot = self.slot(machine.slots, port)
        first((slot.own is not None and self.media[slot.medium].mode == "normal", 13), (machine.running, 14))
        del machine.slots[port]
        return "ok"

    def autoreset(self, vm, port, on):
        machine = self.machine(vm)
        slot = self.slot(machine.slots, port)
        first((machine.running, 14), (self.media[slot.medium].mode != "immutable", 25))
        slot.autoreset = on
        return "ok"

    def startvm(self, vm):
        machine = self.machine(vm)
        shared = {slot.medium for slot in machine.slots.values() if slot.own is None}
        locked = any(other.running and slot.own is None and slot.medium in shared and self.media[slot.medium].mode != "readonly"
                     for other in self.machines.values() for slot in other.slots.values())
        resets = [port for port, slot in sorted(machine.slots.items()) if slot.autoreset and self.media[slot.medium].mode == "immutable"]
        first((machine.running, 14), (locked, 16), (self.short(len(resets)), 27))
        current = machine.snapshots[machine.current].slots if machine.current else {}
        for port in resets:
            slot = machine.slots[port]
            kept = current.get(port)
            slot.own = list(self.disk(kept) if kept and kept.medium == slot.medium else self.media[slot.medium].disk)
        self.inner += len(resets)
        for name in shared:
            self.media[name].changed = False
        machine.running = True
        return "ok"

    def poweroff(self, vm):
        machine = self.machine(vm)
        first((not machine.running, 15))
        machine.running = False
        return "ok"

    # ---- guests

    def guest(self, vm, port):
        machine = self.machine(vm)
        return machine, self.slot(machine.slots, port)

    def read(self, vm, port, lba, count):
        machine, slot = self.guest(vm, port)
        disk = self.disk(slot)
        first((not machine.running, 15), (lba + count > len(disk), 20))
        return "ok " + " ".join(f"{b:02x}*512" for b in disk[lba:lba + count])

    def put(self, vm, port, lba, sectors):
        machine, slot = self.guest(vm, port)
        medium, disk = self.media[slot.medium], self.disk(slot)
        fresh = slot.own is None and not medium.changed
        first((not machine.running, 15), (lba + len(sectors) > len(disk), 20), (medium.mode == "readonly", 21),
              (fresh and self.spent(), 27))
        if fresh:
            medium.modify = identifier(self.seed, 1, self.draw())
            medium.changed = True
        disk[lba:lba + len(sectors)] = sectors
        return "ok"

    def flush(self, vm):
        machine = self.machine(vm)
        first((not machine.running, 15))
        return "ok"

    # ---- snapshots

    def take(self, vm, name):
        machine = self.machine(vm)
        normal = [s.medium for s in machine.slots.values() if s.own is None and self.media[s.medium].mode == "normal"]
        owns = [port for port, s in sorted(machine.slots.items()) if self.media[s.medium].mode not in ("writethrough", "readonly")]
        snapshots = sum(len(m.snapshots) for m in self.machines.values())
        places = sum(len(s.slots) for m in self.machines.values() for s in m.snapshots.values())
        first((name in machine.snapshots, 6), (machine.running, 14),
              (any(other is not machine and s.medium in normal for other in self.machines.values() for s in other.slots.values()), 17),
              (snapshots >= SNAPSHOTS, 26, "snapshots"), (places + len(machine.slots) > PLACES, 26, "places"), (self.short(len(owns)), 27))
        for port in owns:
            slot = machine.slots[port]
            slot.own = list(self.disk(slot))
        self.inner += len(owns)
        machine.snapshots[name] = Snapshot(machine.current, {port: slot.copy() for port, slot in machine.slots.items()})
        machine.current = name
        for medium in normal:
            self.media[medium].disk = None
        return "ok"

    def restored(self, machine, name):
        slots = machine.snapshots[name].slots
        owns = sum(slot.own is not None for slot in slots.values())
        first((machine.running, 14), (self.short(owns), 27))
        machine.slots = {port: slot.copy() for port, slot in slots.items()}
        machine.current = name
        self.inner += owns
        return "ok"

    def restore(self, vm, name):
        machine = self.machine(vm)
        self.snapshot(machine, name)
        return self.restored(machine, name)

    def restorecurrent(self, vm):
        machine = self.machine(vm)
        first((machine.current is None and machine.running, 14), (machine.current is None, 30))
        return self.restored(machine, machine.current)

    def delete(self, vm, name):
        machine = self.machine(vm)
        gone = self.snapshot(machine, name)
        dependents = sum(s.parent == name for s in machine.snapshots.values()) + (machine.current == name)
        own = [(port, slot) for port, slot in sorted(gone.slots.items()) if slot.own is not None]
        bases = [slot.medium for _, slot in own if self.is_base(machine, gone, slot)]
        first((machine.running, 14), (dependents > 1, 22, dependents),
              (self.spent(len(bases)) and len(bases) > 0 or self.short(len(own) - len(bases)), 27))
        for medium in bases:
            self.media[medium].modify = identifier(self.seed, 1, self.draw())
        self.inner += len(own) - len(bases)
        del machine.snapshots[name]
        for snapshot in machine.snapshots.values():
            if snapshot.parent == name:
                snapshot.parent = gone.parent
        if machine.current == name:
            machine.current = gone.parent
        for _, slot in own:
            medium = self.media[slot.medium]
            if medium.mode == "normal" and not self.in_snapshot(medium.name):
                medium.disk = slot.own
                for here in machine.slots.values():
                    if here.medium == medium.name:
                        medium.disk, here.own = here.own, None
        return "ok"

    def snapshots(self, vm):
        machine = self.machine(vm)
        lines = [f"{name}:{snapshot.parent or '-'}" for name, snapshot in sorted(machine.snapshots.items())]
        return " ".join(["ok", machine.current or "-", str(len(lines))] + lines)

    # ---- lists

    def hdds(self):
        return " ".join(["ok", str(len(self.media))] + sorted(self.media))

    def vms(self):
        return " ".join(["ok", str(len(self.machines))]
                        + [f"{name}:{'running' if m.running else 'off'}" for name, m in sorted(self.machines.items())])

    # ---- words

    def command(self, line):
        """The call that a line is, or None where it is no form."""
        words = re.split(r"[ \t]+", line.strip(" \t")) if line.strip(" \t") else []
        number = lambda w: int(w) if re.fullmatch(r"0|[1-9][0-9]*", w) and int(w) < 2 ** 64 else None
        port = lambda w: int(w) if re.fullmatch(r"[0-9]|[12][0-9]", w) else None
        count = lambda w: int(w) if re.fullmatch(r"[1-9][0-9]{0,2}", w) and int(w) <= 256 else None
        medium = lambda w: w if re.fullmatch(r"(?!-)[A-Za-z0-9._-]+", w) and w.endswith(".vdi") and 5 <= len(w) <= 64 else None
        short = lambda w: w if re.fullmatch(r"(?!-)[A-Za-z0-9._-]{1,32}", w) else None
        switch = lambda w: {"on": True, "off": False}.get(w)
        mode = lambda w: w if w in MODES else None
        byte = lambda w: int(w, 16) if re.fullmatch(r"[0-9a-f]{2}", w) else None

        def sectors(w):
            if not re.fullmatch(r"(?:[0-9a-f]{1024}){1,8}", w):
                return None
            return [int(w[i:i + 2], 16) for i in range(0, len(w), 1024)]

        def place(w):
            owner, colon, p = w.partition(":")
            if not colon:
                return medium(w)
            vm, slash, snapshot = owner.partition("/")
            return w if short(vm) and (not slash or short(snapshot)) and port(p) is not None else None

        def own(w):
            return w if place(w) and ":" in w and "/" not in w else None

        forms = [
            (("createmedium", medium, "--size", number), lambda n, s: self.createmedium(n, s << 20)),
            (("createmedium", medium, "--sizebyte", number), lambda n, s: self.createmedium(n, s)),
            (("createmedium", medium, "--size", number, "--variant", "Fixed"), lambda n, s: self.createmedium(n, s << 20, "Fixed")),
            (("createmedium", medium, "--sizebyte", number, "--variant", "Fixed"), lambda n, s: self.createmedium(n, s, "Fixed")),
            (("openmedium", medium), self.openmedium),
            (("closemedium", medium), lambda n: self.closemedium(n, False)),
            (("closemedium", medium, "--delete"), lambda n: self.closemedium(n, True)),
            (("modifymedium", medium, "--type", mode), self.settype),
            (("modifymedium", own, "--autoreset", switch), lambda p, on: self.autoreset(p.split(":")[0], int(p.split(":")[1]), on)),
            (("modifymedium", place, "--compact"), self.compact),
            (("modifymedium", medium, "--resize", number), lambda n, s: self.resize(n, s << 20)),
            (("clonemedium", place, medium), self.clonenew),
            (("clonemedium", place, medium, "--existing"), self.cloneexisting),
            (("showmediuminfo", medium), self.showmediuminfo),
            (("usage", place), self.usage),
            (("list", "hdds"), self.hdds),
            (("list", "vms"), self.vms),
            (("createvm", short), self.createvm),
            (("unregistervm", short), self.unregistervm),
            (("storageattach", short, port, "none"), self.detach),
            (("storageattach", short, port, medium), self.attach),
            (("startvm", short), self.startvm),
            (("poweroff", short), self.poweroff),
            (("snapshot", short, "take", short), self.take),
            (("snapshot", short, "restore", short), self.restore),
            (("snapshot", short, "restorecurrent"), self.restorecurrent),
            (("snapshot", short, "delete", short), self.delete),
            (("snapshot", short, "list"), self.snapshots),
            (("read", short, port, number, count), self.read),
            (("write", short, port, number, sectors), self.put),
            (("fill", short, port, number, count, byte), lambda v, p, l, c, b: self.put(v, p, l, [b] * c)),
            (("flush", short), self.flush),
        ]
        for form, call in forms:
            if len(form) != len(words):
                continue
            arguments = []
            for part, word in zip(form, words):
                if isinstance(part, str):
                    if part != word:
                        break
                else:
                    value = part(word)
                    if value is None:
                        break
                    arguments.append(value)
            else:
                return lambda: call(*arguments)
        if words and words[0] == "importchain" and 4 <= len(words) <= 34 and all(medium(w) for w in words[1:]):
            return lambda: self.importchain(words[1:-1], words[-1])
        return None

    def answer(self, line):
        call = self.command(line)
        if call is None:
            return "error 01 BadLine"
        try:
            return call()
        except Refused as refused:
            return refused.line
