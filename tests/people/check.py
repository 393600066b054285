#!/usr/bin/env python3
"""The manual, the completions and the examples of the documents, held against the grammar: check.py.

What commands, refusals and statuses there are is read from their definitions, so that nothing of this can lag behind them.
"""

import itertools
import os
import re
import shlex
import shutil
import subprocess
import sys
import tempfile

ROOT = os.path.dirname(os.path.dirname(os.path.dirname(os.path.abspath(__file__))))
WORD, WORDS = "_", "_..."  # any word, and one or more of them


def placed(word):
    """What stands in a form for a word of a table or a text: its own, or any in place of one in capitals."""
    return word if not word.isupper() else WORDS if word.endswith("...") else WORD


def fits(form, words):
    """Whether words are of a form."""
    if WORDS in form:
        k, more = form.index(WORDS), len(words) - len(form) + 1
        form = form[:k] + (WORD,) * max(more, 1) + form[k + 1:]
    return len(form) == len(words) and all(f in (WORD, w) for f, w in zip(form, words))


def text(*path):
    with open(os.path.join(ROOT, *path), encoding="utf-8") as f:
        return f.read()


class Cases:
    def __init__(self):
        self.passed = 0
        self.failed = 0

    def same(self, name, wanted, got):
        """Whether two sets are the same."""
        if wanted == got:
            self.passed += 1
            return
        self.failed += 1
        for what, items in (("lacks", wanted - got), ("has too much", got - wanted)):
            for item in sorted(items):
                print("people: %s %s: %s" % (name, what, " ".join(item) if isinstance(item, tuple) else item))

    def holds(self, name, good, got=""):
        self.passed += bool(good)
        self.failed += not good
        if not good:
            print("people: %s: %s" % (name, got))


# ---- the definitions


class Definitions:
    """The equations of a file of definitions: for each name, its patterns and its body."""

    def __init__(self, *path):
        self.types, self.equations = {}, {}
        lines = re.sub(r"\n +", " ", re.sub(r"(?m)^ *--.*\n", "", text(*path))).split("\n")
        for line in lines:
            named = re.match(r"(?:abbrev|unfoldable) pub (\w+) : (.*)", line)
            if named:
                self.types[named.group(1)] = named.group(2)
            equation = re.match(r"(\w+)((?: \([^()]*\)| \w+)*) = (.*)", line)
            if equation:
                patterns = [p.strip("()").split() for p in re.findall(r"\([^()]*\)|\w+", equation.group(2))]
                self.equations.setdefault(equation.group(1), []).append((patterns, equation.group(3)))

    def forms(self, body, only=()):
        """The lists of words that an expression gives; `only` has (variable, constructor) pairs that hold."""
        alternatives = [()]
        # A variable before `++` stands for words.
        for part in re.split(r" ∷ | \+\+ ", re.sub(r"∷ \(?(\w+) \+\+ ", r"∷ \1... ∷ ", body)):
            part = part.strip()
            words = part.strip("()").split()
            if part.strip("()") == "[]":
                continue
            if part.endswith("..."):
                choices = [(WORDS,)]
            elif words[0] == "codes":
                choices = [(w,) for w in re.findall(r'"([^"]*)"', part)]
            elif self.types.get(words[0], "").endswith("→ Words"):
                wanted = [c for v, c in only if v in words[1:]]
                choices = [f for patterns, b in self.equations[words[0]] if not wanted or patterns[0][0] in wanted for f in self.forms(b)]
            else:
                choices = [(WORD,)]
            alternatives = [a + c for a in alternatives for c in choices]
        return alternatives


def served():
    """The patterns of the commands that are served, by themselves or as a kind of command."""
    equations = Definitions("crates", "vbm_served", "specs", "Served.antt").equations
    kinds = [name for name in equations if name.startswith("is_")]
    return [patterns[0] for name in kinds for patterns, body in equations[name] if body == "true"]


def command_forms(definitions):
    """The forms of the machine's commands that are served."""
    forms = set()
    for (pattern, *_), body in definitions.equations["words_of"]:
        for asked in served():
            if asked[0] == pattern[0]:
                forms |= set(definitions.forms(body, [(v, c) for v, c in zip(pattern, asked) if v != c and c[0].isupper()]))
    return forms


def modes(definitions):
    """The modes that a served command gives a medium."""
    served_modes = {asked[2] for asked in served() if asked[0] == "SetMode"}
    return {first_word(body) for patterns, body in definitions.equations["mode_text"] if patterns[0][0] in served_modes}


def families():
    """The files of definitions that the steps of served commands stand in."""
    steps = {patterns[1][0]: body.split()[0] for patterns, body in Definitions("crates", "vbm_world", "specs", "Step.antt").equations["step_of"]}
    wanted = {steps[asked[0]] for asked in served()}
    files = [f for f in os.listdir(os.path.join(ROOT, "crates", "vbm_world", "specs")) if f.endswith(".antt")]
    return [f for f in files if wanted & set(Definitions("crates", "vbm_world", "specs", f).types)]


def program_forms(definitions):
    """The forms that are words of the program alone."""
    return {form for body in re.findall(r"words ≡ (codes [^→\n]*?∷ \[\])", text("crates", "vbm_top", "specs", "Run.antt")) for form in definitions.forms(body)}


def imported(name, *path):
    """The constructors of a type that a file of definitions uses."""
    found = re.search(r"\.%s\.TheVariants\.\{([^}]*)\}" % name, text(*path))
    return {c.split(" as ")[0].strip() for c in found.group(1).split(",")} if found else set()


def first_word(body):
    return re.search(r'codes "([^"]*)"', body).group(1).strip()


def refusals(definitions):
    """The texts of the refusals that a served command, or `peek`, may get."""
    files = [("vbm_world", file) for file in families()]
    used = set().union(*(imported("Refusal", "crates", crate, "specs", file) for crate, file in [*files, ("vbm_served", "Runs.antt"), ("vbm_peek", "Peek.antt")]))
    return {first_word(body) for patterns, body in definitions.equations["refusal_text"] if patterns[0][0] in used}


def stores():
    """The texts of the refused stores."""
    used = set().union(*(imported("BadStore", "crates", "vbm_standing", "specs", file) for file in ("Stands.antt", "Faults.antt")))
    if re.search(r"const BUILT.*?inner_images: false", text("crates", "vbm_registry", "src", "features.rt"), re.S):
        used.discard("BrokenLink")
    definitions = Definitions("crates", "vbm_top", "specs", "Run.antt")
    there = first_word(definitions.equations["there_line"][0][1]).removesuffix("\\n")
    return {there} | {first_word(body) for patterns, body in definitions.equations["store_text"] if patterns[0][0] in used}


def conditions():
    """The numbers and names of the conditions on images."""
    body = re.search(r"enum BadImage \{(.*?)\n\}", text("crates", "vbm_header", "src", "lib.rt"), re.S).group(1)
    return {"%d %s" % (k + 1, name) for k, name in enumerate(re.findall(r"^    (\w+)", body, re.M))}


def own_forms():
    """The forms that bin/vbm answers without the program."""
    return {(word,) for word in re.findall(r"(--\w+)\)$", text("bin", "vbm"), re.M)}


def own_statuses():
    """The statuses of bin/vbm that the program does not have."""
    return set(re.findall(r"\bexit (\d\d)\b", text("bin", "vbm")))


def statuses():
    """The numbers of the statuses, each with what standard error says."""
    main = text("crates", "vbm", "src", "main.rt")
    numbers = dict(re.findall(r"const (\w+): u8 = (\d+);", text("crates", "vbm_top", "src", "status.rt") + main))
    said = dict(re.findall(r'(?:status::)?(\w+) => Some\("([^"]*)"\)', main))
    return {"%s %s" % (n, said[name]) if name in said else n for name, n in numbers.items()}


# ---- the manual


class Manual:
    def __init__(self):
        parts = re.split(r"(?m)^\.Sh (.*)\n", text("doc", "vbm.1"))
        self.sections = dict(zip(parts[1::2], parts[2::2]))

    def forms(self):
        forms = set()
        for form in re.split(r"(?m)^\.Nm\n", self.sections["SYNOPSIS"])[1:]:
            choices = []
            for line in form.strip().split("\n"):
                words = line.lstrip(".").replace(" ...", "...").split()
                plain = words[words[0] == "Op":]
                spelled = tuple({"Ar": placed(w), "Fl": "-" + w, "Cm": w}[m] for m, w in zip(plain[::2], plain[1::2]))
                choices.append([spelled, ()] if words[0] == "Op" else [spelled])
            forms |= {sum(choice, ()) for choice in itertools.product(*choices)}
        return forms

    def items(self, section):
        """What the items of a list are, without their arguments."""
        return {re.sub(r" Ar .*", "", i) for i in re.findall(r"(?m)^\.It (?:Sy|Cm) (.*)$", self.sections[section])}

    def statuses(self):
        items = re.split(r"(?m)^\.It Sy (\d+)\n", self.sections["EXIT STATUS"])
        said = ((n, re.search(r"(?m)^\.Ql (.*?)(?: \.)?$", body)) for n, body in zip(items[1::2], items[2::2]))
        return {"%s %s" % (n, found.group(1)) if found else n for n, found in said}


def manual(cases, forms, definitions):
    page = Manual()
    cases.same("the manual's synopsis", forms | own_forms(), page.forms())
    cases.same("the manual's commands", {f[0] for f in forms}, {i.split()[0] for i in page.items("COMMANDS")})
    cases.same("the manual's refusals", refusals(definitions), {" ".join(i.split()[:3]) for i in page.items("REFUSALS")})
    cases.same("the manual's stores", stores(), page.items("REFUSED STORES"))
    cases.same("the manual's conditions on images", conditions(), page.items("REFUSED IMAGES"))
    cases.same("the manual's statuses", statuses() | own_statuses(), page.statuses())
    if shutil.which("mandoc"):
        done = subprocess.run(["mandoc", "-T", "lint", "-W", "warning", "doc/vbm.1"], cwd=ROOT, stdout=subprocess.PIPE, stderr=subprocess.STDOUT)
        cases.holds("mandoc", done.returncode == 0, done.stdout.decode())


# ---- the help of bin/vbm


def help_text(cases, forms):
    done = subprocess.run([os.path.join(ROOT, "bin", "vbm"), "--help"], stdout=subprocess.PIPE, timeout=60)
    told = set()
    for line in re.findall(r"(?m)^  vbm (.*?)  ", done.stdout.decode()):
        words = [placed(w.strip("[]")) for w in re.sub(r"(\w+) \[\1 \.\.\.\]", r"\1...", line).split()]
        told |= {tuple(words)} | ({tuple(words[:-1])} if line.endswith("]") else set())
    cases.same("the forms of bin/vbm --help", forms | own_forms(), told)


# ---- the completions

FILES = ["some.vdi", "x.vdi"]
OTHERS = ["notes.txt", "a b.vdi", "{00010203-0405-0607-0809-0a0b0c0d0e0f}.vdi", ".vdi", "-a.vdi", "A.VDI"]

# For each line of words, the candidates for the next one. The last word of a line is the one that is completed.
BASH = r"""
. "$1/completions/vbm.bash"
while IFS= read -r line; do
  read -ra words <<<"${line%.}"
  case $line in . | *' .') words+=('') ;; esac
  COMP_WORDS=(vbm "${words[@]}") COMP_CWORD=${#words[@]}
  _vbm
  printf '%s\n' "${COMPREPLY[*]}"
done
"""
ZSH = r"""
setopt extendedglob
compadd() { shift; added=("$@") }
complete_vbm() { . "$1/completions/_vbm" }
while IFS= read -r query; do
  added=() words=(vbm ${=query%.} '')
  CURRENT=$#words
  complete_vbm "$1"
  print -r -- $added
done
"""


def table(*path):
    return [tuple(line.split()) for line in re.search(r"vbm_forms='\n(.*?)\n'", text(*path), re.S).group(1).split("\n")]


def candidates(rows, typed, modes):
    """What can come behind these words, by a table of forms."""
    found = set()
    for row in rows:
        for k in [k for k, word in enumerate(row) if word.endswith("...")]:
            row = (*row[:k], *[row[k]] * max(len(typed) + 1 - k, 1), *row[k + 1:])
        if len(row) > len(typed) and all(r == t or r.isupper() for r, t in zip(row, typed)):
            word = row[len(typed)]
            is_file = word in ("NAME", "FILE", "FILE...") or word == "NEW" and row[0] != "createmedium"
            found |= {word} if not word.isupper() else set(FILES) if is_file else modes if word == "MODE" else set()
    return found


def asked(shell, script, queries):
    """What a shell gives for each query."""
    with tempfile.TemporaryDirectory() as folder:
        for file in FILES + OTHERS:
            open(os.path.join(folder, file), "w").close()
        os.mkdir(os.path.join(folder, "folder.vdi"))
        os.symlink("some.vdi", os.path.join(folder, "link.vdi"))
        done = subprocess.run([*shell, "-c", script, shell[0], ROOT], cwd=folder, input="".join(q + ".\n" for q in queries).encode(), stdout=subprocess.PIPE, timeout=60)
    return [set(line.split()) for line in done.stdout.decode().split("\n")[:-1]]


def completions(cases, forms, modes):
    for name, path in (("bash", "vbm.bash"), ("zsh", "_vbm")):
        rows = table("completions", path)
        cases.same("the forms of " + path, forms, {tuple(placed(w) for w in row) for row in rows})
        if not shutil.which(name):
            print("skipped: running completions/%s (tests/people), since there is no %s" % (path, name))
            continue
        typed = sorted({tuple("z.vdi" if w.isupper() else w for w in row[:n]) for row in rows for n in range(len(row) + 1)} | {("frob",), ("list", "x")})
        got = asked([name, "--norc"] if name == "bash" else [name, "-f"], BASH if name == "bash" else ZSH, ["".join(w + " " for w in words) for words in typed])
        cases.holds("the answers of " + path, len(got) == len(typed), got)
        for words, found in zip(typed, got):
            cases.same("%s behind `vbm %s`" % (path, " ".join(words)), candidates(rows, words, modes), found)
    begun = {"creat": {"createmedium", "createvm"}, "createmedium z.vdi --size": {"--size", "--sizebyte"}, "createmedium z.vdi --sizeb": {"--sizebyte"},
             "closemedium so": {"some.vdi"}, "closemedium some.vdi": {"some.vdi"}, "peek y": set(), "peek x.vdi so": {"some.vdi"},
             "createmedium so": set(), "modifymedium so": {"some.vdi"}, "modifymedium x.vdi --type w": {"writethrough"}, "list v": {"vms"},
             "storageattach v 0 n": {"none"}, "storageattach v 0 s": {"some.vdi"}, "startvm so": set()}
    for (words, wanted), found in zip(begun.items(), asked(["bash", "--norc"], BASH, begun)):
        cases.same("vbm.bash at `vbm %s`" % words, wanted, found)


# ---- examples of commands in documents


def examples(cases, forms):
    """Each line of code that runs the program has a form."""
    page = text("doc", "vbm.1")
    lines = [("doc/vbm.1", line) for line in re.findall(r"(?m)^(?:\$ )?(vbm [a-z].*)$", page)]
    for file in ("README.md", os.path.join("docs", "FROM_VIRTUALBOX.md")):
        if os.path.exists(os.path.join(ROOT, file)):
            found = text(file)
            lines += [(file, line) for line in re.findall(r"(?m)^(?:\$ )?(vbm [a-z].*)$", found) + re.findall(r"`(vbm [a-z][^`]*)`", found)]
    for file, line in lines:
        words = shlex.split(re.split(r"[<|>]| && |  ", line)[0])[1:]
        good = any(fits(f, words) for f in forms)
        cases.holds("%s: no form" % file, good, line)


def main():
    cases = Cases()
    definitions = Definitions("crates", "vbm_world", "specs", "Texts.antt")
    forms = command_forms(definitions) | program_forms(definitions)
    cases.holds("the grammar is read", len(forms) > 8, forms)
    manual(cases, forms, definitions)
    help_text(cases, forms)
    completions(cases, forms | own_forms(), modes(definitions))
    examples(cases, forms)
    print("people: %d passed, %d failed" % (cases.passed, cases.failed))
    return 1 if cases.failed else 0


if __name__ == "__main__":
    sys.exit(main())
