#!/usr/bin/env python3
"""Shows of wrong definitions that demand 3 fails under them.

Each tests/wrong/NAME.edit changes a definition of crates/spec (the form is that of a must-fail edit: a comment, `file:`, `old:`,
`new:`) and names, by `theorem:`, one of tests/wrong/Counterexamples.antt.txt: that the statement about any history is false, by a
history that is computed. Under the definitions so changed the theorem must be proved. Two controls: under the definitions as they
are, and under those that tests/wrong/harmless/ changes without a change of meaning, every such theorem must be refused, at its last
line, where what is computed meets what demand 3 says.

The proofs of crates/history stand on the true definitions and can't be had here. So each theorem is checked with what it names, what
that names, and so on: `Demand` itself, word for word, and no proof that it doesn't rest on. All of it is written as a repository in
a temporary folder outside this one (where rt ci would find its files): a module that a change reaches stands there once for each
change, as Detail_NAME, and the others once. `rt check` proves it in two runs, the wrong definitions and then the controls.

    tests/wrong-definitions.py [NAME..]      exit status 0: all is as wanted; 1: something is not; 2: an edit does not fit
"""
import os
import re
import shutil
import subprocess
import sys
import tempfile

TOP = os.path.dirname(os.path.dirname(os.path.abspath(__file__)))
EDITS = os.path.join(TOP, "tests", "wrong")
HARMLESS = os.path.join(EDITS, "harmless")
SAID = os.path.join(TOP, "target", "wrong")  # what the prover said of the wrong definitions, and of the controls
FILE = ("history", "Counterexamples")  # a module, as crate and name
STATED = ("history", "Theorem")
TRUE = "true_definitions"  # the control that changes nothing


def fail(status, text):
    print(f"wrong-definitions: {text}")
    sys.exit(status)


def source(module):
    if module == FILE:
        return os.path.join(EDITS, "Counterexamples.antt.txt")
    return os.path.join(TOP, "crates", module[0], "specs", module[1] + ".antt")


def edited(path):
    """Of an edit: the theorem that it names, the module that it changes, and the module's text as it is then."""
    theorem, file, old, text = None, None, None, None
    for line in open(path).read().split("\n"):
        if line.startswith("theorem: "):
            theorem = line[9:]
        elif line.startswith("file: "):
            file = re.fullmatch(r"specs/(\w+)\.antt", line[6:])
            if not file or not os.path.isfile(source(("spec", file[1]))):
                fail(2, f"{os.path.basename(path)} names no file of crates/spec/specs")
            text = open(source(("spec", file[1]))).read()
        elif line.startswith("old: "):
            old = line[5:]
        elif line.startswith("new: "):
            if not text or text.split("\n").count(old) != 1:
                fail(2, f"{os.path.basename(path)}: an old line does not stand exactly once in its file")
            text = "\n".join(line[5:] if l == old else l for l in text.split("\n"))
    if not file or text == open(source(("spec", file[1]))).read():
        fail(2, f"{os.path.basename(path)} changes nothing")
    return theorem, ("spec", file[1]), text


# A module is taken apart into its declarations: `record NAME`, `data NAME` or `NAME .. :`, each with its clauses.
DECLARES = re.compile(r" *(?:(?:unfoldable|abbrev|pub) )*(?:(?:record|data) (\S+)|((?:(?! = )[^:])+?) :( |$))")


def depth(line):
    return len(line) - len(line.lstrip())


class Declaration:
    def __init__(self, sections, lines):
        self.sections, self.lines, self.names = sections, lines, []
        for l in lines:
            m = DECLARES.match(l)
            if m and depth(l) == depth(lines[0]):
                self.names += (m[1] or m[2]).split()
        if re.match(r" *(pub )?data ", lines[0]):
            self.names += [name for l in lines[1:] for name in l.split(" : ")[0].split()]

    def words(self):
        """The words of its text, but for the names of a record's fields where these are declared or given."""
        found = set()
        for l in self.sections + [re.sub(r"^ +pub \S+ :", "", l) for l in self.lines]:
            for w in re.findall(r"[^\s(){};,\[\]]+", re.sub(r"([{;] *|^ +)[\w-]+ = ", r"\1", l)):
                found |= {w, w.split(".")[0], f"◌{w}◌"} | ({"◌>>=◌"} if w == "do" else set())
        return found


def use_line(line):
    """Its path, the module that this is if it is one of spec or history, the names that it takes, and its other name."""
    path, names, other = re.fullmatch(r"use (\S+?)(?:\.\{(.*)\}| as (\w+))", line).groups()
    m = re.fullmatch(r"Rattle\.(spec|history)\.specs\.(\w+)", path)
    return path, m and m.groups(), names.split(", ") if names else [], other


class Module:
    def __init__(self, text):
        self.uses, self.handed_on, self.declarations, sections, lines = [], [], [], [], []
        for line in [l for l in text.split("\n") if not l.lstrip().startswith("--")] + [""]:
            if line.startswith("pub use "):
                self.handed_on.append(line)
            elif line.startswith("use "):
                self.uses.append(line)
            elif not line.strip():
                self.declarations += [Declaration(sections, lines)] if lines else []
                lines = []
            else:
                if not lines:
                    sections = [s for s in sections if depth(s) < depth(line)]
                if not lines and re.match(r" *module _ .*where$", line):
                    sections = sections + [line]
                else:
                    lines.append(line)
        self.named = {name: d for d in self.declarations for name in d.names}
        self.taken, self.other_names = {}, {}
        for _, module, names, other in map(use_line, self.uses):
            if module:
                self.taken.update({name: module for name in names})
                self.other_names.update({other: module} if other else {})


class Repository:
    """What is written: of each module, plain or as a change has it, the declarations that are wanted."""

    def __init__(self):
        self.plain, self.changed, self.wanted = {}, {}, {}

    def read(self, module):
        if module not in self.plain:
            self.plain[module] = Module(open(source(module)).read())
        return self.plain[module]

    def reached(self, change):
        """The modules that import the one that changes, those that import these, and so on."""
        seen = {}

        def reaches(module):
            if module not in seen:
                m = self.read(module)
                seen[module] = any([reaches(n) for n in {*m.taken.values(), *m.other_names.values()}]) or module in (change, FILE)
            return seen[module]

        reaches(FILE)
        return [m for m in seen if seen[m]]

    def add(self, name, theorems, change=None, text=""):
        """Wants these theorems, and what they name, on top of a changed module."""
        self.changed[name] = {m: Module(text) if m == change else self.read(m) for m in self.reached(change)}
        todo = [(FILE, t) for t in theorems]
        while todo:
            at, word = todo.pop()
            changed = at in self.changed[name]
            module = self.changed[name][at] if changed else self.read(at)
            wanted = self.wanted.setdefault((at, name if changed else ""), [])
            d = module.named.get(word)
            if not d and not any(re.search(rf"\W{re.escape(word)}[,}}]", l) for l in module.handed_on):
                fail(2, f"{name}: {at[1]} has no {word}")
            if not d or d in wanted:
                continue
            wanted.append(d)
            for w in d.words():
                first, _, rest = w.partition(".")
                if w in module.named:
                    todo.append((at, w))
                elif w in module.taken:
                    todo.append((module.taken[w], w))
                elif first in module.other_names and rest:
                    todo.append((module.other_names[first], rest))

    def text(self, at, name):
        """The text of a module, and the lines that each declaration has in it."""
        module, wanted = self.changed[name][at] if name else self.plain[at], self.wanted[at, name]
        words = {w for d in wanted for w in d.words()} | {"[]", "arith"}
        out, stands, open_sections = list(module.handed_on), {}, []
        for path, of, names, other in map(use_line, module.uses):
            path += "_" + name if name and of in self.changed[name] else ""
            used = [n for n in names if n in words]
            out += [f"use {path} as {other}"] if other in words else [f"use {path}.{{{', '.join(used)}}}"] if used else []
        for d in module.declarations:
            if d in wanted:
                out += [""] + [s for k, s in enumerate(d.sections) if d.sections[: k + 1] != open_sections[: k + 1]]
                stands[d.names[0]] = (len(out) + 1, len(out) + len(d.lines))
                out += d.lines
                open_sections = d.sections
        return "\n".join(out) + "\n", stands

    def write(self, at, controls):
        """The repository: the controls' theorems are a crate of their own. Gives the lines of each module's declarations."""
        stands = {}
        for crate in ("spec", "history", "controls"):
            shutil.copytree(os.path.join(TOP, "crates", "spec" if crate == "spec" else "history", "src"), os.path.join(at, "crates", crate, "src"))
            os.mkdir(os.path.join(at, "crates", crate, "specs"))
        for module, name in self.wanted:
            crate = "controls" if module == FILE and name in controls else module[0]
            full = module[1] + ("_" + name if name else "")
            text, stands[full] = self.text(module, name)
            open(os.path.join(at, "crates", crate, "specs", full + ".antt"), "w").write(text)
            open(os.path.join(at, "crates", crate, "specs", "Lib.antt"), "a").write(f"pub mod {full}\n")
        open(os.path.join(at, "crates.txt"), "w").write("spec:\nhistory: spec\ncontrols: spec history\n")
        subprocess.run(["git", "init", "-q", at], check=True)
        return stands


def checked(at, crate):
    """The errors in a crate: module, line, what is said."""
    got = subprocess.run(["rt", "check", "--jobs", "1"], cwd=os.path.join(at, "crates", crate), capture_output=True, text=True)
    said = got.stdout + got.stderr
    os.makedirs(SAID, exist_ok=True)
    open(os.path.join(SAID, crate), "w").write(said)
    proved = got.returncode == 0
    errors = re.findall(r"^\./specs/(\w+)\.antt:(\d+):\d+: error: (.*(?:\n  .*)*)", said, re.M)
    if not re.search("^logic=proved" if proved else "^logic=not-proved", said, re.M) or proved != (not errors):
        fail(2, f"rt check did not come to an end; see target/wrong/{crate}")
    return [(module, int(line), words) for module, line, words in errors]


def broken_under(theorem_of, repository, at):
    """How many of the wrong definitions break demand 3, with a line for each."""
    refused = {module for module, _, _ in checked(at, "history")}
    theorems = {f"{FILE[1]}_{name}" for name in theorem_of}
    for name, modules in repository.changed.items():
        if refused & {f"{m[1]}_{name}" for m in modules} - theorems:
            fail(2, f"{name}: the changed definitions do not stand by themselves; see target/wrong/history")
    if refused - theorems:
        fail(2, "what the theorems name does not stand by itself; see target/wrong/history")
    for name in theorem_of:
        how = "is NOT shown to fail" if f"{FILE[1]}_{name}" in refused else "fails"
        print(f"wrong-definitions: {name}: demand 3 {how}, by {theorem_of[name]}", flush=True)
    return len(theorems - refused)


def refused_under(controls, theorems, stands, at):
    """How many of the controls hold, with a line for each."""
    errors, held = checked(at, "controls"), 0
    for name in controls:
        module = f"{FILE[1]}_{name}"
        said = {line: words for of, line, words in errors if of == module}
        refused = [t for t in theorems if re.search("expected type|the two types", said.get(stands[module][t][1], ""))]
        elsewhere = len(said) - len(refused)
        held += refused == theorems and not elsewhere
        print(f"wrong-definitions: {name}: {len(refused)} of {len(theorems)} theorems refused", end="")
        print(f", {elsewhere} errors elsewhere; see target/wrong/controls" if elsewhere else "", flush=True)
    return held


def main():
    known = sorted(f[:-5] for f in os.listdir(EDITS) if f.endswith(".edit"))
    harmless = sorted(f[:-5] for f in os.listdir(HARMLESS) if f.endswith(".edit"))
    names = sys.argv[1:] or known
    for name in names:
        if name not in known:
            fail(2, f"there is no tests/wrong/{name}.edit")
    stated = re.search(r"^pub any_history : (.*)$", open(source(STATED)).read(), re.M)
    if not stated or f"\nAnyHistory = {stated[1]}\n" not in open(source(FILE)).read():
        fail(2, "AnyHistory is not what any_history says")
    repository, theorem_of, controls = Repository(), {}, [TRUE] + harmless
    for name in names:
        theorem_of[name], module, text = edited(os.path.join(EDITS, name + ".edit"))
        stating = repository.read(FILE).named.get(theorem_of[name])
        if not stating or stating.lines[0] != f"{theorem_of[name]} : AnyHistory → ⊥":
            fail(2, f"{name}.edit names no theorem of Counterexamples.antt.txt")
        repository.add(name, [theorem_of[name]], module, text)
    theorems = sorted(set(theorem_of.values()))
    repository.add(TRUE, theorems)
    for name in harmless:
        repository.add(name, theorems, *edited(os.path.join(HARMLESS, name + ".edit"))[1:])
    with tempfile.TemporaryDirectory(prefix="wrong-definitions-") as at:
        stands = repository.write(at, controls)
        broken = broken_under(theorem_of, repository, at)
        if broken < len(names):
            fail(1, f"{broken} of {len(names)} break demand 3")
        held = refused_under(controls, theorems, stands, at)
    print(f"wrong-definitions: {broken} of {len(names)} break demand 3, {held} of {len(controls)} controls hold")
    sys.exit(0 if held == len(controls) else 1)


main()
