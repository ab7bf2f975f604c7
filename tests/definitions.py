#!/usr/bin/env python3
"""Replays calls with known answers through the definitions of crates/spec.

Every call of tests/vectors/calls-N.txt becomes a computed row: the prover works the definition on the words at entry and the
row holds if status, passed numbers, cursors, area and buffer are those of calls-N.out. The rows are written as a crate in a
repository of their own outside this one, a theorem for each stretch of calls, and proved there. A history with an
answer that differs is named by its first line.

    tests/definitions.py [--file N] [--from K] [--histories H]   (default: file 1, from the first, 100 histories; 0 = all)
"""
import argparse
import os
import re
import shutil
import subprocess
import sys
import tempfile
import time

TOP = os.path.dirname(os.path.dirname(os.path.abspath(__file__)))
SAID = os.path.join(TOP, "target", "definitions")  # what the prover said
ROWS = 40  # calls in one theorem: a declaration may take 50 million steps

REPLAY = """-- Calls one after another, each with the answer that it must get.
-- Assumes nothing.
use Rattle.std.specs.Prelude.{ℕ, zero, suc, ◌+◌, ◌-◌, ◌*◌, ◌/◌, ◌%◌, Bool, true, false, ◌&&◌, List, [], ◌∷◌, ◌++◌, length, set, replicate, eqb}
use Rattle.std.specs.Int.Bits.{bit_xor}
use Rattle.spec.specs.declared.Cursor.{Cursor}
use Rattle.spec.specs.Words.{same}
use Rattle.spec.specs.Detail.{none_passed}
use Rattle.spec.specs.Cursor.{fresh}
use Rattle.spec.specs.Calls.{Answer, Made, make, find, get, put, update, delete}

-- FNV-1a over the four bytes of each number, least first
unfoldable pub byte : ℕ → ℕ → ℕ
byte h b = (h / 256 * 256 + bit_xor (h % 256) b) * 1099511628211 % 18446744073709551616

unfoldable pub hash_on : ℕ → List ℕ → ℕ
hash_on h [] = h
hash_on h (n ∷ ns) = hash_on (byte (byte (byte (byte h (n % 256)) (n / 256 % 256)) (n / 65536 % 256)) (n / 16777216)) ns

abbrev pub hash : List ℕ → ℕ
hash ns = hash_on 14695981039346656037 ns

unfoldable pub flat : List Cursor → List ℕ
flat [] = []
flat (c ∷ cs) = c.current ∷ c.path ∷ c.back ∷ c.fore ∷ flat cs

pub record State : Type 0 where
  pub root : List ℕ
  pub area : List ℕ
  pub cursors : List Cursor
  pub buffer : List ℕ

pub data Ask : Type 0 where
  poked : ℕ → ℕ → Ask
  cursored : ℕ → ℕ → ℕ → ℕ → ℕ → Ask
  made_new : List ℕ → Ask
  found : ℕ → ℕ → List ℕ → List ℕ → Ask
  got : ℕ → ℕ → ℕ → List ℕ → List ℕ → Ask
  wrote updated : ℕ → List ℕ → List ℕ → Ask
  deleted : ℕ → List ℕ → Ask

-- status, passed, and the three hashes
unfoldable pub told : Answer → List ℕ → List ℕ
told w buffer = w.status ++ (w.passed ++ (hash (flat w.cursors) ∷ hash w.area ∷ hash buffer ∷ []))

unfoldable pub left : List ℕ → List ℕ → Answer → State
left root buffer w = record { root = root; area = w.area; cursors = w.cursors; buffer = buffer }

pub record Step : Type 0 where
  pub good : Bool
  pub next : State

unfoldable pub answered : State → Answer → List ℕ → List ℕ → Step
answered t w buffer want = record { good = same (told w buffer) want; next = left t.root buffer w }

unfoldable pub step : State → Ask → Step
step t (poked i w) = record { good = true; next = record { root = t.root; area = set t.area i w; cursors = t.cursors; buffer = t.buffer } }
step t (cursored s r p b f) =
    record {
      good = true;
      next = record { root = t.root; area = t.area; cursors = set t.cursors (s - 1) (record { current = r; path = p; back = b; fore = f }); buffer = t.buffer };
    }
step t (made_new want) =
    let m : Made = make t.root t.area in
    let w : Answer = record { status = m.status; cursors = t.cursors; passed = none_passed; area = m.area; buffer = [] } in
    answered t w t.buffer want
step t (found s i key want) = answered t (find t.root t.area t.cursors s i key) t.buffer want
step t (got s mode r key want) =
    let w : Answer = get t.root t.area t.cursors s mode r key t.buffer in
    answered t w w.buffer want
step t (wrote s entry want) = answered t (put t.root t.area t.cursors s entry) t.buffer want
step t (updated s entry want) = answered t (update t.root t.area t.cursors s entry) t.buffer want
step t (deleted s want) = answered t (delete t.root t.area t.cursors s) t.buffer want

unfoldable pub run : State → List Ask → State
run t [] = t
run t (q ∷ qs) = run ((step t q).next) qs

unfoldable pub right : State → List Ask → Bool
right t [] = true
right t (q ∷ qs) = let s : Step = step t q in elim s.good [ true ↦ right s.next qs | false ↦ false ]

unfoldable pub open_replay : Unit {0}
unfolding byte hash_on flat told left answered step run right
open_replay = tt
"""

HEAD = """-- Made by tests/definitions.py.
use Rattle.std.specs.Prelude.{ℕ, ◌≡◌, refl, Bool, true, List, [], ◌∷◌, replicate}
use Rattle.spec.specs.declared.Cursor.{Cursor}
use Rattle.spec.specs.Outcome.{open_outcome}
use Rattle.spec.specs.Words.{open_words}
use Rattle.spec.specs.Root.{open_root}
use Rattle.spec.specs.Layout.{open_layout}
use Rattle.spec.specs.Area.{open_area}
use Rattle.spec.specs.Master.{open_master}
use Rattle.spec.specs.Detail.{open_detail}
use Rattle.spec.specs.Cursor.{open_cursor, fresh}
use Rattle.spec.specs.Calls.{open_calls}
use Rattle.replay.specs.Replay.{State, Ask, poked, cursored, made_new, found, got, wrote, updated, deleted, run, right, open_replay}

"""
OPEN = "unfolding open_outcome open_words open_root open_layout open_area open_master open_detail open_cursor open_calls open_replay"


def words(ws):
    return "(" + "".join(f"{w} ∷ " for w in ws) + "[])"


def junk(n, seed):
    out, x = [], seed
    for _ in range(n):
        x = (x * 6364136223846793005 + 1442695040888963407) % 2**64
        out.append((x >> 33) % 65536)
    return out


def want(line):
    parts = [p.split() for p in line.split("|")]
    ns = [int(n) for n in parts[0][1:]] + [int(n) for n in parts[1]] + [int(p[0], 16) for p in parts[2:]]
    return words(ns)


class History:
    """One root with an area, and the calls on it: (command line, row)."""

    def __init__(self, root, line):
        self.root, self.line, self.area, self.buffer, self.rows = root, line, [], [], []


def histories(n):
    """The histories of a file. A change of root, area, buffer or cursors at once begins a new one."""
    txt = open(os.path.join(TOP, "tests", "vectors", f"calls-{n}.txt")).read().splitlines()
    out = iter(open(os.path.join(TOP, "tests", "vectors", f"calls-{n}.out")).read().splitlines())
    done, h = [], None
    for number, line in enumerate(txt, 1):
        name, *args = line.split()
        if name == "root":
            h = History([int(a) for a in args], number)
            done.append(h)
        elif name in ("zeros", "junk", "buffer", "reset"):
            if h.rows:
                sys.exit(f"calls-{n}.txt:{number}: {name} inside a history: not foreseen")
            if name == "zeros":
                h.area = ["zeros", int(args[0])]
            elif name == "junk":
                h.area = junk(int(args[0]), int(args[1]))
            elif name == "buffer":
                h.buffer = [int(a) for a in args]
        elif name == "poke":
            h.rows.append((number, f"poked {args[0]} {args[1]}"))
        elif name == "cursor":
            h.rows.append((number, "cursored " + " ".join(args)))
        elif name == "area?":
            next(out)
        else:
            w = want(next(out))
            s = args[0] if args else ""
            row = {
                "new": lambda: f"made_new {w}",
                "find": lambda: f"found {s} {args[1]} {words(args[2:])} {w}",
                "get": lambda: f"got {s} {args[1]} {args[2]} {words(args[3:])} {w}",
                "put": lambda: f"wrote {s} {words(args[1:])} {w}",
                "update": lambda: f"updated {s} {words(args[1:])} {w}",
                "delete": lambda: f"deleted {s} {w}",
            }[name]()
            h.rows.append((number, row))
    return done


def module(k, h):
    area = f"(replicate {h.area[1]} 0)" if h.area and h.area[0] == "zeros" else words(h.area)
    text = HEAD + f"""unfoldable start : State
start = record {{ root = {words(h.root)}; area = {area}; cursors = replicate 16 fresh; buffer = {words(h.buffer)} }}

"""
    opened, before = "start", "start"
    for i in range(0, len(h.rows), ROWS):
        rows = "\n    ".join(f"({r}) ∷" for _, r in h.rows[i : i + ROWS])
        j = i // ROWS
        text += f"unfoldable rows{j} : List Ask\nrows{j} =\n    {rows} []\n\n"
        text += f"unfoldable state{j} : State\nstate{j} = run {before} rows{j}\n\n"
        text += f"right{j} : right {before} rows{j} ≡ true\n{OPEN} {opened} rows{j}\nright{j} = refl\n\n"
        opened, before = f"{opened} rows{j} state{j}", f"state{j}"
    return text


def repository(work, hs):
    """A repository of spec and the rows of these histories."""
    os.makedirs(os.path.join(work, "crates", "replay", "src"))
    specs = os.path.join(work, "crates", "replay", "specs")
    os.makedirs(specs)
    shutil.copytree(os.path.join(TOP, "crates", "spec"), os.path.join(work, "crates", "spec"), ignore=shutil.ignore_patterns("must-fail", "out"))
    subprocess.run(["git", "init", "-q", work], check=True)
    open(os.path.join(work, "crates.txt"), "w").write("spec:\nreplay: spec\n")
    open(os.path.join(work, "crates", "replay", "src", "lib.rt"), "w").write("// No function: the rows are in specs/.\n")
    open(os.path.join(specs, "Replay.antt"), "w").write(REPLAY)
    names = [f"History{k}" for k in range(len(hs))]
    open(os.path.join(specs, "Lib.antt"), "w").write("".join(f"pub mod {n}\n" for n in ["Replay"] + names))
    for k, h in enumerate(hs):
        open(os.path.join(specs, f"History{k}.antt"), "w").write(module(k, h))


def main():
    ask = argparse.ArgumentParser(description=__doc__, formatter_class=argparse.RawDescriptionHelpFormatter)
    ask.add_argument("--file", type=int, default=1, choices=(1, 2), help="which file of vectors")
    ask.add_argument("--from", dest="first", type=int, default=0, help="leave out so many histories")
    ask.add_argument("--histories", type=int, default=100, help="how many histories; 0: all")
    opt = ask.parse_args()
    hs = histories(opt.file)[opt.first :]
    hs = hs[: opt.histories] if opt.histories else hs
    if not hs:
        sys.exit("definitions: no history there")
    calls = sum(1 for h in hs for _, r in h.rows if not r.startswith(("poked", "cursored")))
    start = time.time()
    with tempfile.TemporaryDirectory(prefix="definitions-") as work:
        repository(work, hs)
        got = subprocess.run(["rt", "check"], cwd=os.path.join(work, "crates", "replay"), capture_output=True, text=True)
    seconds = time.time() - start
    text = got.stdout + got.stderr
    os.makedirs(os.path.dirname(SAID), exist_ok=True)
    open(SAID, "w").write(text)
    wrong = sorted(set(re.findall(r"History(\d+)\.antt:\d+:\d+: error", text)), key=int)
    for k in wrong:
        print(f"definitions: calls-{opt.file}.txt, the history from line {hs[int(k)].line} on: an answer differs")
    if got.returncode or wrong:
        print(f"definitions: NOT as the vectors say; the prover's words are in {os.path.relpath(SAID, TOP)}")
        sys.exit(1)
    print(f"definitions: {calls} calls in {len(hs)} histories of calls-{opt.file}.txt answered as calls-{opt.file}.out says, {seconds:.0f} s")


main()
