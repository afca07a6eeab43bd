"""The work of scripts/compare-renames."""

import gc
import os
import random
import shutil
import sys
import tempfile
import time
from concurrent.futures import ThreadPoolExecutor

from cscout_ref.analysis import analyse
from cscout_ref.cli import parse
from cscout_ref.files import HostFiles
from cscout_ref.lexer import is_identifier
from cscout_ref.model import RESERVED, Refusal
from cscout_ref.reader import with_deep_stack
from cscout_ref.rename import Renaming, plan_rename
from cscout_ref.workspace import read_workspace

from held import Copy, Tokens, outcome_of, told


def kinds_of(analysis, strings):
    """The positions of nameable tokens by what the tokens are; with `strings` those that macros make strings of are a kind."""
    kinds = {}
    if strings:
        kinds["shown"] = {tok.origins[0] for unit in analysis.units for tok in unit.text.stringized
                          if tok.kind == "Ident" and tok.origins[0] in analysis.nameable}
    for unit in analysis.units:
        for event in unit.text.events:
            if event.name is not None and event.kind in ("Defined", "Replaced", "Tested", "Left"):
                kinds.setdefault("macro", set()).add(event.name.origins[0])
        for tok in unit.text.pasted:
            for pos in tok.origins:
                kinds.setdefault("pasted", set()).add(pos)
    for file in analysis.kept.values():
        if len(file.items) > 2 and file.items[0].kind == "Ifndef" and file.items[1].kind == "Define":
            kinds.setdefault("guard", set()).add(file.items[1].definition.name.origins[0])
    for unit, _, tok, entity in analysis.occurrences():
        kind = unit.bound.kind[entity]
        if kind in ("Object", "Function"):
            kind += " " + unit.bound.linkage.get(entity, "Absent")
        kinds.setdefault(kind, set()).add(tok.origins[0])
    named = {pos for found in kinds.values() for pos in found}
    kinds["other"] = {pos for pos in analysis.nameable if pos not in named}
    kept = {pos for tok in analysis.file_tokens() for pos in tok.origins[:1] if pos is not None}
    kinds["nothing"] = {pos for pos in kept if pos not in analysis.nameable}
    return {kind: sorted(p for p in found if p is not None and p.file != 0) for kind, found in sorted(kinds.items())}


def chosen(analysis, rng, count, strings):
    """Places, in turn of each kind; seven of eight are in files that may be edited, where there are such."""
    pools = {}
    for kind, found in kinds_of(analysis, strings).items():
        rng.shuffle(found)
        ours = [pos for pos in found if not analysis.read_only(pos.file)]
        pools[kind] = ours, [pos for pos in found if analysis.read_only(pos.file)]
    places = []
    while len(places) < count and any(ours or theirs for ours, theirs in pools.values()):
        for kind, (ours, theirs) in pools.items():
            pool = ours if ours and (not theirs or rng.random() < .875) else theirs
            if pool and len(places) < count:
                places.append((kind, pool.pop()))
    return places


def new_name(analysis, rng, old, spellings):
    """A new name: fresh in two of three."""
    roll = rng.random()
    if roll < .35:
        return b"renamed_%d" % rng.randrange(1000)
    if roll < .45:
        return b"q%d" % rng.randrange(100)
    if roll < .55:
        return bytes(rng.choice(b"abcdefghijklmnopqrstuvwxyz_") for _ in range(len(old))) + rng.choice([b"", b"_", b"Z"])
    if roll < .62:
        return old + rng.choice([b"_", b"2", b"x"])
    if roll < .66:
        return b"n" * rng.randrange(1, 300)
    if roll < .86:
        return rng.choice(spellings)
    if roll < .95:
        return rng.choice(sorted(RESERVED))
    return rng.choice([b"", b"1x", b"a b", b"a-b", b"\xc3\xa9", b"a\\", b"x.", b"$a", old + b" ", old])


def expected_outcome(analysis, words):
    """What the model answers, and the renaming where it is accepted."""
    arguments = parse([os.fsencode(word) for word in words])[1]
    place = arguments[b"PATH"], arguments[b"LINE"], arguments[b"COL"]
    try:
        edits = plan_rename(analysis, *place, arguments[b"NAME"], arguments[b"strings"])
    except Refusal as refusal:
        return (1, b"", b"cscout: refused: " + refusal.words + b"\n", {}), None
    out = b"".join(b"edited %s %d\n" % (edit.path, edit.count) for edit in edits)
    renaming = Renaming(analysis, analysis.part_named(*place).cls, arguments[b"NAME"])
    return (0, out, b"", {edit.path: edit.data for edit in edits}), renaming


class Compared:
    """One workspace, with copies for the workers."""

    def __init__(self, program, name, seed, count, strings, scratch):
        self.program, self.name, self.seed, self.count, self.strings = program, name, seed, count, strings
        began = time.time()
        self.analysis = analyse(read_workspace(open(f"{name}/w.cs", "rb").read()), HostFiles())
        self.seconds = time.time() - began
        self.copies = [Copy(".", [name, "musl"], os.path.join(scratch, f"{name}{k}")) for k in range(os.cpu_count())]
        self.tokens = Tokens(self.analysis, self.copies[0].folder)

    def rows(self):
        rng = random.Random(self.seed)
        spellings = sorted({tok.text for file in self.analysis.kept.values() for tok in file.text.toks
                            if tok.kind == "Ident"})
        for kind, pos in chosen(self.analysis, rng, self.count, self.strings):
            path, line, column = self.analysis.place(pos)
            part = self.analysis.part_named(path, line, column)
            name = new_name(self.analysis, rng, part.text if part else b"x", spellings)
            words = [f"{self.name}/w.cs", "rename", os.fsdecode(path), str(line), str(column), os.fsdecode(name)]
            yield kind, words + ["strings"] * self.strings

    def held(self, words, copy):
        """The outcome of the program over a copy that no other worker has."""
        return outcome_of(self.program, words, copy)

    def run(self):
        rows = list(self.rows())
        began = time.time()
        wanted = [expected_outcome(self.analysis, words) for _, words in rows]
        model = time.time() - began
        began, free = time.time(), list(self.copies)

        def one(row):
            copy = free.pop()
            try:
                return self.held(row[1], copy)
            finally:
                free.append(copy)
        with ThreadPoolExecutor(len(self.copies)) as pool:
            got = list(pool.map(one, rows))
        seconds = time.time() - began
        differ = accepted = units = 0
        answers, kinds = {}, {}
        for (kind, words), (want, renaming), outcome in zip(rows, wanted, got):
            kinds[kind] = kinds.get(kind, 0) + 1
            answer = "accepted" if renaming else want[2].decode().split(": ")[-1].strip()
            answers[answer] = answers.get(answer, 0) + 1
            accepted += renaming is not None
            wrong = [] if outcome == want else [f"wanted {told(want)}; got {told(outcome)}"]
            if renaming:
                sentences, looked = self.looked_at(renaming, outcome)
                wrong += sentences
                units += looked
            differ += bool(wrong)
            for sentence in wrong:
                print(f"differs: {' '.join(map(repr, words))} ({kind}): {sentence}", flush=True)
        odd = sum(not alike for _, alike, _ in self.tokens._old.values())
        print(f"{self.name}: {len(rows)} renames ({tally(kinds)}): {tally(answers)}; {units} edited units held against gcc"
              f"{f' ({odd} units of other tokens)' if odd else ''}; the model's analysis {self.seconds:.1f} s and its plans "
              f"{model:.1f} s, the program {seconds:.1f} s", flush=True)
        return len(rows), accepted, units, differ

    def looked_at(self, renaming, outcome):
        """The units of the edited files, by gcc; the files are those that the program made."""
        files = {path: data for path, data in outcome[3].items() if data is not None}
        for unit in self.analysis.units:
            self.tokens.old(unit)
        self.copies[0].put(files)
        try:
            return self.tokens.respelled(renaming, files)
        finally:
            self.copies[0].take_back()


def tally(counts):
    return ", ".join(f"{count} {word}" for word, count in sorted(counts.items(), key=lambda pair: -pair[1]))


def main():
    program, corpus = sys.argv[1:3]
    seed, count = map(int, sys.argv[3:5])
    strings = sys.argv[5] == "strings"
    os.chdir(corpus)
    gc.disable()  # the model makes many small objects and few cycles
    counts = 0, 0, 0, 0
    with tempfile.TemporaryDirectory() as scratch:
        for name in sys.argv[6:]:
            now = Compared(program, name, seed, count, strings, scratch).run()
            if not now[0]:
                print(f"{name}: no rename to hold")
                return 1
            counts = tuple(map(sum, zip(counts, now)))
            gc.collect()
            shutil.rmtree(scratch)
            os.makedirs(scratch)
    print("%d renames, %d accepted, %d edited units held against gcc, %d differ" % counts)
    if counts[1] and not counts[2]:
        print("no edited unit was held against gcc")
        return 1
    return 1 if counts[3] else 0


sys.exit(with_deep_stack(main))
