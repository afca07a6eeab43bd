"""The work of scripts/compare-templates."""

import gc
import os
import random
import shutil
import sys
import tempfile
import time
from concurrent.futures import ThreadPoolExecutor

from cscout_ref.analysis import analyse
from cscout_ref.cli import parse
from cscout_ref.edits import parse_order
from cscout_ref.files import HostFiles
from cscout_ref.macro import plan_macro
from cscout_ref.model import Refusal
from cscout_ref.reader import with_deep_stack
from cscout_ref.template import Template, plan_template
from cscout_ref.workspace import read_workspace

from held import Copy, Tokens, differing, gcc_tokens, outcome_of, told


def functions_of(analysis):
    """The first place of each function that a unit declares, with how many parameters it has, and some places of other names."""
    found, others = {}, set()
    for unit in analysis.units:
        for name, parameters in unit.bound.function_declarators:
            pos = unit.text.toks[name].origins[0]
            entity = unit.bound.entity.get(name)
            if pos is not None and entity is not None and unit.bound.kind[entity] == "Function":
                found.setdefault(pos, parameters.nparams if parameters else 0)
    for unit, _, tok, entity in analysis.occurrences():
        pos = tok.origins[0]
        if pos is not None and pos.file != 0 and unit.bound.kind[entity] != "Function":
            others.add(pos)
    return found, sorted(others)


def macros_of(analysis):
    """The places of names that `define` lines define, with how many parameters each has, and some places of other names."""
    found = {}
    for unit in analysis.units:
        for event in unit.text.events:
            if event.kind == "Defined" and event.at.file != 0:
                item = analysis.kept[event.at.file].items[analysis.item_over(event.at)]
                found.setdefault(event.at, len(item.definition.params))
    return found, functions_of(analysis)[1]


def chosen(analysis, rng, count, macros):
    """Places with the number of parameters there: eight of ten are names with two and more in files that may be edited."""
    found, others = (macros_of if macros else functions_of)(analysis)
    rows = sorted(found.items())
    many = [row for row in rows if row[1] > 1 and not analysis.read_only(row[0].file)]
    rest = [row for row in rows if row not in set(many)]
    rng.shuffle(many)
    for k in range(count):
        roll = rng.random()
        if many and roll < .8:
            yield "macro" if macros else "function", many[k % len(many)]
        elif rest and roll < .95:
            yield "other macro" if macros else "other function", rng.choice(rest)
        else:
            yield "other name", (rng.choice(others), 2)


def order_for(rng, many):
    """An order of so many numbers, in one of twenty none."""
    if rng.random() < .05:
        return rng.choice(["0", "1,", ",1", "2,2", "01", "1, 2", "12345678901234567890", "4,1,2,3", "1"])
    numbers = list(range(1, many + 1)) or [1]
    rng.shuffle(numbers)
    return ",".join(map(str, numbers))


def arranged(toks, lists, order):
    """The tokens with the items of the lists in the new order, lists in items too: those that begin last change first."""
    toks = list(toks)
    for one in sorted(lists, key=lambda lst: lst.open, reverse=True):
        marks = one.separators
        items = [toks[begin + 1:end] for begin, end in zip(marks, marks[1:])]
        between = [toks[mark:mark + 1] for mark in marks]
        new = []
        for k, number in enumerate(order):
            new += between[k] + items[number - 1]
        toks[marks[0]:marks[-1]] = new
    return toks


class Compared:
    """One workspace, with copies for the workers."""

    def __init__(self, program, name, seed, count, macros, scratch):
        self.program, self.name, self.seed, self.count, self.macros = program, name, seed, count, macros
        began = time.time()
        self.analysis = analyse(read_workspace(open(f"{name}/w.cs", "rb").read()), HostFiles())
        self.seconds = time.time() - began
        self.copies = [Copy(".", [name, "musl"], os.path.join(scratch, f"{name}{k}")) for k in range(os.cpu_count())]
        self.tokens = Tokens(self.analysis, self.copies[0].folder)

    def rows(self):
        rng = random.Random(self.seed)
        for kind, (pos, many) in chosen(self.analysis, rng, self.count, self.macros):
            path, line, column = self.analysis.place(pos)
            yield kind, [f"{self.name}/w.cs", "macro" if self.macros else "template", os.fsdecode(path), str(line), str(column), order_for(rng, many)]

    def expected(self, words):
        """What the model answers, and where that is accepted the lists whose items move in units, and the order."""
        arguments = parse([os.fsencode(word) for word in words])[1]
        place, order = (arguments[b"PATH"], arguments[b"LINE"], arguments[b"COL"]), parse_order(os.fsencode(words[-1]))
        try:
            edits = (plan_macro if self.macros else plan_template)(self.analysis, *place, order)
        except Refusal as refusal:
            return (1, b"", b"cscout: refused: " + refusal.words + b"\n", {}), None
        out = b"".join(b"edited %s %d\n" % (edit.path, edit.count) for edit in edits)
        files = {edit.path: edit.data for edit in edits if self.copies[0].old.get(edit.path) != edit.data}
        lists = [] if self.macros else Template(self.analysis, self.analysis.part_named(*place).cls).lists
        return (0, out, b"", files), (lists, order)

    def looked_at(self, moving, order, outcome):
        """Sentences on the units of the edited files, by gcc, whose tokens are not the old ones in the new order; and how many."""
        files = {path: data for path, data in outcome[3].items() if data is not None}
        wrong, looked, olds = [], 0, {unit.number: self.tokens.old(unit) for unit in self.analysis.units}
        self.copies[0].put(files)
        try:
            for unit in self.analysis.units:
                old, alike, opened = olds[unit.number]
                if not alike or not opened & {os.path.normpath(path) for path in files}:
                    continue
                looked += 1
                new = gcc_tokens(unit.unit, self.copies[0].folder)
                if new is None:
                    wrong.append(f"unit {unit.number}: gcc refuses the edited unit")
                else:
                    lists = [one for one in moving if one.unit is unit]
                    wrong += differing(unit.number, new, arranged([tok.text for tok in unit.text.toks], lists, order))
        finally:
            self.copies[0].take_back()
        return wrong, looked

    def run(self):
        rows = list(self.rows())
        began = time.time()
        wanted = [self.expected(words) for _, words in rows]
        model = time.time() - began
        began, free = time.time(), list(self.copies)

        def one(row):
            copy = free.pop()
            try:
                return outcome_of(self.program, row[1], copy)
            finally:
                free.append(copy)
        with ThreadPoolExecutor(len(self.copies)) as pool:
            got = list(pool.map(one, rows))
        seconds = time.time() - began
        differ = accepted = units = 0
        answers, kinds = {}, {}
        for (kind, words), (want, accepts), outcome in zip(rows, wanted, got):
            kinds[kind] = kinds.get(kind, 0) + 1
            answer = "accepted" if accepts else want[2].decode().split(": ")[-1].strip()
            answers[answer] = answers.get(answer, 0) + 1
            accepted += accepts is not None
            wrong = [] if outcome == want else [f"wanted {told(want)}; got {told(outcome)}"]
            if accepts:
                sentences, looked = self.looked_at(*accepts, outcome)
                wrong += sentences
                units += looked
            differ += bool(wrong)
            for sentence in wrong:
                print(f"differs: {' '.join(map(repr, words))} ({kind}): {sentence}", flush=True)
        print(f"{self.name}: {len(rows)} orders ({tally(kinds)}): {tally(answers)}; {units} edited units held against gcc; the model's "
              f"analysis {self.seconds:.1f} s and its plans {model:.1f} s, the program {seconds:.1f} s", flush=True)
        return len(rows), accepted, units, differ


def tally(counts):
    return ", ".join(f"{count} {word}" for word, count in sorted(counts.items(), key=lambda pair: -pair[1]))


def main():
    program, corpus = sys.argv[1:3]
    seed, count, macros = map(int, sys.argv[3:6])
    os.chdir(corpus)
    gc.disable()  # the model makes many small objects and few cycles
    counts = 0, 0, 0, 0
    with tempfile.TemporaryDirectory() as scratch:
        for name in sys.argv[6:]:
            now = Compared(program, name, seed, count, macros, scratch).run()
            counts = tuple(map(sum, zip(counts, now)))
            gc.collect()
            shutil.rmtree(scratch)
            os.makedirs(scratch)
    print("%d orders, %d accepted, %d edited units held against gcc, %d differ" % counts)
    if counts[1] and not counts[2]:
        print("no edited unit was held against gcc")
        return 1
    return 1 if counts[3] else 0


if __name__ == "__main__":
    sys.exit(with_deep_stack(main))
