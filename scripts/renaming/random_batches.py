"""The work of scripts/random-batches."""

import os
import random
import sys
import tempfile

from cscout_ref.reader import with_deep_stack

from held import outcome_of, told
from made import Maker, new_name
from random_workspaces import Runner, analysis_of, places_of, shown_places, wanted

BAD_LINES = ["", "rename a.c 1 1", "rename a.c 0 1 n", "rename  a.c 1 1 n", "rename a.c 1 1 n ", "rename a.c 1 1 n m", "undo"]


class Lines:
    """Makes the lines of a batch, each over the files as the model leaves them behind the lines before."""

    def __init__(self, r, files, strings):
        self.r, self.files, self.strings = r, dict(files), strings
        self.first = self.now = analysis_of(files)
        self.given_up, self.back, self.accepted = [], [], 0

    def place(self):
        """A name and its place: mostly one of now, at times one of the beginning, or what an earlier line renamed."""
        if self.now is None:
            return "n", ("a.c", 1, 1)
        if self.back and self.r.random() < .2:
            return self.r.choice(self.back)
        if self.strings and self.r.random() < .5:
            for place in shown_places(self.now, self.r, 1):
                return place
        analysis = self.now if self.r.random() < .9 else self.first
        return next(places_of(analysis, self.r, 1), ("n", ("a.c", 1, 1)))

    def next(self):
        old, (path, line, column) = self.place()
        name = self.r.choice(self.given_up) if self.given_up and self.r.random() < .3 else new_name(self.r, old)
        while not name or " " in name:
            name = new_name(self.r, old)
        words = ["rename", path, str(line), str(column), name]
        if self.strings and self.r.random() < .7:
            words.append("strings")
        status, _, _, changed = wanted(["w.cs"] + words, self.files)
        if status == 0:
            self.accepted += 1
            self.given_up.append(old)
            self.back.append((name, (path, line, column)))
            self.files.update(changed)
            self.now = analysis_of(self.files)
        return " ".join(words)


def batch_file(r, lines):
    """The lines as a file: ended by line feeds, at times behind carriage returns; the last one may lack its own."""
    end = r.choice(["\n", "\n", "\r\n"])
    text = end.join(lines) + (end if r.random() < .8 else "")
    return text.encode()


class Totals:
    def __init__(self):
        self.batches = self.lines = self.accepted = self.bad = self.differ = 0


def one_batch(runner, r, most, strings, totals):
    files = Maker(r, strings).files()
    made = Lines(r, files, strings)
    lines = [made.next() for _ in range(r.randint(1, most))]
    if r.random() < .05:
        lines.insert(r.randrange(len(lines) + 1), r.choice(BAD_LINES))
        totals.bad += 1
    files[b"batch"] = batch_file(r, lines)
    words = ["w.cs", "batch", "batch"]
    want = wanted(words, files)
    copy = runner.copy(files)
    got = outcome_of(runner.program, words, copy)
    runner.drop(copy)
    totals.batches += 1
    totals.lines += len(lines)
    totals.accepted += made.accepted
    if want != got:
        totals.differ += 1
        print(f"differs: wanted {told(want)}; got {told(got)}")
        for path, data in sorted(files.items()):
            print(f"  {os.fsdecode(path)}: {data!r}")


def main():
    program, seed, count, most = sys.argv[1], int(sys.argv[2]), int(sys.argv[3]), int(sys.argv[4])
    strings = sys.argv[5:] == ["strings"]
    r, totals = random.Random(seed), Totals()
    with tempfile.TemporaryDirectory() as scratch:
        runner = Runner(program, scratch)
        for _ in range(count):
            one_batch(runner, r, most, strings, totals)
            if totals.differ > 20:
                print("more than 20 differ: no more are tried")
                break
    print(f"{totals.batches} batches of {totals.lines} lines, {totals.accepted} of them accepted, {totals.bad} with a bad line, {totals.differ} differ")
    return 1 if totals.differ or not totals.accepted else 0


if __name__ == "__main__":
    sys.exit(with_deep_stack(main))
