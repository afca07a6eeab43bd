"""The work of scripts/random-renames."""

import os
import random
import shutil
import sys
import tempfile

from cscout_ref.analysis import analyse
from cscout_ref.cli import run
from cscout_ref.files import MemFiles
from cscout_ref.model import RESERVED, WorkspaceFault
from cscout_ref.reader import with_deep_stack
from cscout_ref.rename import Renaming
from cscout_ref.workspace import read_workspace

from held import Copy, Tokens, outcome_of, told
from made import Maker, new_name


def wanted(words, files):
    """The model's outcome over files in memory."""
    held = MemFiles(files)
    status, out, err = run([os.fsencode(word) for word in words], held)
    return status, out, err, {path: data for path, data in held.contents.items() if files.get(path) != data}


def written(files, folder):
    os.makedirs(os.path.join(folder, "d"))
    for path, data in files.items():
        with open(os.path.join(os.fsencode(folder), path), "wb") as file:
            file.write(data)


class Runner:
    """Runs the program over workspaces, each in a folder of its own."""

    def __init__(self, program, scratch):
        self.program, self.scratch, self.count = program, scratch, 0

    def copy(self, files):
        self.count += 1
        folder = os.path.join(self.scratch, str(self.count))
        written(files, folder)
        return Copy(folder, sorted(os.listdir(folder)), folder + "c")

    def got(self, words, files):
        copy = self.copy(files)
        outcome = outcome_of(self.program, words, copy)
        self.drop(copy)
        return outcome

    def drop(self, copy):
        shutil.rmtree(copy.folder)
        shutil.rmtree(copy.folder[:-1])

    def shrunk(self, words, files):
        """The files with as many lines emptied as leave a difference of the same two statuses."""
        def differs(tried):
            want, got = wanted(words, tried), self.got(words, tried)
            return want != got and (want[0], got[0]) == statuses
        statuses = wanted(words, files)[0], self.got(words, files)[0]
        again = True
        while again:
            again = False
            for path in sorted(files):
                lines = files[path].split(b"\n")
                for k, line in enumerate(lines):
                    if line:
                        tried = {**files, path: b"\n".join(lines[:k] + [b""] + lines[k + 1:])}
                        if differs(tried):
                            files, lines, again = tried, tried[path].split(b"\n"), True
        return files


def analysis_of(files):
    try:
        return analyse(read_workspace(files[b"w.cs"]), MemFiles(files))
    except WorkspaceFault:
        return None


def places_of(analysis, r, count):
    """Places of tokens, most of them of names, by any of their characters; a few that name nothing."""
    toks = [t for t in analysis.file_tokens() if t.origins and t.origins[0].file != 0]
    names = [t for t in toks if t.kind in ("Ident", "Number") and t.text not in RESERVED
             and not analysis.cache.paths[t.origins[0].file].startswith(b"<")]
    names += 19 * [t for t in names if t.text == b"w"]
    for _ in range(count):
        tok = r.choice(names if r.random() < .92 and names else toks)
        path, line, column = analysis.place(r.choice(tok.origins))
        yield tok.text.decode(), (os.fsdecode(path), line, column)


def shown_places(analysis, r, count):
    """Places of names that macros make strings of."""
    shown = [t for unit in analysis.units for t in unit.text.stringized if t.kind == "Ident" and t.origins[0] in analysis.nameable]
    for _ in range(count if shown else 0):
        tok = r.choice(shown)
        path, line, column = analysis.place(r.choice(tok.origins))
        yield tok.text.decode(), (os.fsdecode(path), line, column)


def shown_rows(analysis, r, count):
    """Renames of these, half of them to new names."""
    for old, (path, line, column) in shown_places(analysis, r, count):
        name = r.choice(["n", "new_name", "z9", "q_q"]) if r.random() < .5 else new_name(r, old)
        yield ["w.cs", "rename", path, str(line), str(column), name]


def rows_of(analysis, r, count, strings=False):
    """Renames of these places; with `strings` half of them of names that macros make strings of, and seven of eight may change these."""
    if analysis is None:
        return [["w.cs", "rename", "a.c", "1", "1", "n"]]
    rows = list(shown_rows(analysis, r, count // 2)) if strings else []
    for old, (path, line, column) in places_of(analysis, r, count - len(rows)):
        if r.random() < .03:
            path, line, column = r.choice([("no.c", line, column), ("./" + path, line, column), (path, line, column + 300),
                                           (path, line + 900, column), (path + "/", line, column)])
        rows.append(["w.cs", "rename", path, str(line), str(column), new_name(r, old)])
    return [words + ["strings"] if strings and r.random() < .875 else words for words in rows]


class Totals:
    def __init__(self):
        self.renames = self.accepted = self.differ = self.units = self.strings = 0
        self.answers = {}


def changed_strings(analysis, renaming):
    """How many strings that `#` made get another spelling."""
    return sum(tok.source is not None and tok.kind == "Str" and renaming.renamed(tok) != tok.text for unit in analysis.units for tok in unit.text.toks)


def one_workspace(runner, r, each, strings, totals):
    files = Maker(r, strings).files()
    analysis = analysis_of(files)
    copy = runner.copy(files)
    for words in rows_of(analysis, r, each, strings):
        want, got = wanted(words, files), outcome_of(runner.program, words, copy)
        totals.renames += 1
        answer = "accepted" if want[0] == 0 else want[2].decode().split(": ")[-1].strip()
        totals.answers[answer] = totals.answers.get(answer, 0) + 1
        wrong = [] if want == got else [f"wanted {told(want)}; got {told(got)}"]
        if want[0] == 0:
            totals.accepted += 1
            sentences, looked = by_gcc(analysis, words, got, copy, totals)
            totals.units += looked
            wrong += sentences
        if wrong:
            totals.differ += 1
            report(runner, words, files, want != got, wrong)
    runner.drop(copy)


def by_gcc(analysis, words, got, copy, totals):
    """The units of the edited files, by gcc; `./PATH` is the path."""
    part = analysis.part_named(os.fsencode(os.path.normpath(words[2])), int(words[3]), int(words[4]))
    tokens = Tokens(analysis, copy.folder)
    for unit in analysis.units:
        tokens.old(unit)
    files = {path: data for path, data in got[3].items() if data is not None}
    copy.put(files)
    renaming = Renaming(analysis, part.cls, os.fsencode(words[5]))
    totals.strings += changed_strings(analysis, renaming)
    try:
        return tokens.respelled(renaming, files)
    finally:
        copy.take_back()


def report(runner, words, files, by_model, wrong):
    print("differs: " + " ".join(map(repr, words)))
    for sentence in wrong:
        print("  " + sentence)
    for path, data in sorted((runner.shrunk(words, files) if by_model else files).items()):
        print(f"  {os.fsdecode(path)}: {data!r}", flush=True)


def main():
    program = sys.argv[1]
    seed, count, each = map(int, sys.argv[2:5])
    strings = sys.argv[5:] == ["strings"]
    r, totals = random.Random(seed), Totals()
    with tempfile.TemporaryDirectory() as scratch:
        runner = Runner(program, scratch)
        for _ in range(count):
            one_workspace(runner, r, each, strings, totals)
            if totals.differ > 20:
                print("more than 20 differ: no more are tried")
                break
    print(", ".join(f"{n} {word}" for word, n in sorted(totals.answers.items(), key=lambda pair: -pair[1])))
    print(f"{totals.units} edited units held against gcc" + (f", {totals.strings} strings that changed in them" if strings else ""))
    print(f"{totals.renames} renames, {totals.accepted} accepted, {totals.differ} differ")
    if totals.accepted and not totals.units:
        print("no edited unit was held against gcc")
        return 1
    return 1 if totals.differ or not totals.renames else 0


if __name__ == "__main__":
    sys.exit(with_deep_stack(main))
