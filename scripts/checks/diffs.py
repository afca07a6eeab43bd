"""The work of scripts/hold-diff."""

import os
import random
import shutil
import sys
import tempfile

sys.path.insert(0, os.path.dirname(os.path.realpath(__file__)))

import dry_run  # noqa: E402
from folders import files_of, ran, state  # noqa: E402

# What is put is not tried behind `--diff`, so nothing can be in its way.
PASSED_OVER = {"something in the way"}


class Shown(dry_run.Held):
    """Holds the program behind `--diff` against itself."""

    def dry(self, folder, words):
        before = state(folder)
        shown = ran([self.program, "--diff", *words], folder)
        after = state(folder)
        if before != after:
            self.differs(words, f"changed: {sorted(it for it in before | after if before.get(it) != after.get(it))}")
        return shown


def hold_rows(held):
    for number, (what, files, words, said) in enumerate(dry_run.ROWS):
        if what in PASSED_OVER:
            continue
        if said is None:
            dry_run.hold_row(held, number, (what, files, words, said))
            continue
        # dry-run gives no answer there; the program does
        room = os.path.join(held.room, f"row{number}")
        folder = os.path.join(room, "in")
        os.makedirs(folder)
        files_of(room, {path: text.replace("@", folder) for path, text in files.items()})
        beside = state(room)
        held.dry(folder, words.replace("@", folder).split(" "))
        if beside != state(room):
            held.differs([what], "something beside the folder changed")
        dry_run.hold_in_place(held, room, folder, words.replace("@", folder).split(" "))
        held.count["rows"] = held.count.get("rows", 0) + 1
    for number, name in enumerate(dry_run.ODD_NAMES):
        dry_run.hold_row(held, f"name{number}", dry_run.odd_row(name))


# What stands behind a random unit: an include line that brings nothing which is used, and a macro with calls inside calls.
BEHIND = ['#include "none.h"', "#define less_(x, y) ((x) - (y))", "int of_less(void) { return less_(na_, less_(1, less_(2, 3))); }", ""]


def hold_others(held, r, count):
    """Holds new orders of a macro's parameters, and trims, on random workspaces."""
    for number in range(count):
        folder = os.path.join(held.room, f"other{number}")
        os.makedirs(folder)
        _, workspace = dry_run.random_folder(r, folder)
        unit = os.path.join(folder, "a.c")
        with open(unit, encoding="utf-8", newline="") as file:
            text = file.read()
        lines = text + ("" if text.endswith("\n") else "\n") + "\n".join(BEHIND)
        files_of(folder, {"a.c": lines, "none.h": "extern int none_;\n"})
        at = lines.split("\n").index(BEHIND[1]) + 1
        if number % 2:
            words = [workspace, "trim"] + ["stays"] * (r.random() < .5)
        else:
            words = [workspace, "macro", "a.c", str(at), "9", r.choice(["2,1", "2,1", "2,1", "1,2", "1", "x"])]
        held.hold(folder, words)
        shutil.rmtree(folder)


def main():
    program, corpus, seed, count = *sys.argv[1:3], *map(int, sys.argv[3:])
    r = random.Random(seed)
    room = os.path.realpath(tempfile.mkdtemp())
    try:
        held = Shown(None, program, room)
        hold_rows(held)
        dry_run.hold_random(held, r, count - 2 * (count // 3))
        hold_others(held, r, count // 3)
        dry_run.hold_corpus(held, r, count // 3, corpus)
    finally:
        shutil.rmtree(room)
    return dry_run.tell("diffs", held, ("rename", "template", "batch", "macro", "trim"))


if __name__ == "__main__":
    sys.exit(main())
