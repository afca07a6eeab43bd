"""The work of `scripts/random-told why`: random words, and places of random workspaces."""

import os
import random
import sys

from cscout_ref.files import MemFiles
from cscout_ref.reader import with_deep_stack

from held_told import Held
from random_workspaces import seed as seeded, workspace
from told_model import FORMS, explained

EACH = 4
WORDS = ["w.cs", *(it.decode() for it in FORMS), "generate", "a.c", "b.c", "s/x.h", "/a.c", "./a.c", "1", "2", "0", "05", "1000000000", "999999999",
         "1025", "x", "name", "strings", "stays", "string", "--help", "--version", "-", ""]


def is_other(words):
    """Words that are no command over a workspace, or want more than the model tells."""
    return words in ([], ["--help"], ["--version"]) or words[0] == "generate" and words[1:] in (["1"], ["2"]) or words[1:] == ["trim", "stays"]


def random_words(r):
    words = [r.choice(WORDS) for _ in range(r.choice([1, 2, 2, 3, 3, 4, 5, 5, 6, 6, 7, 7, 8]))]
    if len(words) > 1 and r.random() < .8:
        words[:2] = ["w.cs", r.choice(WORDS[1:1 + len(FORMS)])]
    return random_words(r) if is_other(words) else words


def random_place(r, files):
    """A command about some place, where there is one."""
    path = r.choice(sorted(files) + ["none.c"])
    lines = files.get(path, [])
    line = r.randrange(1, len(lines) + 2)
    column = r.randrange(1, len(lines[line - 1] if line <= len(lines) else "") + 3)
    command = r.choice(["class", "rename", "rename", "template", "macro"])
    words = ["w.cs", command, r.choice(["", "", "", "./", "ro/../"]) + path, str(line), str(column)]
    if command != "class":
        words.append(r.choice(["zz", "1x", "zq"] if command == "rename" else ["1", "2,1"]))
    return words


def main():
    program, seed, count, folder = sys.argv[1], int(sys.argv[2]), int(sys.argv[3]), sys.argv[4]
    seeded(seed)
    r, held = random.Random(seed), Held(program, folder)
    while held.count["runs"] < count and not held.is_over():
        files = workspace()
        held_files = {path.encode(): "".join(line + "\n" for line in lines).encode() for path, lines in files.items()}
        for _ in range(EACH):
            words = random_words(r) if r.random() < .45 else random_place(r, files)
            status, out, err = explained([os.fsencode(it) for it in words], MemFiles(held_files))
            # what an edit leaves unseen is held by another run
            held.hold(["--why", *words], held_files, (status, out, err))
            held.count["notes"] += b"note: " in err
    return held.end("status 1", "status 2", "notes")


sys.exit(with_deep_stack(main))
