"""The work of scripts/hold-dry-run."""

import os
import random
import re
import shutil
import sys
import tempfile

sys.path.insert(0, os.path.join(os.path.dirname(os.path.realpath(__file__)), ".."))

import random_workspaces  # noqa: E402
from folders import files_of, ran, state, texts  # noqa: E402

NAME = re.compile(rb"[A-Za-z_]\w*")
FOUND = re.compile(r"(.+):(\d+):(\d+) \d+ (\S+)")
PROGRAMS = ("tinycdb", "tinycdb", "tinycdb", "zlib", "zlib", "lua")
ODD_ORDERS = ("1", "1,2", "2,1,3", "1,1", "x", "4,3,2,1")


class Held:
    """What was held, by kinds, and what differed."""

    def __init__(self, tried, program, room):
        self.tried, self.program, self.room = tried, program, room
        self.accepted, self.count, self.patches, self.differing = {}, {}, 0, 0

    def differs(self, words, said):
        self.differing += 1
        print(f"differs: {' '.join(words)}: {said}", flush=True)

    def copy(self, folder, name):
        to = os.path.join(self.room, name)
        shutil.rmtree(to, ignore_errors=True)
        shutil.copytree(folder, to, symlinks=True)
        return to

    def dry(self, folder, words):
        """What dry-run says, and whether it left the folder as it was."""
        before = state(folder)
        dry = ran([self.tried, self.program, *words], folder)
        after = state(folder)
        if before != after:
            self.differs(words, f"changed: {sorted(it for it in before | after if before.get(it) != after.get(it))}")
        return dry

    def hold(self, folder, words):
        """Holds a dry run against the command."""
        dry, real = self.dry(folder, words), self.copy(folder, "real")
        run = ran([self.program, *words], real)
        if (dry.returncode, dry.stderr, dry.stdout[:len(run.stdout)]) != (run.returncode, run.stderr, run.stdout):
            self.differs(words, f"status {dry.returncode}, {dry.stdout[:200]}, {dry.stderr}, and of the command {run.returncode}, {run.stdout}, "
                                f"{run.stderr}")
            return
        self.count[words[1]] = self.count.get(words[1], 0) + 1
        self.accepted[words[1]] = self.accepted.get(words[1], 0) + (b"edited " in run.stdout)
        self.hold_patch(folder, words, dry.stdout, len(run.stdout), texts(real))

    def hold_patch(self, folder, words, out, said, wanted):
        if len(out) == said:
            if wanted != texts(folder):
                self.differs(words, "no diff, and the command changes files")
            return
        self.patches += 1
        for tool in (["patch", "-p0", "-s", "-f"], ["git", "apply", "-p0"]):
            copy = self.copy(folder, tool[0])
            made = ran(tool, copy, out)
            if made.returncode or texts(copy) != wanted:
                self.differs(words, f"{tool[0]}: status {made.returncode}, {made.stdout + made.stderr}\n{out.decode(errors='replace')}")

    def refuses(self, folder, words, said):
        """Holds that dry-run gives no answer of the command's, and says so with these words."""
        dry = self.dry(folder, words)
        if dry.returncode != 2 or dry.stdout or said not in dry.stderr.decode():
            self.differs(words, f"wanted `{said}`; status {dry.returncode}, {dry.stdout}, {dry.stderr}")
        self.count["refusals of its own"] = self.count.get("refusals of its own", 0) + 1


# ---- random commands

def places(folder, r):
    """Places of names in the files of a folder that are no workspace, drawn."""
    found = []
    for at, _, files in os.walk(folder):
        for it in sorted(files):
            path = os.path.relpath(os.path.join(at, it), folder)
            if path.endswith((".c", ".h")):
                with open(os.path.join(folder, path), "rb") as file:
                    for number, line in enumerate(file.read().split(b"\n"), 1):
                        found += [(path, number, it.start() + 1) for it in NAME.finditer(line)]
    return [r.choice(found) for _ in range(60)] if found else [("a.c", 1, 1)]


def new_name(r):
    return r.choice(["fresh", "longer_than_before", "z9", "q"]) + r.choice(["", str(r.randrange(99))]) if r.random() < .9 else r.choice(["na", "int", "9"])


def batch_text(r, drawn):
    lines = [f"rename {path} {line} {column} {new_name(r)}{' strings' * (r.random() < .1)}"
             for path, line, column in r.sample(drawn, min(len(drawn), r.randrange(1, 7)))]
    if r.random() < .1:
        lines.insert(r.randrange(len(lines) + 1), "undo")
    return "\n".join(lines) + ("\n" if r.random() < .8 else "")


def order(r, folder, place):
    """An order of as many parameters as the parentheses behind a name have; at times another one."""
    path, line, column = place
    with open(os.path.join(folder, path), encoding="latin-1", newline="") as file:
        text = file.read()
    at = sum(len(it) + 1 for it in text.split("\n")[:line - 1]) + column - 1
    behind = re.compile(r"\w+\s*\)?\s*\(((?:[^()]|\([^()]*\))*)\)").match(text, at)
    numbers = list(range(1, 2 + re.sub(r"\([^()]*\)", "", behind[1]).count(","))) if behind else []
    r.shuffle(numbers)
    return ",".join(map(str, numbers)) if numbers and r.random() < .8 else r.choice(ODD_ORDERS)


def command(r, kind, folder, workspace, drawn, callees):
    """The words of a command of a kind; a batch has its file beside the folder."""
    if kind == "batch":
        with open(f"{folder}.batch", "w", encoding="utf-8") as file:
            file.write(batch_text(r, drawn))
        return [workspace, "batch", f"{folder}.batch"]
    path, line, column = place = r.choice(callees if kind == "template" else drawn)
    return [workspace, kind, path, str(line), str(column), order(r, folder, place) if kind == "template" else new_name(r)]


def random_folder(r, folder):
    """A random workspace, with a function of a few parameters and with ends of lines of several kinds; returns its place and the workspace."""
    files = random_workspaces.workspace()
    call = r.choice(["twice(1, 2)", "twice(twice(3, 4), 5)", "sizeof twice(na_, 1)"])
    files["a.c"] += ["static int na_;", "static int twice(int p, char q) { return p - q; }", f"int of_twice(void) {{ return {call}; }}"]
    for path, lines in files.items():
        end = "\n" if path == "w.cs" else r.choice(["\n", "\n", "\r\n"])
        os.makedirs(os.path.join(folder, os.path.dirname(path)), exist_ok=True)
        with open(os.path.join(folder, path), "w", encoding="utf-8", newline="") as file:
            file.write(end.join(lines) + r.choice([end, end, ""]))
    # what else a folder has
    os.makedirs(f"{folder}/.git/objects")
    os.symlink("a.c", f"{folder}/link.c")
    os.symlink("nowhere", f"{folder}/broken")
    os.symlink(".git", f"{folder}/link")
    workspace = r.choice(["w.cs", "./w.cs", f"{folder}.cs"])
    shutil.copy(f"{folder}/w.cs", f"{folder}.cs")
    return [("a.c", len(files["a.c"]) - 1, 12)], workspace


def hold_random(held, r, count):
    random_workspaces.seed(r.random())
    for number in range(count):
        folder = os.path.join(held.room, f"random{number}")
        os.makedirs(folder)
        callees, workspace = random_folder(r, folder)
        kind = ("rename", "template", "batch")[number % 3]
        held.hold(folder, command(r, kind, folder, workspace, [it for it in places(folder, r) if it[0] != "link.c"], callees))
        shutil.rmtree(folder)


def found_names(held, folder, name, query):
    run = ran([held.program, f"{name}/w.cs", "find", query], folder)
    return [(it[1], int(it[2]), int(it[3])) for it in map(FOUND.fullmatch, os.fsdecode(run.stdout).splitlines()) if it]


def hold_corpus(held, r, count, corpus):
    folders = {}
    for number in range(count):
        name = r.choice(PROGRAMS)
        if name not in folders:
            folder = os.path.join(held.room, name)
            shutil.copytree(os.path.join(corpus, name), os.path.join(folder, name))
            os.symlink(os.path.join(corpus, "musl"), os.path.join(folder, "musl"))
            folders[name] = folder, *(found_names(held, folder, name, it) for it in ("!readonly", "function&!readonly"))
        folder, names, functions = folders[name]
        if not names or not functions:
            held.differs([name], "no names are found")
            return
        kind = ("template", "rename", "batch")[number % 3]
        held.hold(folder, command(r, kind, folder, f"{name}/w.cs", names, functions))


# ---- rows

OUT = "has a place that would change: a path from / on"
# Of a row: what it is, the files of a folder `in` and what lies beside it, the words, and what dry-run says where it gives no answer.
ROWS = [
    ("a header above is read", {"in/a.c": '#include "../up/h.h"\nint x = 1 + UP;\n', "up/h.h": "#define UP 2\n", "in/w.cs": "file a.c\nreadonly ../\n"},
     "w.cs rename a.c 2 5 y", None),
    ("one above is read-only", {"in/a.c": '#include "../up/h.h"\nint y = x;\n', "up/h.h": "extern int x;\n", "in/w.cs": "file a.c\nreadonly ../\n"},
     "w.cs rename a.c 2 9 y", None),
    ("one above would change", {"in/a.c": '#include "../up/h.h"\nint y = x;\n', "up/h.h": "extern int x;\n", "in/w.cs": "file a.c\n"},
     "w.cs rename a.c 2 9 z", OUT),
    ("one above would change in a batch", {"in/a.c": '#include "../up/h.h"\nint y = x;\n', "up/h.h": "extern int x;\n", "in/w.cs": "file a.c\n",
                                           "in/b": "rename a.c 2 5 t\nrename a.c 2 9 z\n"}, "w.cs batch b", OUT),
    ("the folder itself from / on", {"in/a.c": "int x;\n", "in/w.cs": "file @/a.c\n"}, "w.cs rename @/a.c 1 5 y", OUT),
    ("a header from / on that does not change", {"in/a.c": '#include "h.h"\nint x = H;\n', "in/i/h.h": "#define H 1\n", "in/w.cs": "ipath @/i\nfile a.c\n"},
     "w.cs rename a.c 2 5 y", None),
    ("behind a link to a folder", {"in/l": "-> ../up", "up/a.c": "int x;\n", "in/w.cs": "file l/a.c\n"}, "w.cs rename l/a.c 1 5 y", OUT),
    ("behind two links", {"in/l": "-> ./m", "in/m/n": "-> ../../up", "up/a.c": "int x;\n", "in/w.cs": "file l/n/a.c\n"}, "w.cs rename l/n/a.c 1 5 y", OUT),
    ("no workspace", {"in/a.c": "int x;\n"}, "w.cs rename a.c 1 5 y", None),
    ("a workspace without a line feed", {"in/a.c": "int x;\n", "in/w.cs": "file a.c"}, "w.cs rename a.c 1 5 y", None),
    ("a bad line", {"in/a.c": "int x;\n", "in/w.cs": "file a.c\nunit b.c\n"}, "w.cs rename a.c 1 5 y", None),
    ("a bad last line", {"in/a.c": "int x;\n", "in/w.cs": "file a.c\n# \\"}, "w.cs rename a.c 1 5 y", None),
    ("a unit that is not accepted", {"in/a.c": "int x\n", "in/w.cs": "file a.c\n"}, "w.cs rename a.c 1 5 y", None),
    ("something in the way", {"in/a.c": "int x;\n", "in/a.c.cscout-new": "", "in/w.cs": "file a.c\n"}, "w.cs rename a.c 1 5 y", None),
    ("a name that is no identifier", {"in/a.c": "int x;\n", "in/w.cs": "file a.c\n"}, "w.cs rename a.c 1 5 9", None),
    ("a command that there is not", {"in/a.c": "int x;\n", "in/w.cs": "file a.c\n"}, "w.cs renam a.c 1 5 y", None),
    ("a bad batch", {"in/a.c": "int x;\n", "in/w.cs": "file a.c\n", "in/b": "x\n"}, "w.cs batch b", None),
    ("no batch", {"in/a.c": "int x;\n", "in/w.cs": "file a.c\n"}, "w.cs batch b", None),
    ("a command that changes nothing", {"in/a.c": "int x;\n", "in/w.cs": "file a.c\n"}, "w.cs class a.c 1 5", None),
    ("a rename and back", {"in/a.c": "int x;\n", "in/w.cs": "file a.c\n", "in/b": "rename a.c 1 5 y\nrename a.c 1 5 x\n"}, "w.cs batch b", None),
    ("a workspace in a folder", {"in/a.c": "int x;\n", "in/d/w.cs": "file a.c\n"}, "d/w.cs rename a.c 1 5 y", None),
    ("two runs of changed lines", {"in/a.c": "int x;\n" + "\n" * 9 + "int y =\nx;\n" + "\n" * 6 + "int z = x;", "in/w.cs": "file a.c\n"},
     "w.cs rename a.c 1 5 longer", None),
    ("no words", {"in/w.cs": ""}, "w.cs", "dry-run PROGRAM WORKSPACE COMMAND.."),
]
ODD_NAMES = ["a b.c", "-a.c", "a\tb.c", "\u00e4.c", "a'b.c", '"a.c', "a\\b.c", "+++ a.c", "d e/f g.c", "a.c,v 1.2", "--- a", "a;b.c", "tab\tat\tthe end.c"]


def hold_row(held, number, row):
    what, files, words, said = row
    room = os.path.join(held.room, f"row{number}")
    folder = os.path.join(room, "in")
    os.makedirs(folder)
    files_of(room, {path: text.replace("@", folder) for path, text in files.items()})
    words = words.replace("@", folder).split(" ")
    if said is not None:
        beside = state(room)
        held.refuses(folder, words, said)
        if beside != state(room):
            held.differs([what], "something beside the folder changed")
    elif "../" in "".join(files.values()):
        hold_in_place(held, room, folder, words)
    else:
        held.hold(folder, words)
    held.count["rows"] = held.count.get("rows", 0) + 1


def hold_in_place(held, room, folder, words):
    """A row with files beside the folder: the command runs where dry-run ran before."""
    dry = held.dry(folder, words)
    run = ran([held.program, *words], folder)
    if (dry.returncode, dry.stderr, dry.stdout[:len(run.stdout)]) != (run.returncode, run.stderr, run.stdout):
        held.differs([room, *words], f"status {dry.returncode}, {dry.stdout}, {dry.stderr}, and of the command {run.returncode}, {run.stdout}, {run.stderr}")


def hold_odd_words(held):
    """Words that are none, and a link to a file, whose place the new file takes."""
    folder = os.path.join(held.room, "odd")
    files_of(folder, {"true.c": "int x;\n", "a.c": "-> true.c", "w.cs": "file a.c\n"})
    before = state(folder)
    for words, status, said in (([], 2, b"dry-run PROGRAM"), (["--help"], 0, b"unified diff"), ([held.program], 2, b"dry-run PROGRAM"),
                                (["./none", "w.cs", "rename", "a.c", "1", "5", "y"], 2, b"./none is no program")):
        run = ran([held.tried, *words], folder)
        if run.returncode != status or said not in run.stdout + run.stderr:
            held.differs(words, f"status {run.returncode}, {run.stdout}, {run.stderr}")
    os.environ["TMPDIR"] = folder
    hold_room = held.tried, held.program, "w.cs", "rename", "true.c", "1", "5", "y"
    run = ran(hold_room, folder)
    del os.environ["TMPDIR"]
    if run.returncode != 1 or run.stderr != b"cscout: refused: no name\n":
        held.differs(["a room in the folder"], f"status {run.returncode}, {run.stdout}, {run.stderr}")
    if set(before) != set(state(folder)):
        held.differs(["a room in the folder"], "something stays")
    before = state(folder)
    dry = held.dry(folder, ["w.cs", "rename", "a.c", "1", "5", "y"])
    if dry.returncode or not dry.stdout.endswith(b"--- a.c\n+++ a.c\n@@ -1,1 +1,1 @@\n-int x;\n+int y;\n"):
        held.differs(["a link"], f"{dry.stdout}, {dry.stderr}")
    if before != state(folder):
        held.differs(["odd words"], "something changed")


def odd_row(name):
    """A row with a file of an odd name."""
    if " " in name:
        return (name, {f"in/{name}": "int x;\nint y = x;\n", "in/a.c": f'#include "{name}"\nint z = x;\n', "in/w.cs": "ipath .\nfile a.c\n"},
                "w.cs rename a.c 2 9 w", None)
    return (name, {f"in/{name}": "int x;\nint y = x;\n", "in/w.cs": f"file {name}\n", "in/b": f"rename {name} 1 5 z\n"}, "w.cs batch b", None)


def tell(what, held, commands=("rename", "template", "batch")):
    """Prints how much was held; the status."""
    print(f"{what}: " + ", ".join(f"{held.count.get(it, 0)} of {it} ({held.accepted.get(it, 0)} accepted)" for it in commands)
          + f", {held.patches} diffs by patch and by git apply, {held.count.get('rows', 0)} rows; {held.differing} differ")
    return 1 if held.differing or not all(held.accepted.get(it) for it in commands) else 0


def main():
    tried, program, corpus, seed, count = *sys.argv[1:4], *map(int, sys.argv[4:])
    r = random.Random(seed)
    room = os.path.realpath(tempfile.mkdtemp())
    try:
        held = Held(tried, program, room)
        for number, row in enumerate(ROWS):
            hold_row(held, number, row)
        for number, name in enumerate(ODD_NAMES):
            hold_row(held, f"name{number}", odd_row(name))
        hold_odd_words(held)
        hold_random(held, r, count - count // 3)
        hold_corpus(held, r, count // 3, corpus)
    finally:
        shutil.rmtree(room)
    return tell("dry runs", held)


if __name__ == "__main__":
    sys.exit(main())
