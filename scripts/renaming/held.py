"""Holds one run of `rename` against the model, and the edited units against `gcc -E`: what both scripts share."""

import os
import re
import shutil
import subprocess

TOKEN = re.compile(
    rb"""L?"(?:[^"\\]|\\.)*"|L?'(?:[^'\\]|\\.)*'"""
    rb"""|\.?[0-9](?:[eEpP][-+]|[0-9A-Za-z_.])*|[A-Za-z_][A-Za-z0-9_]*"""
    rb"""|%:%:|\.\.\.|<<=|>>=|->|\+\+|--|<<|>>|<=|>=|==|!=|&&|\|\||[-*/%+&^|]=|\#\#|<:|:>|<%|%>|%:|[^\s]""", re.X)


class Copy:
    """A copy of folders and files of `source` in `folder`; after a run it tells what changed, and takes it back."""

    def __init__(self, source, names, folder):
        self.folder = folder
        os.makedirs(folder)
        for name in names:
            take = shutil.copytree if os.path.isdir(os.path.join(source, name)) else shutil.copyfile
            take(os.path.join(source, name), os.path.join(folder, name))
        self.old = self._now()

    def _now(self):
        found = {}
        for folder, _, names in os.walk(self.folder):
            for name in names:
                path = os.path.join(folder, name)
                with open(path, "rb") as file:
                    found[os.fsencode(os.path.relpath(path, self.folder))] = file.read()
        return found

    def changes(self):
        """The files that are not as they were, None for one that is gone."""
        now = self._now()
        changed = {path: data for path, data in now.items() if self.old.get(path) != data}
        changed.update((path, None) for path in self.old if path not in now)
        return changed

    def put(self, files):
        for path, data in files.items():
            with open(os.path.join(os.fsencode(self.folder), path), "wb") as file:
                file.write(data)

    def take_back(self):
        for path in self.changes():
            if path in self.old:
                self.put({path: self.old[path]})
            else:
                os.remove(os.path.join(os.fsencode(self.folder), path))


def outcome_of(program, words, copy):
    """What the program says over the copy: its status, output and message, and the files that it changed."""
    ran = subprocess.run([program, *words], cwd=copy.folder, stdout=subprocess.PIPE, stderr=subprocess.PIPE)
    changed = copy.changes()
    copy.take_back()
    return ran.returncode, ran.stdout, ran.stderr, changed


def told(outcome):
    """An outcome in few words: of the files their paths and sizes."""
    status, out, err, files = outcome
    sizes = {os.fsdecode(path): data if data is None else len(data) for path, data in sorted(files.items())}
    return f"status {status}, out {out!r}, err {err!r}, files {sizes}"


def options_of(unit):
    """The options of gcc that say what the settings of a unit say."""
    options = [b"-iquote" + (folder or b".") for folder in unit.qpath] + [b"-I" + (folder or b".") for folder in unit.ipath]
    options += [word for line in unit.includes for word in (b"-include", line[len(b'#include "'):-1])]
    for line in unit.settings:
        if line.startswith(b"#undef "):
            options.append(b"-U" + line[len(b"#undef "):])
        else:
            head = re.match(rb"#define ([A-Za-z0-9_]+(?:\([^)]*\))?)(.*)", line, re.S)
            options.append(b"-D" + head[1] + b"=" + head[2].strip())
    return options


def gcc(unit, folder, *more):
    """What `gcc -E` prints for a unit, None where it refuses it."""
    asked = ["gcc", "-std=c99", "-undef", "-nostdinc", "-w", "-E", *more, *options_of(unit), unit.path]
    ran = subprocess.run(asked, cwd=folder, stdout=subprocess.PIPE, stderr=subprocess.DEVNULL,
                         env={**os.environ, "SOURCE_DATE_EPOCH": "0"})
    return ran.stdout if ran.returncode == 0 else None


def gcc_tokens(unit, folder):
    """The tokens of a unit by `gcc -E -P`, without the lines of pragmas."""
    text = gcc(unit, folder, "-P")
    return text and TOKEN.findall(re.sub(rb"(?m)^#pragma.*$", b"", text)) if text is not None else None


def gcc_files(unit, folder):
    """The paths that gcc opens for a unit."""
    rule = gcc(unit, folder, "-M") or b""
    return {os.path.normpath(word) for word in rule.replace(b"\\\n", b" ").split()[1:]}


class Tokens:
    """The tokens of all units by gcc before a rename, each unit asked once."""

    def __init__(self, analysis, folder):
        self.analysis = analysis
        self.folder = folder
        self._old = {}

    def old(self, unit):
        if unit.number not in self._old:
            toks = gcc_tokens(unit.unit, self.folder)
            alike = toks == [tok.text for tok in unit.text.toks]
            self._old[unit.number] = toks, alike, gcc_files(unit.unit, self.folder)
        return self._old[unit.number]

    def respelled(self, renaming, paths):
        """Sentences on the units of the edited files in the folder, whose new tokens by gcc are not the old ones with
        exactly the class respelled; and how many units were looked at."""
        wrong, looked = [], 0
        for unit in self.analysis.units:
            old, alike, files = self.old(unit)
            if old is None or not files & {os.path.normpath(path) for path in paths}:
                continue
            looked += 1
            new = gcc_tokens(unit.unit, self.folder)
            if new is None:
                wrong.append(f"unit {unit.number}: gcc refuses the edited unit")
            elif alike:
                wrong += differing(unit.number, new, expected(unit, renaming))
            else:
                wrong += odd_pairs(unit.number, old, new, renaming)
        return wrong, looked


def expected(unit, renaming):
    """The spellings of the unit's tokens, the members among them respelled."""
    made = {}
    for tok in unit.text.toks:
        if id(tok.origins) not in made:
            made[id(tok.origins)] = renaming.renamed(tok) if tok.origins else tok.text
    return [made[id(tok.origins)] for tok in unit.text.toks]


def differing(number, new, wanted):
    if new == wanted:
        return []
    k = next((k for k, pair in enumerate(zip(new, wanted)) if pair[0] != pair[1]), min(len(new), len(wanted)))
    return [f"unit {number}: token {k} of gcc is {new[k:k + 1]}, {wanted[k:k + 1]} of the old one"]


def odd_pairs(number, old, new, renaming):
    """Where gcc's old tokens are not the model's: each differing pair must be a changed spelling of the class."""
    toks = [part.tok for part in renaming.members]
    toks += [tok for unit in renaming.analysis.units for tok in unit.text.pasted + unit.text.toks if renaming.held(tok)]
    pairs = {(tok.text, renaming.renamed(tok)) for tok in toks}
    if len(old) != len(new):
        return [f"unit {number}: gcc gives {len(new)} tokens, before {len(old)}"]
    return [f"unit {number}: {a} became {b}" for a, b in zip(old, new) if a != b and (a, b) not in pairs][:1]
