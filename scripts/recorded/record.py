"""Recorded builds: the entries of a compile_commands.json."""

import fnmatch
import json
import os
import re
import shlex

from options import Odd, Options, compiler_and_rest, compiling, language_of

OBJECTS = (".o", ".obj", ".lo", ".os", ".pico", ".bc", ".s", ".i", ".d", ".gch")
LIBRARY = re.compile(r"\.(a|la|so(\.[0-9.]+)?|dylib|dll|lib)$")
# Options by which a command makes no program, whatever the file is called.
NO_PROGRAM = {"-shared", "--shared", "-r", "--relocatable", "-dynamiclib", "-bundle"}


class Refused(Exception):
    """The record as a whole is not taken."""


class Entry:
    """A C file that is compiled, and how: `path` as the workspace names it, `file` where it is."""

    def __init__(self, number, directory, path, file, compiler, options, words):
        self.number, self.directory, self.path, self.file = number, directory, path, file
        self.compiler, self.options, self.words = compiler, options, words

    def compiling(self, extra):
        """The command that does with the file alone what `extra` says, under the recorded options."""
        words, said = compiling(self.words, self.directory, self.file)
        compiler = os.path.join(self.directory, self.compiler) if "/" in self.compiler else self.compiler
        return [compiler, *words, *extra, said]


def real(path):
    """The path with the links of its folder followed, and not a link that it is itself."""
    path = os.path.normpath(path)
    return os.path.join(os.path.realpath(os.path.dirname(path)), os.path.basename(path))


class Root:
    """The folder that paths of the workspace are relative to."""

    def __init__(self, path):
        self.path = os.path.realpath(path)

    def below(self, path):
        """The path as the workspace names it: relative where it stands below the root."""
        if path == self.path:
            return ""
        inside = self.path.rstrip("/") + "/"
        return path[len(inside):] if path.startswith(inside) else path

    def folder(self, path):
        return self.below(os.path.realpath(path))

    def file(self, path):
        return self.below(real(path))


def read(path):
    """The list of the record."""
    try:
        with open(path, "rb") as file:
            text = file.read().decode("utf-8")
        record = json.loads(text)
    except OSError as fault:
        raise Refused(f"{path}: {fault.strerror}") from None
    except UnicodeDecodeError:
        raise Refused(f"{path}: not UTF-8") from None
    except ValueError as fault:
        raise Refused(f"{path}: not JSON: {fault}") from None
    except RecursionError:
        raise Refused(f"{path}: not a list of entries") from None
    if not isinstance(record, list):
        raise Refused(f"{path}: not a list of entries")
    if not record:
        raise Refused(f"{path}: no entries")
    return record


def _text(entry, name, wanted=True):
    value = entry.get(name)
    if value is None and not wanted:
        return None
    if not isinstance(value, str) or not value:
        raise Odd(f"has no {name}")
    if "\0" in value:
        raise Odd(f"has a NUL in its {name}")
    return value


def _words(entry):
    """The words of the command, as `arguments` has them or as a shell splits `command`."""
    words = entry.get("arguments")
    if words is not None:
        if not isinstance(words, list) or not words or not all(isinstance(word, str) and "\0" not in word for word in words):
            raise Odd("has arguments that are no list of words")
        return words
    if entry.get("command") is None:
        raise Odd("has neither arguments nor command")
    try:
        words = shlex.split(_text(entry, "command"))
    except ValueError as fault:
        raise Odd(f"has a command that no shell splits: {fault}") from None
    if not words:
        raise Odd("has a command without words")
    return words


def _wanted(root, path, without, found):
    name = root.file(path)
    for pattern in without:
        if fnmatch.fnmatchcase(name, pattern):
            found.append((name, f"left out: --without {pattern}"))
            return None
    return name


def _workspace_path(name):
    """The name, where a `file` line can say it."""
    if not name or name.startswith("<") or name != name.strip(" \t\r") or name.endswith("\\") or "\n" in name:
        raise Odd(f"{name!r} is a path that a workspace line cannot say")
    try:
        name.encode("utf-8")
    except UnicodeEncodeError:
        raise Odd(f"{name!r} is a path that is not UTF-8") from None
    return name


def _entry(number, entry, root, without, left):
    """The entry, or None where it is left out; Odd where it is broken."""
    if not isinstance(entry, dict):
        raise Odd("is no object")
    directory = os.path.normpath(_text(entry, "directory"))
    path = os.path.join(directory, _text(entry, "file"))
    name = _wanted(root, path, without, left)
    if name is None:
        return None
    if not os.path.isdir(directory):
        raise Odd(f"has a directory that is not there: {directory}")
    compiler, words = compiler_and_rest(_words(entry))
    if os.path.basename(compiler).rstrip("0123456789.-").endswith("++"):
        left.append((name, "left out: C++"))
        return None
    options = Options(words, directory)
    here = [said for word, said in options.inputs if os.path.realpath(os.path.join(directory, word)) == os.path.realpath(path)]
    if not here:
        raise Odd(f"does not name its file {name} in its command")
    other = language_of(path, here[0])
    if other is not None:
        left.append((name, f"left out: {other}"))
        return None
    if not os.path.isfile(path):
        raise Odd(f"has a file that is not there: {name} (`--without '{name}'` leaves it out)")
    if os.path.islink(path):
        left.append((name, f"a link to {root.below(os.path.realpath(path))}: they are two files to cscout"))
    for word, _ in options.inputs:
        at = os.path.join(directory, word)
        if not os.path.exists(at) and not word.endswith(OBJECTS) and not LIBRARY.search(word):
            left.append((name, f"{word} is no option and no file, and is passed over"))
    output = _text(entry, "output", wanted=False)
    if output is not None:
        options.output = os.path.join(directory, output)
    elif options.output is not None:
        options.output = os.path.join(directory, options.output)
    return Entry(number, directory, _workspace_path(name), os.path.realpath(path), compiler, options, words)


def entries(record, root, without):
    """The entries that are C units, what is said of those left out, and what stands against the record."""
    taken, left, faults = [], [], []
    for number, entry in enumerate(record, 1):
        try:
            one = _entry(number, entry, root, without, left)
            if one is not None:
                taken.append(one)
        except Odd as odd:
            faults.append(f"entry {number} {odd}" if str(odd).startswith(("has ", "is ", "does ")) else f"entry {number}: {odd}")
    return taken, left, faults


def _made(entry):
    """The file that the entry makes, and whether it is an object."""
    output = entry.options.output
    if output is None:
        plain = os.path.splitext(os.path.basename(entry.path))[0] + ".o"
        output = os.path.join(entry.directory, "a.out" if entry.options.links else plain)
    return os.path.realpath(output), output.endswith(OBJECTS)


def programs(taken):
    """For each entry the programs that it is linked into, as far as the record tells that of every entry: an entry is
    compiled and linked in one command, or its object stands in such a command. Where it does not, None for all, and
    where a library is made or taken: what is linked with it the record does not tell."""
    objects, linked = {}, {}
    for entry in taken:
        made, is_object = _made(entry)
        if is_object:
            objects.setdefault(made, []).append(entry)
    for entry in taken:
        made, is_object = _made(entry)
        if is_object:
            continue
        name = os.path.basename(made)
        if LIBRARY.search(name) or NO_PROGRAM.intersection(entry.options.asking):
            return None
        linked.setdefault(entry.number, []).append(name)
        for word, _ in entry.options.inputs:
            at = os.path.realpath(os.path.join(entry.directory, word))
            if LIBRARY.search(word) or (word.endswith(OBJECTS) and at not in objects):
                return None
            for one in objects.get(at, []):
                if name not in linked.setdefault(one.number, []):
                    linked[one.number].append(name)
    return linked if len(linked) == len(taken) else None
