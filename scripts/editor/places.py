"""Where something stands: cscout's paths, lines from 1 and columns of bytes from 1, and an editor's URIs, lines from 0 and columns
from 0 of bytes or of 16-bit units."""

import os
import re
import urllib.parse

from messages import INVALID_PARAMS, Fault

WORD = re.compile(rb"[A-Za-z0-9_]+")
NAMED_LINE = re.compile(r"^[ \t\r]*(file|include|[iq]path)[ \t\r]+(.+?)[ \t\r]*$", re.M)


class Paths:
    """URIs and paths of the workspace, which are relative to the folder `top`."""

    def __init__(self, workspace):
        self.top = os.getcwd()
        # The folder as the shell names it, through links to it.
        said = os.environ.get("PWD", "")
        self.tops = [said] if os.path.isabs(said) and os.path.realpath(said) == self.top else []
        self.tops.append(self.top)
        self.named, self.known = named_folders(workspace), {}

    def path_of(self, uri):
        """The path that the workspace has for a file."""
        try:
            found = urllib.parse.urlsplit(uri)
        except ValueError as fault:
            raise Fault(INVALID_PARAMS, f"{uri} is no URI") from fault
        if found.scheme != "file" or found.netloc not in ("", "localhost") or not found.path.startswith("/"):
            raise Fault(INVALID_PARAMS, f"{uri} names no file")
        at = os.path.normpath(os.fsdecode(urllib.parse.unquote_to_bytes(found.path)))
        path = self._spelled(at)
        self.known[path] = uri
        return path

    def _spelled(self, at):
        """Relative to the folder, or from / on, as a line of the workspace spells the folder that has it."""
        true = os.path.join(os.path.realpath(os.path.dirname(at)), os.path.basename(at))
        below = [os.path.relpath(it, top) for it in (at, true) for top in self.tops if it.startswith(top.rstrip("/") + "/")]
        named = [it for it in [*below, os.path.relpath(true, self.top), at, true] if any(is_below(it, folder) for folder in self.named)]
        return (named + below + [at])[0]

    def uri_of(self, path):
        """The URI by which the editor named the file, where it did."""
        at = os.path.normpath(os.path.join(self.tops[0], path))
        return self.known.get(path) or "file://" + urllib.parse.quote(os.fsencode(at))


def is_below(path, folder):
    if folder == ".":
        return not path.startswith(("/", "../"))
    return path.startswith(folder.rstrip("/") + "/")


def named_folders(workspace):
    """The folders that lines of the workspace name, or have files in."""
    try:
        with open(workspace, encoding="utf-8", errors="surrogateescape") as file:
            text = file.read()
    except OSError:
        return set()
    return {os.path.normpath(path if kind.endswith("path") else os.path.dirname(path) or ".") for kind, path in NAMED_LINE.findall(text)}


def letters_of(line):
    """The characters of a line, one for each byte that is no UTF-8, each with its 16-bit units and its bytes."""
    for it in line.decode("utf-8", "surrogateescape"):
        yield 2 if ord(it) > 0xFFFF else 1, len(it.encode("utf-8", "surrogateescape"))


class Columns:
    """Columns of lines of the files, as they are on the disk."""

    def __init__(self, by_bytes):
        self.by_bytes, self.kept = by_bytes, {}

    def line(self, path, number):
        """A line of a file, without its line feed; an empty one behind the last."""
        if path not in self.kept:
            with open(path, "rb") as file:
                self.kept[path] = file.read().split(b"\n")
        lines = self.kept[path]
        return lines[number] if number < len(lines) else b""

    def byte(self, path, number, character):
        """How many bytes stand before a column of the editor."""
        line = self.line(path, number)
        if self.by_bytes:
            return min(character, len(line))
        byte = 0
        for units, length in letters_of(line):
            character -= units
            if character < 0:
                break
            byte += length
        return byte

    def position(self, path, number, byte):
        before = self.line(path, number)[:byte]
        return {"line": number, "character": len(before) if self.by_bytes else sum(units for units, _ in letters_of(before))}

    def span(self, path, number, first, end):
        return {"start": self.position(path, number, first), "end": self.position(path, number, end)}

    def name_at(self, path, number, character):
        """The byte of a name that the cursor is on, or directly behind, as editors ask."""
        byte = self.byte(path, number, character)
        line = self.line(path, number)
        on = WORD.match(line[byte:byte + 1])
        return byte - 1 if not on and byte and WORD.match(line[byte - 1:byte]) else byte
