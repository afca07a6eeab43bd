"""The requests of an editor, answered by cscout's command line."""

import os
import re
import subprocess

from edits import differing
from messages import (INVALID_REQUEST, METHOD_NOT_FOUND, NOT_INITIALIZED, REQUEST_FAILED, Fault, field)
from places import Columns, Paths
from trial import Refused, trial


MEMBER = re.compile(r"(.+):(\d+):(\d+) (\S+)")


class Document:
    """A file that is open in the editor, and whether the disk has what the editor has."""

    def __init__(self, uri, version):
        self.uri, self.version, self.saved = uri, version, True


class Server:
    """What lives from `initialize` to `exit`."""

    def __init__(self, program, workspace):
        self.program, self.workspace = program, workspace
        self.paths, self.documents = Paths(workspace), {}
        self.begun = self.ended = self.by_bytes = self.by_versions = False
        self.requests = {
            "initialize": self.initialize, "shutdown": self.shutdown, "textDocument/prepareRename": self.prepare_rename,
            "textDocument/rename": self.rename, "textDocument/references": self.references}
        self.notes = {
            "textDocument/didOpen": self.opened, "textDocument/didChange": self.changed, "textDocument/didSave": self.saved,
            "textDocument/didClose": self.closed}

    def answer(self, method, words):
        if method not in self.requests:
            raise Fault(METHOD_NOT_FOUND, f"{method} is not answered")
        if self.ended:
            raise Fault(INVALID_REQUEST, "behind shutdown nothing is answered")
        if not self.begun and method != "initialize":
            raise Fault(NOT_INITIALIZED, "initialize comes first")
        try:
            return self.requests[method](words)
        except (Refused, OSError, ValueError) as fault:
            raise Fault(REQUEST_FAILED, str(fault)) from fault

    def note(self, method, words):
        if method in self.notes and self.begun:
            self.notes[method](words)

    # ---- the beginning and the end

    def initialize(self, words):
        if self.begun:
            raise Fault(INVALID_REQUEST, "initialize comes once")
        self.begun = True
        encodings = below(words, "capabilities", "general", "positionEncodings")
        self.by_bytes = isinstance(encodings, list) and "utf-8" in encodings
        self.by_versions = below(words, "capabilities", "workspace", "workspaceEdit", "documentChanges") is True
        return {"serverInfo": {"name": "cscout"}, "capabilities": {
            "positionEncoding": "utf-8" if self.by_bytes else "utf-16",
            "textDocumentSync": {"openClose": True, "change": 1, "save": {"includeText": False}},
            "referencesProvider": True, "renameProvider": {"prepareProvider": True}}}

    def shutdown(self, _):
        self.ended = True

    # ---- what the editor has open

    def opened(self, words):
        uri = field(words, "textDocument", "uri", kind=str)
        path = self.paths.path_of(uri)
        self.documents[path] = Document(uri, below(words, "textDocument", "version"))
        self._compare(path, field(words, "textDocument", "text", kind=str))

    def changed(self, words):
        path = self.paths.path_of(field(words, "textDocument", "uri", kind=str))
        document = self.documents.setdefault(path, Document(self.paths.known[path], None))
        document.version = below(words, "textDocument", "version")
        document.saved = False
        changes = field(words, "contentChanges", kind=list)
        if changes and isinstance(changes[-1], dict) and "range" not in changes[-1]:
            self._compare(path, field(changes[-1], "text", kind=str))

    def _compare(self, path, text):
        """A text that is that of the disk counts as saved: an edit that is undone is none. Bytes that are no UTF-8 no editor sends."""
        try:
            with open(path, "rb") as file:
                disk = file.read()
            disk.decode()
        except UnicodeDecodeError:
            return
        except OSError:
            disk = None
        self.documents[path].saved = disk == text.encode("utf-8", "surrogatepass")

    def saved(self, words):
        document = self.documents.get(self.paths.path_of(field(words, "textDocument", "uri", kind=str)))
        if document:
            document.saved = True

    def closed(self, words):
        self.documents.pop(self.paths.path_of(field(words, "textDocument", "uri", kind=str)), None)

    def all_saved(self):
        """cscout reads the disk, so what it says of other texts would be said of other places."""
        unsaved = sorted(path for path, document in self.documents.items() if not document.saved)
        if unsaved:
            raise Refused(f"not saved: {', '.join(unsaved)}; cscout reads the files, so save first")

    # ---- names

    def place(self, words):
        self.all_saved()
        path = self.paths.path_of(field(words, "textDocument", "uri", kind=str))
        line, character = (field(words, "position", it, kind=int) for it in ("line", "character"))
        columns = Columns(self.by_bytes)
        return columns, path, line, columns.name_at(path, line, character)

    def members(self, path, line, byte):
        """The places of the name at a place: path, line and byte, both from 0, and what stands there."""
        run = subprocess.run([self.program, self.workspace, "class", path, str(line + 1), str(byte + 1)], stdin=subprocess.DEVNULL,
                             capture_output=True, check=False)
        if run.returncode:
            raise Refused(message_of(run.returncode, run.stderr))
        for it in os.fsdecode(run.stdout).removesuffix("\n").split("\n"):
            found = MEMBER.fullmatch(it)
            if not found:
                raise Refused(f"an answer that is not cscout's: {it}")
            yield found[1], int(found[2]) - 1, int(found[3]) - 1, found[4]

    def references(self, words):
        columns, *place = self.place(words)
        return [{"uri": self.paths.uri_of(path), "range": columns.span(path, line, byte, byte + len(text))}
                for path, line, byte, text in self.members(*place) if not path.startswith("<")]

    def prepare_rename(self, words):
        columns, path, line, byte = self.place(words)
        for file, number, first, text in self.members(path, line, byte):
            if (file, number) == (path, line) and first <= byte < first + len(text):
                return {"range": columns.span(path, line, first, first + len(text)), "placeholder": text}
        raise Refused("a line ends inside this name: nothing is offered in its place, and rename takes it")

    def rename(self, words):
        columns, path, line, byte = self.place(words)
        name = field(words, "newName", kind=str)
        found = trial(self.program, self.workspace, ["rename", path, str(line + 1), str(byte + 1), name], subprocess.DEVNULL)
        if found.status:
            raise Refused(message_of(found.status, found.err))
        changes = {os.fsdecode(it): self.text_edits(columns, os.fsdecode(it), *texts) for it, texts in found.edits.items()}
        if not self.by_versions:
            return {"changes": {self.paths.uri_of(it): edits for it, edits in changes.items()}}
        return {"documentChanges": [{"textDocument": {"uri": self.paths.uri_of(it), "version": self.version_of(it)}, "edits": edits}
                                    for it, edits in changes.items()]}

    def version_of(self, path):
        return self.documents[path].version if path in self.documents else None

    @staticmethod
    def text_edits(columns, path, old, new):
        edits = differing(old, new)
        try:
            if edits is None:
                lines = old.split(b"\n")
                return [{"range": columns.span(path, 0, 0, 0) | {"end": columns.position(path, len(lines) - 1, len(lines[-1]))},
                         "newText": new.decode()}]
            return [{"range": columns.span(path, line, first, end), "newText": text.decode()} for line, first, end, text in edits]
        except UnicodeDecodeError as fault:
            raise Refused(f"{path} is no UTF-8 where it would change") from fault


def below(found, *path):
    """What stands at a path of names, or None."""
    for name in path:
        found = found.get(name) if isinstance(found, dict) else None
    return found


def message_of(status, err):
    said = err.decode(errors="replace").strip().removeprefix("cscout: ")
    return said or f"cscout ended with status {status}"
