"""The work of scripts/hold-lsp."""

import json
import os
import shutil
import subprocess
import sys
import tempfile
import urllib.parse

from folders import files_of, ran, state, texts

# What the folder of most rows has: names behind letters of two and four bytes, both ends of lines, a pasted name, one with a splice
# inside, a header in a folder with a blank, and bytes that are no UTF-8.
FILES = {
    "a.c": '/* \u00e4\U0001f600 */ int total; /* \u00e4 */ int of_total = sizeof total + sizeof to\\\ntal;\n#include "h \u00f6/h.h"\nint odd_total = 1;\n',
    "b.c": '#include "h \u00f6/h.h"\r\nint *at = &total; char *said = "\u00e4"; int got_it, twice = GET(got, _it) + to\\\r\ntal;\r\nint g_a = 1, *p = &J(a);',
    "h \u00f6/h.h": "#define GET(x, y) x ## y\n#define J(x) g_ ## x\nextern int total;\n",
    "latin.c": b"/* \xe4\xe4 */ extern int total; int of_latin = sizeof total; /* \xff */\n",
    "w.cs": "file a.c\nfile b.c\nfile latin.c\n",
}


class Wire:
    """A server that runs, and the messages to it and from it."""

    def __init__(self, server, program, folder, workspace="w.cs"):
        self.folder, self.last = folder, 0
        self.run = subprocess.Popen([server, program, workspace], cwd=folder, stdin=subprocess.PIPE, stdout=subprocess.PIPE,
                                    stderr=subprocess.PIPE)

    def send_bytes(self, body, head=None):
        self.run.stdin.write((b"Content-Length: %d\r\n\r\n" % len(body) if head is None else head) + body)
        self.run.stdin.flush()

    def note(self, method, **words):
        self.send_bytes(json.dumps({"jsonrpc": "2.0", "method": method, "params": words}).encode())

    def next(self):
        length = 0
        while (line := self.run.stdout.readline()).strip():
            if line.startswith(b"Content-Length: "):
                length = int(line.split(b" ")[1])
        return json.loads(self.run.stdout.read(length)) if length else None

    def ask(self, method, **words):
        """The result, or the error."""
        self.last += 1
        self.send_bytes(json.dumps({"jsonrpc": "2.0", "id": self.last, "method": method, "params": words}).encode())
        found = self.next()
        if found is None or found.get("id") != self.last or ("result" in found) == ("error" in found):
            return {"no answer": found}
        return found["result"] if "result" in found else found["error"]

    def end(self):
        """The status with which the server ends."""
        if self.run.stdin.closed or self.run.poll() is not None:
            return self.run.wait(30)
        self.ask("shutdown")
        self.note("exit")
        return self.run.wait(30)


def uri_of(folder, path):
    return "file://" + urllib.parse.quote(os.path.normpath(os.path.join(folder, path)))


def at_column(line, byte, by_bytes):
    before = line[:byte]
    return byte if by_bytes else len(before.decode("utf-8", "surrogateescape").encode("utf-16-le", "surrogatepass")) // 2


def byte_of(line, column, by_bytes):
    return next(byte for byte in range(len(line) + 1) if at_column(line, byte, by_bytes) == column
                and (byte == len(line) or line[byte] & 0xC0 != 0x80 or at_column(line, byte + 1, by_bytes) > column))


def where(folder, path, number, byte, by_bytes):
    with open(os.path.join(folder, path), "rb") as file:
        line = file.read().split(b"\n")[number]
    return {"textDocument": {"uri": uri_of(folder, path)}, "position": {"line": number, "character": at_column(line, byte, by_bytes)}}


def applied(text, edits, by_bytes):
    """A text with edits, as an editor applies them: none over another, each at its place of before."""
    lines = text.split(b"\n")
    starts = [sum(len(it) + 1 for it in lines[:k]) for k in range(len(lines))]
    spans = []
    for it in edits:
        ends = [starts[it["range"][end]["line"]] + byte_of(lines[it["range"][end]["line"]], it["range"][end]["character"], by_bytes)
                for end in ("start", "end")]
        spans.append((*ends, it["newText"].encode()))
    spans.sort()
    if any(one[1] > other[0] for one, other in zip(spans, spans[1:])):
        raise ValueError("edits that overlap")
    for first, end, new in reversed(spans):
        text = text[:first] + new + text[end:]
    return text


class Held:
    def __init__(self, server, program, room):
        self.server, self.program, self.room = server, program, room
        self.count, self.differing, self.folders = {}, 0, 0

    def hold(self, kind, what, got, wanted):
        self.count[kind] = self.count.get(kind, 0) + 1
        if got != wanted:
            self.differing += 1
            if self.differing <= 20:
                print(f"differs: {kind}: {what}: got {got}, and wanted {wanted}", flush=True)

    def folder(self, files, name="in \u00fc"):
        self.folders += 1
        folder = os.path.join(self.room, str(self.folders), name)
        files_of(folder, {path: text.replace("@", folder) if isinstance(text, str) else text for path, text in files.items()})
        return folder

    def begun(self, folder, by_bytes=True, by_versions=False, workspace="w.cs"):
        wire = Wire(self.server, self.program, folder, workspace)
        can = {"workspace": {"workspaceEdit": {"documentChanges": by_versions}}}
        found = wire.ask("initialize", rootUri=uri_of(folder, "."), capabilities={**can, "general": {
            "positionEncodings": ["utf-8", "utf-16"] if by_bytes else ["utf-16"]}})
        self.hold("beginnings", folder, found.get("capabilities", {}).get("positionEncoding"), "utf-8" if by_bytes else "utf-16")
        wire.note("initialized")
        return wire

    def places(self, folder, path, line, byte):
        """What `class` prints, but for pseudo files."""
        run = ran([self.program, "w.cs", "class", path, str(line + 1), str(byte + 1)], folder)
        for it in os.fsdecode(run.stdout).splitlines():
            place, text = it.rsplit(" ", 1)
            file, number, column = place.rsplit(":", 2)
            if not file.startswith("<"):
                yield file, int(number) - 1, int(column) - 1, text

    def renamed(self, folder, path, line, byte, name):
        """The texts that the command makes, in a copy; None where it is refused; and its message."""
        copy = f"{folder}-copy"
        shutil.rmtree(copy, ignore_errors=True)
        shutil.copytree(folder, copy, symlinks=True)
        run = ran([self.program, "w.cs", "rename", path, str(line + 1), str(byte + 1), name], copy)
        return texts(copy) if run.returncode == 0 else None, run.stderr.decode().strip()

    def hold_rename(self, wire, folder, place, name, by_bytes):
        """The edits that an editor gets, applied, against the command."""
        path, line, byte = place
        wanted, said = self.renamed(folder, path, line, byte, name)
        found = wire.ask("textDocument/rename", newName=name, **where(folder, path, line, byte, by_bytes))
        if wanted is None:
            self.hold("refusals", (place, name), found.get("message"), said)
            return
        changes = found.get("changes")
        if "documentChanges" in found:
            changes = {it["textDocument"]["uri"]: it["edits"] for it in found["documentChanges"]}
        made = texts(folder)
        for uri, edits in (changes or {"none": []}).items():
            file = os.path.relpath(urllib.parse.unquote(urllib.parse.urlsplit(uri).path), folder)
            made[file] = applied(made.get(file, b""), edits, by_bytes)
        self.hold("renames", (place, name), made, wanted)

    def hold_names(self, wire, folder, place, by_bytes):
        """References and what may be renamed, against `class`."""
        path, line, byte = place
        found = wire.ask("textDocument/references", context={"includeDeclaration": True}, **where(folder, path, line, byte, by_bytes))
        wanted = [(file, where(folder, file, number, first, by_bytes)["position"]) for file, number, first, _ in self.places(folder, *place)]
        got = found if isinstance(found, dict) else [
            (os.path.relpath(urllib.parse.unquote(urllib.parse.urlsplit(it["uri"]).path), folder), it["range"]["start"]) for it in found]
        self.hold("references", place, got, wanted)


def hold_files(held, by_bytes, by_versions):
    """Each place of some names of FILES, by each of its ends."""
    folder = held.folder(FILES)
    before = state(folder)
    wire = held.begun(folder, by_bytes, by_versions)
    for path, line, text in (("a.c", 0, "total"), ("a.c", 0, "of_total"), ("b.c", 1, "total"), ("h \u00f6/h.h", 2, "total"), ("latin.c", 0, "total"),
                             ("latin.c", 0, "of_latin"), ("b.c", 3, "g_a"), ("b.c", 1, "said"), ("h \u00f6/h.h", 0, "GET")):
        first = texts(folder)[path].split(b"\n")[line].index(text.encode())
        held.hold_names(wire, folder, (path, line, first), by_bytes)
        for name in ("new", "total_of_all", "int", "odd_total", "9x"):
            held.hold_rename(wire, folder, (path, line, first + 1), name, by_bytes)
        wanted = {"range": {"start": where(folder, path, line, first, by_bytes)["position"],
                            "end": where(folder, path, line, first + len(text), by_bytes)["position"]}, "placeholder": text}
        for byte in (first, first + 1, first + len(text)):
            if text != "g_a":
                found = wire.ask("textDocument/prepareRename", **where(folder, path, line, byte, by_bytes))
                held.hold("names that may be renamed", (path, line, byte), found, wanted)
    found = wire.ask("textDocument/prepareRename", **where(folder, "a.c", 0, 1, by_bytes))
    held.hold("refusals", "no name", found.get("message"), "cscout: refused: no name")
    held.hold("ends", "behind shutdown", wire.end(), 0)
    held.hold("untouched folders", folder, state(folder), before)


def hold_saving(held):
    """What is open and not saved."""
    folder = held.folder(FILES)
    before = state(folder)
    wire = held.begun(folder, by_versions=True)
    place = where(folder, "b.c", 1, 11, True)
    text = texts(folder)["a.c"].decode()
    # The editor's own spelling of the path comes back.
    uri = uri_of(folder, "a.c").replace("a.c", "%61.c")
    said = "cscout: not saved: a.c; cscout reads the files, so save first"

    def refused(step, wanted):
        for method, words in (("rename", {"newName": "new"}), ("prepareRename", {}), ("references", {})):
            found = wire.ask(f"textDocument/{method}", **place, **words)
            message = found.get("message") if isinstance(found, dict) else None
            held.hold("answers over files that are open", (step, method), message, wanted)

    def change(text, version):
        wire.note("textDocument/didChange", textDocument={"uri": uri, "version": version}, contentChanges=[{"text": text}])

    wire.note("textDocument/didOpen", textDocument={"uri": uri, "languageId": "c", "version": 1, "text": text})
    refused("opened", None)
    change("int x;\n" + text, 2)
    refused("changed", said)
    change(text, 7)
    refused("undone", None)
    found = wire.ask("textDocument/rename", newName="new", **place)
    versions = {it["textDocument"]["uri"]: it["textDocument"]["version"] for it in found.get("documentChanges", [])}
    held.hold("versions of what is open", folder, (versions.get(uri), versions.get(uri_of(folder, "b.c"), "none")), (7, None))
    change("int x;\n" + text, 8)
    wire.note("textDocument/didClose", textDocument={"uri": uri})
    refused("closed", None)
    wire.note("textDocument/didOpen", textDocument={"uri": uri, "languageId": "c", "version": 1, "text": text + "\n"})
    refused("opened with another text", said)
    wire.note("textDocument/didSave", textDocument={"uri": uri})
    refused("saved", None)
    latin = uri_of(folder, "latin.c")
    wire.note("textDocument/didOpen", textDocument={"uri": latin, "languageId": "c", "version": 1, "text": "/* \u00e4\u00e4 */"})
    refused("opened, and no UTF-8 on the disk", None)
    wire.note("textDocument/didChange", textDocument={"uri": latin, "version": 2}, contentChanges=[{"text": "/* \u00e4 */"}])
    refused("changed, and no UTF-8 on the disk", said.replace("a.c", "latin.c"))
    held.hold("ends", "saving", wire.end(), 0)
    held.hold("untouched folders", folder, state(folder), before)


def hold_outside(held):
    """Files above the folder, by the paths that the workspace has for them."""
    for spelled in ("../up", "@/../up"):
        folder = held.folder({"a.c": '#include "h.h"\nint y = x;\n', "../up/h.h": "extern int x;\n", "w.cs": f"ipath {spelled}\nfile a.c\n"})
        before = state(os.path.dirname(folder))
        wire = held.begun(folder)
        found = wire.ask("textDocument/references", textDocument={"uri": uri_of(folder, "../up/h.h")}, position={"line": 0, "character": 11})
        got = sorted(it["uri"] for it in found) if isinstance(found, list) else found
        held.hold("references", spelled, got, sorted([uri_of(folder, "a.c"), uri_of(folder, "../up/h.h")]))
        found = wire.ask("textDocument/rename", textDocument={"uri": uri_of(folder, "a.c")}, position={"line": 1, "character": 8}, newName="z")
        held.hold("refusals", spelled, "has a place that would change: a path from / on" in found.get("message", ""), True)
        held.hold("ends", spelled, wire.end(), 0)
        held.hold("untouched folders", folder, state(os.path.dirname(folder)), before)
    # The folder itself, from / on; through a link to it; and a link to a folder below it.
    for files, here, path in (({"a.c": "int x;\n", "w.cs": "file @/a.c\n"}, "", "a.c"), ({"a.c": "int x;\n", "w.cs": "file a.c\n", "../l": "-> in \u00fc"}, "../l", "a.c"),
                              ({"d/a.c": "int x;\n", "w.cs": "file d/a.c\n", "l": "-> d"}, "", "l/a.c"),
                              ({"d/a.c": "int x;\n", "w.cs": "file l/a.c\n", "l": "-> d"}, "", "l/a.c")):
        folder = held.folder(files)
        wire = held.begun(folder)
        uri = uri_of(folder, os.path.join(here, path))
        found = wire.ask("textDocument/references", textDocument={"uri": uri}, position={"line": 0, "character": 4})
        held.hold("references", (files, path), [it["uri"] for it in found] if isinstance(found, list) else found, [uri])
        held.hold("ends", path, wire.end(), 0)


def hold_messages(held):
    """What is no message, and what comes out of turn."""
    folder = held.folder({"a.c": "int x;\n", "w.cs": "file a.c\n"})
    before = state(folder)
    wire = Wire(held.server, held.program, folder)
    at = where(folder, "a.c", 0, 4, True)

    def answered(what, code, **wanted):
        found = wire.next()
        held.hold("broken messages", what, (found.get("error", {}).get("code"), found.get("id", "none")), (code, wanted.get("id")))

    def asked(what, code, method, **words):
        held.hold("broken messages", what, wire.ask(method, **words).get("code"), code)

    asked("before initialize", -32002, "textDocument/rename", newName="y", **at)
    wire.note("textDocument/didOpen")
    wire.ask("initialize", capabilities={})
    asked("initialize again", -32600, "initialize", capabilities={})
    for body in (b"{", b"", b"\xff", b"[" * 100000, b'{"id": 1, "method": "x"} x', b"nul"):
        wire.send_bytes(body)
        answered(body[:9], -32700)
    for body in (b"[]", b"1", b"null", b'"x"'):
        wire.send_bytes(body)
        answered(body, -32600)
    wire.send_bytes(b"", b"Content-Type: x\r\n\r\n")
    answered("no length", -32700)
    wire.send_bytes(b"", b"Content-Length: -1\r\n\r\n")
    answered("a length below 0", -32700)
    wire.send_bytes(b'{"jsonrpc": "2.0", "id": "a", "method": 7}')
    answered("a method that is a number", -32600, id="a")
    wire.send_bytes(b'{"jsonrpc": "2.0", "id": "b", "method": "textDocument/rename"}')
    answered("no parameters", -32602, id="b")
    wire.send_bytes(b'{"jsonrpc": "2.0", "id": "c", "method": "textDocument/rename", "params": [1]}')
    answered("a list of parameters", -32602, id="c")
    asked("no method", -32601, "textDocument/hover", **at)
    asked("no name", -32602, "textDocument/rename", **at)
    asked("a name that is a number", -32602, "textDocument/rename", newName=1, **at)
    asked("no position", -32602, "textDocument/references", textDocument=at["textDocument"])
    asked("a line below 0", -32602, "textDocument/references", textDocument=at["textDocument"], position={"line": -1, "character": 0})
    asked("another kind of URI", -32602, "textDocument/references", textDocument={"uri": "https://a/b"}, position=at["position"])
    asked("a line that there is not", -32803, "textDocument/references", textDocument=at["textDocument"], position={"line": 99, "character": 0})
    asked("a file that there is not", -32803, "textDocument/references", textDocument={"uri": uri_of(folder, "no.c")}, position=at["position"])
    asked("half a letter", -32803, "textDocument/rename", newName="\ud800", **at)
    asked("a NUL", -32803, "textDocument/rename", newName="a\0b", **at)
    wire.note("textDocument/didChange", textDocument={"uri": 1})
    wire.note("$/cancelRequest", id=1)
    wire.send_bytes(b'{"jsonrpc": "2.0", "id": 1, "result": null}')
    found = wire.ask("textDocument/prepareRename", **at)
    held.hold("names that may be renamed", "behind broken messages", found.get("placeholder"), "x")
    os.rename(f"{folder}/w.cs", f"{folder}/v.cs")
    asked("no workspace any more", -32803, "textDocument/rename", newName="y", **at)
    os.rename(f"{folder}/v.cs", f"{folder}/w.cs")
    wire.ask("shutdown")
    asked("behind shutdown", -32600, "textDocument/references", **at)
    wire.note("exit")
    held.hold("ends", "behind shutdown", wire.run.wait(30), 0)
    for what, body in (("exit at once", b'{"method": "exit"}'), ("the end of the input", None)):
        wire = Wire(held.server, held.program, folder)
        if body:
            wire.send_bytes(body)
        wire.run.stdin.close()
        held.hold("ends", what, wire.run.wait(30), 1)
    for words, status, said in (([], 2, "cscout-lsp PROGRAM WORKSPACE"), (["--help"], 0, "language server"), ([held.program, "no.cs"], 2, "no.cs"),
                                ([f"{folder}/none", "w.cs"], 2, "none is no program"), ([held.program], 2, "cscout-lsp PROGRAM WORKSPACE")):
        run = ran([held.server, *words], folder)
        held.hold("odd words", words, (run.returncode, said in (run.stdout + run.stderr).decode()), (status, True))
    # the folder itself had two files renamed and back
    held.hold("untouched folders", folder, {it: of for it, of in state(folder).items() if it == "a.c"}, {it: of for it, of in before.items() if it == "a.c"})
    held.hold("untouched folders", folder, sorted(state(folder)), sorted(before))


def main():
    server, program = sys.argv[1:]
    room = os.path.realpath(tempfile.mkdtemp())
    try:
        held = Held(server, program, room)
        for by_bytes, by_versions in ((True, False), (False, True)):
            hold_files(held, by_bytes, by_versions)
        hold_saving(held)
        hold_outside(held)
        hold_messages(held)
    finally:
        shutil.rmtree(room)
    print("language server: " + ", ".join(f"{count} {what}" for what, count in held.count.items()) + f"; {held.differing} differ")
    wanted = ("renames", "refusals", "references", "names that may be renamed", "answers over files that are open", "broken messages")
    return 1 if held.differing or not all(held.count.get(it) for it in wanted) else 0


if __name__ == "__main__":
    sys.exit(main())
