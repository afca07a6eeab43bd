"""A command of cscout that is tried: what it prints, and what it would make of the files, of which none changes.

It runs in a mirror of the folder that one is in: folders of their own, in which each file is a link to the true one. cscout writes a
file by putting a new one in its place, so what the link leads to stays. Above the mirror stand links too, and so `../x` is read as ever.
What the program must not write lies where a path leads out of the mirror: paths that begin with `/` or `../`, and paths through links
to folders. These are read-only in the workspace that is tried, and where it is only this that stands against the command, the answer
would not be the command's, and none is given."""

import contextlib
import os
import re
import shutil
import subprocess
import tempfile

CHANGING = ("rename", "template", "batch")
MOST_BYTES = 1 << 22
BESIDE = ".cscout-new"
EDITED = re.compile(rb"^edited (.*) \d+$", re.M)
READ_ONLY = re.compile(rb"^cscout: refused: (.*):\d+:\d+: read-only$", re.M)
READONLY_LINE = re.compile(rb"^[ \t\r]*readonly[ \t\r]+(.+?)[ \t\r]*$", re.M)


class Refused(Exception):
    """Why a command is not tried, or its answer not given."""


class Trial:
    """What a command answers: status, output and message, and for each path that it edits the old and the new text."""

    def __init__(self, status, out, err, edits):
        self.status, self.out, self.err, self.edits = status, out, err, edits


def program_of(word):
    """The program as an absolute path."""
    found = shutil.which(word)
    if found is None:
        raise Refused(f"{word} is no program")
    return os.path.abspath(found)


class Mirror:
    """The folder HERE once more, at `folder`; `behind` are the paths below it that are links to folders, cannot be listed, or
    are git's own."""

    def __init__(self, here, room):
        if here == "/":
            raise Refused("not in the folder /")
        self.room, self.folder, self.behind = room, room + here, []
        below = here
        while below != "/":
            below, name = os.path.split(below)
            os.makedirs(room + below, exist_ok=True)
            self._link_all(below, room + below, name)
        os.makedirs(self.folder)
        self._fill(here)

    @staticmethod
    def _link_all(folder, to, but):
        """Links of what stands beside HERE or a folder above it."""
        with contextlib.suppress(PermissionError):
            for name in os.listdir(folder):
                if name != but:
                    os.symlink(os.path.join(folder, name), os.path.join(to, name))

    def _fill(self, here):
        left = [""]
        while left:
            below = left.pop()
            with os.scandir(os.path.join(here, below)) as found:
                for it in found:
                    path = os.path.join(below, it.name)
                    at = os.path.join(self.folder, path)
                    if it.path == self.room:
                        continue
                    if it.is_dir(follow_symlinks=False) and it.name != ".git" and os.access(it.path, os.R_OK | os.X_OK):
                        os.mkdir(at)
                        left.append(path)
                    elif not it.is_dir() and it.name.endswith(BESIDE):
                        # in the way of a new file, as the true one is, and no way to it
                        with open(at, "xb"):
                            pass
                    elif not it.is_dir():
                        os.symlink(it.path, at)
                    elif self._is_said(path):
                        os.symlink(it.path, at)
                        self.behind.append(path)

    @staticmethod
    def _is_said(path):
        """Whether a workspace line can have the path as a prefix; no path that cscout reads begins otherwise."""
        with contextlib.suppress(UnicodeEncodeError):
            return bool(path.encode()) and path[0] not in " \t\r" and "\n" not in path
        return False


def guarded(text, behind):
    """The workspace with the lines that keep the program inside the mirror."""
    end = b"" if not text or text.endswith(b"\n") else b"\n"
    lines = "".join(f"readonly {it}\n" for it in ("/", "../", *(f"{it}/" for it in behind)))
    made = text + end + lines.encode()
    if len(made) > MOST_BYTES:
        raise Refused("the workspace file is too large to be tried")
    return made


def edits_of(mirror, here, out):
    """The old and the new text of each path that the output says to be edited."""
    edits = {}
    for path in sorted(set(EDITED.findall(out))):
        old, new = (os.path.join(os.fsencode(folder), path) for folder in (here, mirror.folder))
        if path.startswith((b"/", b"../")) or os.path.islink(new):
            raise Refused(f"the program says that it edited {os.fsdecode(path)}, and has not")
        with open(old, "rb") as file, open(new, "rb") as other:
            edits[path] = file.read(), other.read()
    return edits


def tried_in(room, program, workspace, text, words, stdin):
    here = os.getcwd()
    mirror = Mirror(here, room)
    # where the workspace file is not there, this one is not either
    at = os.path.join(room, "workspace")
    if text is not None:
        with open(at, "wb") as file:
            file.write(guarded(text, mirror.behind))
    run = subprocess.run([program, at, *words], cwd=mirror.folder, stdin=stdin, capture_output=True, check=False)
    outside = (b"/", b"../", *(os.fsencode(it) + b"/" for it in mirror.behind))
    kept = tuple(READONLY_LINE.findall(text or b""))
    # a batch prints its refusals on the output
    for path in READ_ONLY.findall(run.stdout) + READ_ONLY.findall(run.stderr):
        if path.startswith(outside) and not path.startswith(kept):
            raise Refused(f"{os.fsdecode(path)} has a place that would change: a path from / on, by `..` or through a link to a folder is "
                          "read, and no change of it is tried; a `readonly` line of the workspace file says that it stays")
    message = run.stderr.replace(os.fsencode(at), os.fsencode(workspace)) if run.returncode in (3, 4) else run.stderr
    return Trial(run.returncode, run.stdout, message, edits_of(mirror, here, run.stdout))


@contextlib.contextmanager
def room_for_it():
    """A folder that goes again. tempfile.TemporaryDirectory might change the modes of what its links lead to (CVE-2023-6597)."""
    room = os.path.realpath(tempfile.mkdtemp(prefix="cscout-dry-"))
    try:
        yield room
    finally:
        shutil.rmtree(room, ignore_errors=True)


def trial(program, workspace, words, stdin=None):
    """What `PROGRAM WORKSPACE WORDS` answers in the folder that one is in. A command that changes nothing is simply run."""
    program = program_of(program)
    if words[0] not in CHANGING:
        run = subprocess.run([program, workspace, *words], stdin=stdin, capture_output=True, check=False)
        return Trial(run.returncode, run.stdout, run.stderr, {})
    try:
        with open(workspace, "rb") as file:
            text = file.read()
    except FileNotFoundError:
        text = None
    with room_for_it() as room:
        return tried_in(room, program, workspace, text, words, stdin)
