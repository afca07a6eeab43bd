"""Folders that are held: all that they have, and how they are made."""

import os
import subprocess


def state(folder):
    """All that a folder has, but when it was read: of each entry its mode, number, links, size, times, and its bytes or what it leads to."""
    found = {}
    for at, folders, files in os.walk(folder):
        for path in [at, *(os.path.join(at, it) for it in folders + files)]:
            it = os.lstat(path)
            held = os.readlink(path) if os.path.islink(path) else None
            if os.path.isfile(path) and held is None:
                with open(path, "rb") as file:
                    held = file.read()
            found[os.path.relpath(path, folder)] = it.st_mode, it.st_ino, it.st_nlink, it.st_size, it.st_mtime_ns, it.st_ctime_ns, held
    return found


def texts(folder):
    return {path: held[-1] for path, held in state(folder).items() if held[-1] is not None}


def ran(words, folder, given=b""):
    return subprocess.run(words, cwd=folder, input=given, capture_output=True, check=False,
                          env={**os.environ, "GIT_CEILING_DIRECTORIES": os.path.dirname(folder)})


def files_of(folder, files):
    """Makes files of texts or bytes by their paths; `-> PATH` is a link."""
    for path, text in files.items():
        at = os.path.join(folder, path)
        os.makedirs(os.path.dirname(at), exist_ok=True)
        if isinstance(text, str) and text.startswith("-> "):
            os.symlink(text[3:], at)
            continue
        with open(at, "wb") as file:
            file.write(text.encode() if isinstance(text, str) else text)
