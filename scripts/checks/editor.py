"""The work of scripts/hold-editor."""

import json
import os
import shutil
import subprocess
import sys
import tempfile

from folders import ran, texts

HERE = os.path.dirname(os.path.realpath(__file__))
SECONDS = 600


def rows_of(path):
    with open(path, encoding="utf-8") as file:
        return [line.split() for line in file if line.strip() and not line.startswith("#")]


def writable(folder):
    """What is read-only an editor does not write."""
    for at, _, files in os.walk(folder):
        for it in files:
            os.chmod(os.path.join(at, it), 0o644)


def by_editor(server, program, folder, room, row):
    """What Neovim saw, and the folder when it had renamed, and when it had undone that."""
    name, path, line, column, new, refused = row
    at = {it: os.path.join(room, it) for it in ("REPORT", "RENAMED", "UNDONE")}
    words = {"SERVER": server, "PROGRAM": program, "WORKSPACE": f"{name}/w.cs", "FILE": path, "LINE": line, "COL": column, "NEW": new,
             "REFUSED": refused, "HOME": room, "XDG_STATE_HOME": room, "XDG_DATA_HOME": room, "XDG_CONFIG_HOME": room, "NVIM_LOG_FILE": f"{room}/log"}
    run = subprocess.run(["nvim", "--clean", "--headless", "-c", f"luafile {HERE}/editor.lua"], cwd=folder, env={**os.environ, **words, **at},
                         stdin=subprocess.DEVNULL, capture_output=True, timeout=SECONDS, check=False)
    report = {}
    if os.path.isfile(at["REPORT"]):
        with open(at["REPORT"], encoding="utf-8") as file:
            report = json.load(file)
    if run.returncode or not report:
        report["ended"] = run.returncode, run.stderr.decode(errors="replace")
    return report, *(texts(at[it]) if os.path.isdir(at[it]) else None for it in ("RENAMED", "UNDONE"))


def by_program(program, folder, row):
    """The places of the name, the texts that a rename gives, and the message of the refused one."""
    name, path, line, column, new, refused = row
    copy = f"{folder}-copy"
    shutil.copytree(folder, copy)
    found = ran([program, f"{name}/w.cs", "class", path, line, column], copy).stdout.decode().splitlines()
    places = [[os.path.join(folder, it.rsplit(":", 2)[0]), *map(int, it.rsplit(" ", 1)[0].rsplit(":", 2)[1:])] for it in found]
    against = ran([program, f"{name}/w.cs", "rename", path, line, column, refused], copy)
    done = ran([program, f"{name}/w.cs", "rename", path, line, column, new], copy)
    if done.returncode or not against.returncode:
        raise SystemExit(f"hold-editor: a row that does not fit: {' '.join(row)}: {done.stderr.decode()}{against.stdout.decode()}")
    return places, texts(copy), against.stderr.decode().strip()


def main():
    server, program, corpus, rows = sys.argv[1:]
    count, differing = 0, 0
    for row in rows_of(rows):
        room = os.path.realpath(tempfile.mkdtemp())
        try:
            folder = os.path.join(room, "editor's \u00fc")
            for it in (row[0], "musl"):
                shutil.copytree(os.path.join(corpus, it), os.path.join(folder, it))
            writable(folder)
            old = texts(folder)
            places, new, said = by_program(program, folder, row)
            report, renamed, undone = by_editor(server, program, folder, room, row)
        finally:
            shutil.rmtree(room)
        edited = [it for it in old if old[it] != new[it]]
        before = differing
        for what, got, wanted in (
                ("references", report.get("references"), places), ("the refused rename", said in str(report.get("refused")), True),
                ("what it changes", report.get("changed_by_refusal"), 0), ("buffers", report.get("buffers"), len(edited)),
                ("a rename over what is not saved", "not saved: " in str(report.get("unsaved")), True),
                ("the renamed files", renamed == new, True), ("the undone files", undone == old, True)):
            count += 1
            if got != wanted:
                differing += 1
                print(f"differs: {' '.join(row)}: {what}: {got}, and wanted {wanted}; "
                      f"{[f'{it}: {report[it]}' for it in ('fault', 'missing', 'ended', 'said') if it in report]}")
        if differing == before:
            print(f"{row[0]}: {len(places)} places in {len(edited)} files renamed and undone in the editor")
    print(f"editor: {count} answers held, {differing} differ")
    return 1 if differing or not count else 0


if __name__ == "__main__":
    sys.exit(main())
