"""Units that are left out of a workspace, and the names in them that others have too."""

import re
import subprocess

from unseen import without_comments

NAME = re.compile(r'"(?:[^"\\\n]|\\.)*"|\'(?:[^\'\\\n]|\\.)*\'|\.?\d(?:[eEpP][-+]|[\w.])*|([A-Za-z_]\w*)')
# Names that reach past one file, in files that may be changed.
OUTER = "(external|macro|typedef|tag|member|enumerator)&!readonly"
INNER = "(function|object)&!external&!readonly"


def without_files(text, faults):
    """The workspace with the `file` lines of these numbers as comments, which have what stands against each; and their paths."""
    lines, left = text.splitlines(), []
    for number, fault in faults.items():
        left.append(lines[number].split(None, 1)[1].strip())
        lines[number] = f"# left out, {fault}: {lines[number].strip()}"
    return "\n".join(lines) + "\n", sorted(set(left))


def _found(program, workspace, query):
    run = subprocess.run([program, workspace, "find", query], capture_output=True, text=True, errors="surrogateescape", check=False)
    for line in run.stdout.splitlines():
        place, _, name = line.split(" ", 1)[0], *line.split(" ", 1)[1].split(" ", 1)
        yield place.rsplit(":", 2)[0], name


def shared_names(program, workspace, left):
    """For each path of a unit that is left out, the names in its file that reach it from the units of the workspace."""
    with open(workspace, encoding="utf-8") as file:
        units = {line.split(None, 1)[1].strip() for line in file if line.split(None, 1)[:1] == ["file"]}
    known = {name for _, name in _found(program, workspace, OUTER)}
    known |= {name for path, name in _found(program, workspace, INNER) if path not in units}
    for path in left:
        try:
            with open(path, encoding="latin-1") as file:
                names = {found.group(1) for found in NAME.finditer(without_comments(file.read())) if found.group(1)}
        except OSError:
            continue
        yield path, sorted(names & known)
