"""The work of scripts/compile-trims."""

import os
import subprocess
import sys
import tempfile
from concurrent.futures import ThreadPoolExecutor

import trim_model
from cscout_ref.analysis import analyse
from cscout_ref.files import HostFiles
from cscout_ref.reader import with_deep_stack
from cscout_ref.workspace import read_workspace

from held import Copy, options_of, told


def object_of(unit, folder):
    """The object that gcc makes of a unit, None where it refuses it."""
    with tempfile.TemporaryDirectory() as room:
        asked = ["gcc", f"-std={unit.standard}", "-undef", "-nostdinc", "-w", "-O1", "-c", *options_of(unit), unit.path, "-o", os.path.join(room, "unit.o")]
        ran = subprocess.run(asked, cwd=folder, stdout=subprocess.DEVNULL, stderr=subprocess.DEVNULL, env={**os.environ, "SOURCE_DATE_EPOCH": "0"})
        if ran.returncode:
            return None
        with open(os.path.join(room, "unit.o"), "rb") as file:
            return file.read()


def objects_of(units, folder):
    with ThreadPoolExecutor(os.cpu_count() or 1) as lanes:
        return list(lanes.map(lambda unit: object_of(unit, folder), units))


def compared(program, corpus, name, folder):
    """What differs, a sentence each; prints what there was. The numbers are those of lines and of objects."""
    copy = Copy(corpus, [name, *(["musl"] if os.path.isdir(os.path.join(corpus, "musl")) else [])], folder)
    os.chdir(folder)
    with open(f"{name}/w.cs", "rb") as file:
        analysis = analyse(read_workspace(file.read()), HostFiles())
    units = [unit.unit for unit in analysis.units]
    before = objects_of(units, folder)
    edits = trim_model.edits(analysis)
    stays = trim_model.stays(analysis)
    want = (0, b"".join(b"edited %s %d\n" % (edit.path, edit.count) for edit in edits) + stays, b"", {edit.path: edit.data for edit in edits})
    ran = subprocess.run([program, f"{name}/w.cs", "trim", "stays"], stdout=subprocess.PIPE, stderr=subprocess.PIPE)
    said = (ran.returncode, ran.stdout, ran.stderr, copy.changes())
    wrong = [] if said == want else [f"the program: {told(said)}", f"the model: {told(want)}"]
    after = objects_of(units, folder)
    held = [(unit, old, new) for unit, old, new in zip(units, before, after) if old is not None]
    wrong += [f"{os.fsdecode(unit.path)}: another object" if new else f"{os.fsdecode(unit.path)}: gcc refuses it" for unit, old, new in held if old != new]
    lines = sum(edit.count for edit in edits)
    print(f"{name}: {lines} lines of {len(edits)} files went, {len(stays.splitlines())} stayed; {len(held)} objects of {len(units)} units, "
          f"{sum(old != new for _, old, new in held)} differ", flush=True)
    return wrong, lines, len(held)


def main():
    program, corpus, names = sys.argv[1], sys.argv[2], sys.argv[3:]
    lines, objects, differ = 0, 0, 0
    for name in names:
        with tempfile.TemporaryDirectory() as room:
            wrong, some, many = compared(program, corpus, name, os.path.join(room, "copy"))
            os.chdir("/")
        for it in wrong:
            print(f"{name}: {it}", flush=True)
        lines, objects, differ = lines + some, objects + many, differ + bool(wrong)
    print(f"{lines} lines went, {objects} objects compared, {differ} programs differ")
    if not lines or not objects:
        print("no line went, or no object was compared")
        return 2
    return 1 if differ else 0


if __name__ == "__main__":
    sys.exit(with_deep_stack(main))
