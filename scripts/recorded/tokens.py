"""The tokens of a unit as the recorded compiler preprocesses it, held against those of the program."""

import os
import re
import subprocess
import tempfile
from concurrent.futures import ThreadPoolExecutor

TOKEN = re.compile(r'(?:u8|[LuU])?"(?:[^"\\\n]|\\.)*"|(?:[LuU])?\'(?:[^\'\\\n]|\\.)*\'|\.?\d(?:[eEpP][-+]|[\w.])*|[A-Za-z_$][\w$]*'
                   r"|\.\.\.|<<=|>>=|->|\+\+|--|<<|>>|<=|>=|==|!=|&&|\|\||[-+*/%&^|]=|##|[^\s]")


def of_build(entry):
    """The tokens that the recorded command preprocesses the unit to, but for lines that say something to the compiler."""
    ran = subprocess.run(entry.compiling(["-E", "-P", "-w"]), cwd=entry.directory, capture_output=True, check=False,
                         env={**os.environ, "SOURCE_DATE_EPOCH": "0", "TZ": "UTC"})
    if ran.returncode:
        return None
    lines = ran.stdout.decode("latin-1").splitlines()
    return TOKEN.findall("\n".join(line for line in lines if not line.lstrip().startswith("#")))


def of_program(program, workspace, number, root):
    """The tokens that the program prints for a unit, or what it says instead."""
    ran = subprocess.run([program, workspace, "tokens", str(number)], cwd=root.path, capture_output=True, check=False)
    if ran.returncode:
        return None, ran.stderr.decode("latin-1").strip()
    return TOKEN.findall(ran.stdout.decode("latin-1")), None


def first_difference(found, wanted):
    """Where two lists of tokens differ first; None where they do not."""
    for n, (one, other) in enumerate(zip([*found, None], [*wanted, None])):
        if one != other:
            return n, one, other
    return None


def differing(program, text, pairs, root):
    """What is to be said of each unit whose tokens are not those of the compiler; `pairs` are entries and units in the order of
    the workspace."""
    with tempfile.NamedTemporaryFile("w", suffix=".cs", encoding="utf-8") as workspace:
        workspace.write(text)
        workspace.flush()

        def of(numbered):
            number, (entry, unit) = numbered
            wanted = of_build(entry)
            if wanted is None:
                return f"unit {number}, {unit.path}: the compiler does not preprocess it"
            found, fault = of_program(program, workspace.name, number, root)
            if fault is not None:
                return f"unit {number}, {unit.path}: {fault}"
            other = first_difference(found, wanted)
            if other is None:
                return None
            have, wants = ("none" if token is None else token for token in other[1:])
            return f"unit {number}, {unit.path}: token {other[0] + 1} is {have}, and the compiler has {wants}"
        with ThreadPoolExecutor(os.cpu_count()) as pool:
            return [line for line in pool.map(of, enumerate(pairs, 1)) if line is not None]
