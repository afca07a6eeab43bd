"""The work of `scripts/random-told check`: random workspaces in which lines are wrong in many ways."""

import random
import sys

from cscout_ref.files import MemFiles
from cscout_ref.reader import with_deep_stack

from held_told import Held
from random_workspaces import seed as seeded, workspace
from told_model import checked

BAD = ["int bad = zz;", "int x y;", "#error no", "int w = sizeof(struct none_of);", "#define BB (", "int q = BB;", "}", '#include "none.h"',
       "int e(void) { goto l; }", "int CATT;", "#define U1(x) x##q", "int u1 = U1(a);", "#if", "int o = MA MA;", '"', "/* open",
       "struct s { int m; } sv; int sm = 1 + sv.mm;", "extern int xx; static int xx;", "#define D__ __LINE__ zz", "int dl = D__;", ""]


def spoilt(r, files):
    for path in [it for it in files if it != "w.cs" and r.random() < .6]:
        for _ in range(r.randrange(1, 3)):
            files[path].insert(r.randrange(len(files[path]) + 1), r.choice(BAD))
    return {path.encode(): "".join(line + "\n" for line in lines).encode() for path, lines in files.items()}


def main():
    program, seed, count, folder = sys.argv[1], int(sys.argv[2]), int(sys.argv[3]), sys.argv[4]
    seeded(seed)
    r, held = random.Random(seed), Held(program, folder)
    while held.count["runs"] < count and not held.is_over():
        files = spoilt(r, workspace())
        outcome = checked([b"w.cs"], MemFiles(files))
        held.hold(["w.cs", "check"], files, outcome)
        held.count["units that are not accepted"] += outcome[1].count(b"\n") - 1
        held.count["tokens from elsewhere"] += outcome[1].count(b" from ")
    return held.end("status 0", "status 1", "tokens from elsewhere")


sys.exit(with_deep_stack(main))
