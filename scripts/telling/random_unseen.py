"""The work of `scripts/random-told unseen`: renames on random workspaces with lines besides that no unit processes, and some that look so."""

import os
import random
import re
import sys

from cscout_ref.reader import with_deep_stack

from held_told import Held
from made import Maker, new_name
from random_workspaces import analysis_of, wanted
from told_model import quoted_words, unseen, words_of

EACH = 4


def operator(r, word):
    """A `_Pragma` operator, on a line or on several, or what looks so."""
    text = b"".join(r.choice([b" ", b",", b"(", b":", b"x", b"1", b"\\n", b"\\\"", b"\\\n"]) + word() for _ in range(r.choice([1, 1, 2, 3])))
    blank = lambda: r.choice([b"", b"", b" ", b"\n", b"/* " + word() + b" */"])  # noqa: E731
    operand = r.choice([b"", b"", b"L", b"u8", b"U", b"u "]) + b'"' + text + b'"' + r.choice([b""] * 6 + [b"1", b' ""'])
    return b"_Pragma" + blank() + b"(" + blank() + operand + blank() + b")"


def beside(r, words, line, drops):
    """Lines that no unit processes, or that look so. Where `drops`, a line of the workspace drops `_Pragma`."""
    word = lambda: r.choice(words)  # noqa: E731
    if r.random() < .3:
        lines = operator(r, word).split(b"\n")
        one = b" ".join(operator(r, word).replace(b"\\\n", b"").split(b"\n"))
        return r.choice([
            lines if drops else [b"#if 0", *lines, b"#endif"],
            [b"#if 0", *lines, b"#endif"],
            [b"#define UR_%d %s" % (r.randrange(9999), one)],
            [b"#define US_%d(%s) %s %s" % (r.randrange(9999), word(), one, word())],
            [b"#pragma " + one],
        ])
    return r.choice([
        [b"#if 0", line, b"#endif"],
        [b"#ifdef NEVER_", b"int " + word() + b"(" + word() + b");", b"#define " + word() + b"(" + word() + b") " + word(), b"#else", b"#endif"],
        [b"#pragma " + word() + b" " + word()],
        [b"#define UN_%d(%s) %s + %s" % (r.randrange(9999), word(), word(), word())],
        [b"#define UO_%d %s" % (r.randrange(9999), word())],
        [b"#define UP_%d (%s) %s" % (r.randrange(9999), word(), word())],
        [b"#ifdef %s" % word(), b"#endif"],
        [b"#if 0", b"#error %s %s" % (word(), word()), b"#%s %s" % (word(), word()), b"#endif"],
        [b"#if 0 && %s" % word(), b"#elif 0", word(), b"#endif"],
    ])


def with_idle(r, files):
    """The files with such lines. In a file with splices or open comments they stand at the end."""
    words = sorted({word for path, data in files.items() if path != b"w.cs" for word in re.findall(rb"[A-Za-z_]\w*", data)})
    drops = r.random() < .6
    if drops:
        files[b"w.cs"] = b"define _Pragma(x)\n" + files[b"w.cs"].replace(b"project two\n", b"project two\ndefine _Pragma(x)\n")
    for path in [it for it in files if it != b"w.cs"]:
        lines = files[path].split(b"\n")
        if any(line.rstrip(b"\r").endswith(b"\\") or b"/*" in line and b"*/" not in line for line in lines):
            spots = [] if lines[-1].endswith(b"\\") else [len(lines)]
        else:
            spots = list(range(len(lines) + 1))
        for _ in range(r.choice([0, 1, 3, 5]) if spots else 0):
            at = r.choice(spots)
            more = beside(r, words, r.choice(lines).rstrip(b"\r"), drops)
            lines[at:at] = more
            spots = [it if it <= at else it + len(more) for it in spots]
        files[path] = b"\n".join(lines)
    return files


def row(r, analysis):
    """A rename of a class with more words of its spelling than members, or with one in a string of `_Pragma`, if there is one."""
    classes = [members for members in analysis.classes_by_place() if any(m.tok.at in analysis.nameable for m in members)]
    # units with the same lines begin with one pseudo file, which the model has for each
    classes = [members for members in classes if not analysis.place(members[0].start).path.startswith(b"<")]
    more = [members for members in classes if len(list(words_of(analysis, members[0].text))) > len(members)]
    quoted = [members for members in classes if any(quoted_words(analysis, members[0].text))]
    drawn = r.random()
    member = r.choice(r.choice(quoted if quoted and drawn < .3 else more if more and drawn < .8 else classes))
    place = analysis.place(member.start)
    name = r.choice(["zz", "zq", new_name(r, member.text.decode())])
    return ["w.cs", "rename", os.fsdecode(place.path), str(place.line), str(place.column), name]


def told(analysis, words, outcome):
    """What the model says, with the lines of what is left unseen behind it."""
    status, out, err = outcome[:3]
    if status == 0:
        path, line, column = os.fsencode(words[2]), int(words[3]), int(words[4])
        edited = b"".join(line + b"\n" for line in out.splitlines() if not line.startswith(b"unseen "))
        out = edited + unseen(analysis, analysis.part_named(path, line, column))
    return status, out, err


def main():
    program, seed, count, folder = sys.argv[1], int(sys.argv[2]), int(sys.argv[3]), sys.argv[4]
    r, held = random.Random(seed), Held(program, folder)
    while held.count["runs"] < count and not held.is_over():
        files = with_idle(r, Maker(r, r.random() < .3).files())
        analysis = analysis_of(files)
        if analysis is None:
            held.count["workspaces that are not accepted"] += 1
            continue
        for _ in range(EACH):
            words = row(r, analysis)
            outcome = told(analysis, words, wanted(words, files))
            held.hold(words, files, outcome)
            held.count["lines"] += outcome[1].count(b"unseen ")
    return held.end("status 0", "lines")


sys.exit(with_deep_stack(main))
