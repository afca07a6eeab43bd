"""Random texts and files through a program over lexer and through the model; prints how many differ."""

import os
import random
import subprocess
import sys

sys.path.insert(0, os.environ["MODEL"])
from cscout_ref import lexer

UNITS = [b"/", b"*", b"/*", b"*/", b"//", b"\\", b"\\\n", b"\\\r\n", b"\r\n", b"\n", b"\r", b"'", b'"', b"L", b"a",
         b"e", b"1", b".", b"+", b"-", b"<", b">", b"=", b"%", b":", b"#", b"include", b"# include ", b"%:", b"%:%:",
         b"<:", b"<%", b"%>", b":>", b" ", b"\t", b"\x0b", b"x", b"&", b"|", b"0xE", b"\xff", b"$", b";", b"\n#include"]
LETTERS = {"Ident": "I", "Number": "N", "Char": "C", "Str": "S", "Punct": "P", "Other": "O", "Header": "H"}


def expected(data, places):
    """The lines that the program is to print for these bytes."""
    lines = []
    try:
        text = lexer.FileText(1, data)
        for tok, first in zip(text.toks, text.begins_line):
            lines.append("%s%d%d %08x %08x %s" % (LETTERS[tok.kind], tok.gap, first, tok.at.at, tok.line, tok.text.hex()))
        if places:
            row = ""
            for at in range(len(text.offsets)):
                line, column = text.line_column(at)
                row += "%08x %08x %08x " % (text.byte_of(at), line, column)
                row += "" if text.at_of(line, column) == at else "!"
            lines.append(row)
    except lexer.LexFault as fault:
        line, column = fault.place
        starts = [0] + [k + 1 for k, b in enumerate(data) if b == 10]
        at = list(lexer._logical(data)[1]).index(starts[line - 1] + column - 1)
        lines.append("open %08x %08x %08x " % (at, line, column))
    kind = lexer.one_token(data)
    lines.append("=" + (LETTERS[kind] if kind else "-"))
    return lines


def differ(dump, paths, places):
    """How many of these files the program and the model read otherwise."""
    count = 0
    for k in range(0, len(paths), 1000):
        some = paths[k:k + 1000]
        out = subprocess.run([dump] + ([] if places else ["-t"]) + some, capture_output=True, check=True).stdout
        lines, at = out.decode().split("\n"), 0
        for path in some:
            with open(path, "rb") as file:
                want = expected(file.read(), places)
            if lines[at:at + len(want)] != want:
                print("differs:", path)
                count += 1
                while not lines[at].startswith("="):
                    at += 1
                at += 1
            else:
                at += len(want)
    return count


def main():
    dump, work, seed, count = sys.argv[1], sys.argv[2], int(sys.argv[3]), int(sys.argv[4])
    rnd, texts = random.Random(seed), []
    for k in range(count):
        parts = [rnd.choice(UNITS) if rnd.random() < 0.9 else bytes([rnd.randrange(256)]) for _ in range(rnd.randrange(16))]
        texts.append(os.path.join(work, "text%d" % k))
        with open(texts[-1], "wb") as file:
            file.write(b"".join(parts))
    bad = differ(dump, texts, True)
    print("%d random texts, %d differ" % (count, bad))
    files = sys.argv[5:]
    bad_files = differ(dump, files, False)
    print("%d files, %d differ" % (len(files), bad_files))
    return 1 if bad or bad_files else 0


sys.exit(main())
