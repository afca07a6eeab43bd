"""The work of bench/fronts: project.py PROGRAM INSTRUCTIONS [UNITS [HEADER [OWN]]]."""

import os
import random
import re
import statistics
import subprocess
import sys
import tempfile

HEADERS = 20


def header(r, number, tokens):
    """The lines of a header of about so many tokens, and the functions that it declares."""
    lines, functions, types, count, k = [], [], ["int", "long", "unsigned", "char"], 0, 0
    while count < tokens:
        k += 1
        it = f"{number}_{k}"
        if k % 6 == 0:
            lines.append(f"typedef struct s{it} {{ int a{k}; {r.choice(types)} *b{k}; struct s{it} *next; char text[{k}]; }} t{it};")
            types.append(f"t{it}")
            count += 26
        elif k % 6 == 1:
            lines.append(f"#define M{it}(x) ((x) + {k})")
        elif k % 6 == 2:
            lines.append(f"enum e{it} {{ E{it}_A, E{it}_B = {k}, E{it}_C }};")
            count += 12
        elif k % 6 == 5:
            lines.append(f"static inline int g{it}(int x, {r.choice(types)} *y) "
                         f"{{ int z = x * {k}; if (y) {{ z += x; }} return z + (x << 2); }}")
            count += 42
        else:
            lines.append(f"extern {r.choice(types)} *f{it}(const char *p{k}, {r.choice(types)} *q{k}, unsigned long n);")
            functions.append(f"f{it}")
            count += 18
    return lines, functions


def unit(r, number, tokens, functions):
    lines, count, k = [f'#include "h{h}.h"' for h in range(HEADERS)], 0, 0
    while count < tokens:
        k += 1
        lines.append(f"int work{number}_{k}(int count, char *text) {{ int i, sum = 0; for (i = 0; i < count; i++) "
                     f"{{ sum += text[i] * {k}; if (sum > 1000) {{ sum -= 1000; continue; }} }} "
                     f"if ({r.choice(functions)}(text, 0, sum)) return sum; return -sum; }}")
        count += 66
    return lines


def made(folder, units, tokens, own):
    r, functions = random.Random(7), []
    for h in range(HEADERS):
        lines, declared = header(r, h, tokens // HEADERS)
        functions += declared
        with open(f"{folder}/h{h}.h", "w", encoding="ascii") as file:
            file.write("\n".join([f"#ifndef H{h}", f"#define H{h}", *lines, "#endif", ""]))
    with open(f"{folder}/w.cs", "w", encoding="ascii") as file:
        file.write("\n".join(["project p", *(f"file u{u}.c" for u in range(units)), ""]))
    for u in range(units):
        with open(f"{folder}/u{u}.c", "w", encoding="ascii") as file:
            file.write("\n".join([*unit(r, u, own, functions), ""]))


def run(words):
    """The processor seconds and the peak of memory in bytes of one run."""
    pid = os.fork()
    if pid == 0:
        os.dup2(os.open(os.devnull, os.O_WRONLY), 1)
        os.execv(words[0], words)
    _, status, used = os.wait4(pid, 0)
    if status:
        sys.exit(f"{' '.join(words)}: status {status}")
    return used.ru_utime + used.ru_stime, used.ru_maxrss * 1024


def main():
    program, instructions = sys.argv[1:3]
    units, tokens, own = ([int(word) for word in sys.argv[3:]] + [120, 40000, 2000][len(sys.argv) - 3:])
    with tempfile.TemporaryDirectory() as folder:
        made(folder, units, tokens, own)
        words = [program, "-C", folder, "w.cs", "class", "h0.h", "5", "20"]
        every = units * (tokens + own)
        if instructions:
            tool = ["valgrind", "--tool=callgrind", "--callgrind-out-file=/dev/null"]
            ran = subprocess.run([*tool, *words], stdout=subprocess.DEVNULL, stderr=subprocess.PIPE, text=True, check=True)
            counted = int(re.search(r"Collected : (\d+)", ran.stderr)[1])
            print(f"{counted / every:8.0f} instructions a token")
            return
        runs = [run(words) for _ in range(5)]
        seconds, memory = (statistics.median(row[k] for row in runs) for k in (0, 1))
        print(f"{seconds:6.2f} s, {seconds / every * 1e6:.2f} us a token; {memory / 2**20:.0f} MB, {memory / every:.0f} bytes a token")


main()
