"""The work of scripts/random-macros."""

import os
import random
import subprocess
import sys
import tempfile

from cscout_ref.reader import with_deep_stack

from held import TOKEN, outcome_of, told
from random_workspaces import Runner, wanted

HELPERS = ["#define TWICE(x) x + x", "#define ID(x) x", "#define STR(x) #x", "#define XSTR(x) STR(x)", "#define PASTE(x, y) x##y",
           "#define CALL(m, ...) m(__VA_ARGS__)", "#define FWD(...) __VA_ARGS__", "#define FWD2(x) FWD(x)", "#define LP (", "#define RP )",
           "#define COMMA ,", "#define EMPTY", "#define G F", "#define H(x, y) F(x, y)", "#define WITH(x) x + F(1, 2)", "#define LATER F EMPTY",
           "#define LINE __LINE__", "#define BOTH(x) g(#x) + x", "#define IGN(q, ...) __VA_ARGS__", "#define IGN2(q) IGN(q)", "#define CUT(x, y) x"]


class Maker:
    """Makes the files of a workspace about a macro F of a few parameters."""

    def __init__(self, r):
        self.r = r
        self.many = r.choice([1, 2, 2, 2, 2, 3])

    def define(self, name="F"):
        r = self.r
        many = self.many if r.random() < .96 else r.randint(0, 3)
        names = list("abcd")[:many]
        space = r.choice(["", "", "", " "])
        each = [f"g({n})" for n in names]
        odd = [f"g(#{names[0]})" if names else "3", f"g({names[-1]}##0)" if names else "4", f"F({', '.join(names)})", "F", "LP 1 RP", "g(1) RP LP (1",
               f"ID(g({names[0]}))" if names else "2"]
        body = r.choice([" - ".join(each) or "0", " + ".join(reversed(each)) or "1", "1", f"({' | '.join(each) or '2'})"] + ([r.choice(odd)] if r.random() < .4 else []))
        if r.random() < .02:
            return f"#define {name} {body}"
        listed = (", " if r.random() < .7 else ",").join(names)
        if names and r.random() < .03:
            listed += ", ..."
        return f"#define {name}({space}{listed}{space}) {body}"

    def filled(self, text, depth):
        """The text with an item for each I, an expression for each E, something wild for each W, a call for each C."""
        makers = {"I": self.item, "E": self.expression, "W": self.wild, "C": self.call}
        return "".join(makers[c](depth + 1) if c in makers and (k == 0 or not text[k - 1].isalnum()) and not text[k + 1:k + 2].isalnum() else c
                       for k, c in enumerate(text))

    def item(self, depth=0):
        r = self.r
        if r.random() < .12:
            return ""
        if depth < 3 and r.random() < .3:
            return self.call(depth + 1)
        if depth > 4 or r.random() < .45:
            return r.choice([str(r.randint(0, 9)), "x", "x + 1", "f(1, 2)", "'c'", '"s"'])
        if r.random() < .03:
            return self.wild(depth)
        return self.filled(r.choice(["(0, E)", "ID(I)", "STR(I)", "DROP(W)", "/* a, b */ 3", "4 \\\n + 5", "EMPTY", "FWD2(I)", "\n7", "f(E, 1)", "TWICE(E)",
                                     "CUT(E, W)", "6 // last\n"]), depth)

    def expression(self, depth):
        return self.item(depth) or "8"

    def wild(self, depth):
        return self.filled(self.r.choice(["__LINE__", "LINE", "LP", "RP", "COMMA", "1 /", "# 2", "%: 3", "it's", "F", "\n#undef Q\n8", "PASTE(F, )(1, 2)",
                                          "1 /* \n */ + 2", "#", "a ## b", "1 / /* */", "("] + ["C", "I", "E"] * 4), depth)

    def call(self, depth=0):
        r = self.r
        many = self.many if r.random() < .98 else r.randint(0, 3)
        name = r.choice(["F"] * 40 + ["G", "H", "PASTE(F,)", "F2"])
        gap = r.choice(["", "", "", "", " ", "\n", " /* ( */ "])
        return f"{name}{gap}(" + r.choice([", ", ", ", ",", " , "]).join(self.item(depth) for _ in range(many)) + ")"

    def line(self):
        r = self.r
        kept = ["ID(C)", "DROP(C) 1", "TWICE(C)", "FWD(C)", "FWD2(C)", "DROP(it's C) 2", "CUT(C, F)", "IGN2(C) 3", "C + C"]
        odd = ["STR(C)", "XSTR(C)", "BOTH(C)", "PASTE(1, C)", "CALL(F, 1, 2)", "WITH(3)", "LATER(1, 2)", "F(1, 2)", "F2(1, 2)", "F LP 1, 2 RP", "f(F(1, 2), 3)",
               "DROP(F) C", f"ID(F)({', '.join('123'[:self.many])})", "IGN2(F(+ 1, RP)) 1"]
        return self.filled(r.choice(["C"] * 6 + kept + ([r.choice(odd)] if r.random() < .35 else [])), 0)

    def directives(self):
        r = self.r
        ones = ", ".join("1" for _ in range(self.many))
        return r.choice([f"#if 0\n{self.call()} don't\n#endif"] * 3 + ["#ifdef F\n;\n#endif"] * 3 + ["#undef F\n" + self.define()] * 3
                        + [f"#if F({ones})\n;\n#endif", "#undef Q\n#define Q F(1, 2)", "#undef G\n#define G(p, q) F(q, p)"])

    def body(self, name, fragment):
        r = self.r
        lines = [f"int u_{name}(void) {{"]
        for _ in range(r.randint(1, 4)):
            lines.append(f"x = {self.line()} ;")
            if r.random() < .15:
                lines.append(self.directives())
        if fragment:
            lines.append('#include "t.inc"')
            lines += r.choice([["#undef F", self.define()], ["#define F2 F"], ["#undef DROP", "#define DROP(x) +1"], [], []])
            lines.append('#include "t.inc"')
        return lines + [r.choice(["return 0; }", "; }", "} /* it's */", "} // don't"])]

    def unit(self, name, head, fragment):
        r = self.r
        lines = list(head) + ["int x;"]
        if r.random() < .1:
            lines.append(r.choice(["#define EARLY F(1, 2)", f"int y = sizeof({self.call()});", "int F;", "struct F { int F; };"]))
        return "\n".join(lines + self.body(name[0], fragment)) + "\n"

    def files(self):
        r = self.r
        shared, fragment = r.random() < .6, r.random() < .3
        head = ["int g(), f();"] + (["int F();"] if r.random() < .3 else []) + [self.define()]
        place = len(head)
        head += [r.choice(["#define DROP(x)"] + ["#define DROP(...)"] * 6)] + r.sample(HELPERS, len(HELPERS))
        units = r.choice([["a.c"], ["a.c"], ["a.c", "b.c"]])
        files = {"h.h": "\n".join(head) + "\n"} if shared else {}
        if fragment:
            files["t.inc"] = r.choice([f"x = {self.line()} ;\n", f"x = {self.line()} ;\nx = {self.line()} ;", f"x = IGN2(F(+ 1, RP)) ;\n"])
        for name in units:
            files[name] = self.unit(name, ['#include "h.h"'] if shared else head, fragment)
        standard = r.choice(["", "", "standard c11\n"])
        workspace = standard + ("define F2(a,b) a\n" if r.random() < .05 else "") + "".join(f"file {name}\n" for name in units)
        files["w.cs"] = workspace + ("readonly h.h\n" if r.random() < .03 else "")
        return {os.fsencode(path): text.encode() for path, text in files.items()}, "h.h" if shared else "a.c", place, units

    def order(self):
        r = self.r
        if r.random() < .04:
            return r.choice(["", "0", "1,", ",1", "2,2", "01", "1, 2", "12345678901234567890", "4,1,2,3"])
        numbers = list(range(1, self.many + 1))
        r.shuffle(numbers)
        if r.random() < .7:
            numbers = numbers[1:] + numbers[:1] if numbers == sorted(numbers) else numbers
        return ",".join(map(str, numbers))


def tokens_of(program, folder, units):
    """The tokens of each unit, by the program and by gcc."""
    told_by = []
    for k, name in enumerate(units):
        both = [subprocess.run(words, cwd=folder, capture_output=True, check=False)
                for words in ([program, "w.cs", "tokens", str(k + 1)], ["gcc", "-E", "-P", "-w", name])]
        told_by.append([(made.returncode, TOKEN.findall(made.stdout)) for made in both])
    return told_by


def stay(before, now):
    """Whether all tokens are those that they were; gcc is asked where it had the program's (a lone quote is read otherwise)."""
    return all(old[0] == new[0] and (old[0] != old[1] or old[1] == new[1]) for old, new in zip(before, now))


def main():
    program, seed, count = os.path.abspath(sys.argv[1]), int(sys.argv[2]), int(sys.argv[3])
    r, answers, differ = random.Random(seed), {}, 0
    with tempfile.TemporaryDirectory() as scratch:
        runner = Runner(program, scratch)
        for _ in range(count):
            maker = Maker(r)
            files, path, line, units = maker.files()
            words = ["w.cs", "macro", path, str(line) if r.random() < .97 else str(r.randint(1, 9)), "9", maker.order()]
            want, copy = wanted(words, files), runner.copy(files)
            before = tokens_of(program, copy.folder, units) if want[0] == 0 else []
            got = outcome_of(program, words, copy)
            same = True
            if want[0] == 0 and want == got:
                for name, data in got[3].items():
                    with open(os.path.join(copy.folder, os.fsdecode(name)), "wb") as file:
                        file.write(data)
                same = stay(before, tokens_of(program, copy.folder, units))
            runner.drop(copy)
            answer = "accepted" if want[0] == 0 else want[2].decode().split(": ")[-1].strip()
            answers[answer] = answers.get(answer, 0) + 1
            if want != got or not same:
                differ += 1
                print("differs: " + " ".join(map(repr, words)) + f": wanted {told(want)}; got {told(got)}" + ("" if same else "; tokens changed"))
                for name, data in sorted(files.items()):
                    print(f"  {os.fsdecode(name)}: {data!r}")
            if differ > 20:
                print("more than 20 differ: no more are tried")
                break
    print(", ".join(f"{n} {word}" for word, n in sorted(answers.items(), key=lambda pair: -pair[1])))
    print(f"{sum(answers.values())} orders, {answers.get('accepted', 0)} accepted, {differ} differ")
    return 1 if differ or not answers.get("accepted") else 0


if __name__ == "__main__":
    sys.exit(with_deep_stack(main))
