"""The work of scripts/random-templates."""

import os
import random
import re
import sys
import tempfile

from cscout_ref.reader import with_deep_stack

from held import outcome_of, told
from random_workspaces import Runner, wanted

MACROS = ["#define ONE 1", "#define ID(x) x", "#define IGN(x) 1", "#define ADD f", "#define PASTE(x, y) x##y", "#define PAIR(x, y) f(x, y)",
          "#define CALL(...) f(__VA_ARGS__)", "#define STR(x) #x"]


class Maker:
    """Makes the files of a workspace about a function of a few parameters."""

    def __init__(self, r):
        self.r = r
        self.many = r.choice([1, 2, 2, 2, 3])
        self.gnu = r.random() < .4

    def parameter(self, k):
        r = self.r
        name = "abcd"[k] if r.random() < .85 else ""
        odd = [f"int (*{name or 'q'})(int {r.choice('abcx')})", f"int {name or 'z'}[sizeof a]" if k else "T a", f"enum {{ E{r.randint(0, 9)} }} {name}",
               f"struct s{r.randint(0, 3)} *{name}", f"struct {{ int b; }} *{name}", f"T {name}", f"void *{name}", f"int {name or 'w'}(int, int)"]
        one = r.choice(odd) if r.random() < .25 else f"{r.choice(['int', 'char', 'long'])} {name}".strip()
        return one + " __attribute__((unused))" if self.gnu and name and r.random() < .1 else one

    def behind(self):
        """What may stand behind a declarator of the function in a unit of GNU C."""
        odd = [" __attribute__((cold))", " __attribute__((nonnull(1)))", " __attribute__((nonnull))", ' asm("f2")', ' __asm__("f2") __attribute__((cold))']
        return self.r.choice(odd[:1] * 6 + odd) if self.gnu and self.r.random() < .2 else ""

    def parameters(self):
        return ", ".join(self.parameter(k) for k in range(self.many))

    def expression(self, depth=0):
        r = self.r
        if depth < 3 and r.random() < .25:
            return self.call(depth + 1)
        if r.random() < .6:
            return str(r.randint(0, 9))
        if self.gnu and r.random() < .4:
            one = self.expression(depth + 1)
            return r.choice([f"({one} ?: 2)", f"(typeof(x)) {one}", f"__builtin_expect({one}, 1)", f"__extension__ {one}", f"(int) __alignof__({one})"] * 10
                            + [f"({{ int k = {one}; k; }})", f"({{ {one}; }})"])
        return r.choice([f"g({self.expression(depth + 1)})", "__LINE__", "ONE", f"ID({self.expression(depth + 1)})", "'2'",
                         f"sizeof(struct q{r.randint(0, 99)} {{ int m; }})", "(1, 2)", "IGN(')", "/* a comment */ 3", "4 \\\n + 5",
                         "sizeof(int (*)(int t))", f"\n#define Q{r.randint(0, 99)} 1\n7"])

    def call(self, depth=0):
        r = self.r
        many = self.many if r.random() < .95 else r.randint(0, 3)
        if r.random() < .04 and many == 2:
            return f"PAIR({self.expression(depth)}, {self.expression(depth)})"
        name = r.choice(["f"] * 20 + ["ADD", "(f)", "PASTE(f,)", "F2", "CALL"])
        return f"{name}(" + r.choice([", ", ", ", ","]).join(self.expression(depth) for _ in range(many)) + ")"

    def fragment(self):
        ones = ", ".join("1" for _ in range(self.many))
        return self.r.choice([f"f({ones})", f"M(f({ones}));", f"f({ones}", f"x + {self.call(3)};", f"{self.call(3)};\n{self.call(3)};"])

    def body(self, unit, fragment):
        r = self.r
        lines = [f"int v_{unit}(void) {{"]
        for _ in range(r.randint(1, 4)):
            lines.append(r.choice([f"  {self.call()};"] * 6 + [f"  g({self.expression()});", f"  STR({self.call()});", f"  return {self.expression()};"]))
            if self.gnu and r.random() < .3:
                lines.append(r.choice([f"  typeof({self.call()}) t{len(lines)} = ({{ {self.call()}; }});", f'  asm volatile ("nop" : : "r" ({self.call()}));',
                                       f"  ({{ int f = 1; f; }});", f"  case_{len(lines)}: __attribute__((unused)); {self.call()};"]))
        if fragment:
            lines.append('#include "t.inc"')
            lines += r.choice([["#define M(x) #x"], ["#define f M"], []])
            lines.append(r.choice([";", ", 1);", ""]))
            if r.random() < .7:
                lines += ['#include "t.inc"', r.choice([";", ", 2);", " "])]
        return lines + [";}"]

    def unit(self, name, head, fragment):
        r = self.r
        lines = list(head)
        lines += ["int x, M(int p);"] if fragment or self.gnu else []
        lines += [r.choice(['asm("call ff");', 'asm(".globl g");', 'asm("call " "f");'])] if self.gnu and r.random() < .1 else []
        lines += ["#if 0\ndon't f(1, 2)\n#endif"] if r.random() < .2 else []
        if name == "a.c" and r.random() < .8:
            lines.append(f"{'__attribute__((noinline)) ' if self.gnu and r.random() < .3 else ''}int f({self.parameters()}) {{ return 0; }}")
            lines += [f"int f({self.parameters()}){self.behind()};"] if self.gnu and r.random() < .3 else []
            lines += [f'extern int h({self.parameters()}) __attribute__((alias("{r.choice("fg")}")));'] if self.gnu and r.random() < .05 else []
        lines += ["int (*p)() = f;"] if r.random() < .05 else []
        lines.append("int F2(int a, int b);" if r.random() < .05 else "#define F2 ADD")
        if r.random() < .06:
            lines.append("int z1[f(" + ", ".join("sizeof(int (*)(int t))" for _ in range(self.many)) + ")] { return t; }")
        lines += self.body(name[0], fragment)
        lines += [f"/* \n */ int w = {self.expression()}; // it's"] if r.random() < .2 else []
        return "\n".join(lines) + "\n"

    def files(self):
        r = self.r
        head = [r.choice(["typedef int T;", "typedef long T;"]), f"int f({self.parameters()}){self.behind()};", "int g(int n);"] + MACROS
        units = r.choice([["a.c"], ["a.c"], ["a.c", "b.c"]])
        shared, fragment = r.random() < .6, r.random() < .25
        files = {"h.h": "\n".join(head) + "\n"} if shared else {}
        if fragment:
            files["t.inc"] = self.fragment()
        for name in units:
            files[name] = self.unit(name, ['#include "h.h"'] if shared else head, fragment)
        workspace = ("project p\n" if r.random() < .5 else "") + ("standard gnu11\n" if self.gnu else "") + "".join(f"file {name}\n" for name in units)
        files["w.cs"] = workspace + ("readonly h.h\n" if r.random() < .05 else "")
        return {os.fsencode(path): text.encode() for path, text in files.items()}, "h.h" if shared else "a.c"

    def order(self):
        r = self.r
        if r.random() < .05:
            return r.choice(["", "0", "1,", ",1", "2,2", "01", "1, 2", "12345678901234567890", "4,1,2,3"])
        numbers = list(range(1, self.many + 1))
        r.shuffle(numbers)
        return ",".join(map(str, numbers))


class GnuMaker(Maker):
    """Makes files of GNU C with much of what that has and few offences, so that most orders are accepted."""

    def __init__(self, r):
        super().__init__(r)
        self.many, self.gnu = r.choice([1, 2, 2, 3, 3, 4]), True

    def parameter(self, k):
        name = "abcd"[k]
        one = self.r.choice(["int {}", "char {}", "unsigned {}", "T {}", "void *{}", "int (*{})(int x)", "typeof(int) {}", "__typeof__(1) {}",
                             "int {}[3]", "const char *restrict {}", "int __attribute__((aligned(4))) {}"]).format(name)
        return one + (" __attribute__((unused))" if self.r.random() < .2 else "")

    def behind(self):
        return self.r.choice([""] * 12 + [f" __attribute__(({word}))" for word in ("cold", "nonnull", "warn_unused_result, pure", "nonnull(1)")])

    def expression(self, depth=0):
        r = self.r
        if depth < 3 and r.random() < .35:
            return self.call(depth + 1)
        if depth > 4 or r.random() < .3:
            return str(r.randint(0, 9))
        form = r.choice(["({} ?: 2)", "(typeof(x)) {}", "__builtin_expect({}, 1)", "__extension__ {}", "(int) __alignof__({})", "g({})", "ONE", "ID({})",
                         "'2'", "(1, {})", "/* a comment */ 3", "4 \\\n + 5", "sizeof(int)", "({}, {})", "(int []){{ {}, [1] = {} }}[0]", "{} ? {} : {}",
                         "_Generic({}, int: {}, default: {})", "__builtin_choose_expr(1, {}, {})", "sizeof(typeof({}))", "(__typeof__({})) {}",
                         "__builtin_types_compatible_p(int, T)", "(struct k){{0}}.m", "-{}", "x"])
        return form.format(*(self.expression(depth + 1) for _ in range(3)))

    def call(self, depth=0):
        r = self.r
        name = r.choice(["f"] * 100 + ["(f)", "ADD"])
        return f"{name}(" + r.choice([", ", ",", ", ", " ,\n "]).join(self.expression(depth + 1) for _ in range(self.many)) + ")"

    def fragment(self):
        return ""

    def body(self, unit, fragment):
        r = self.r
        local = r.random() < .3
        lines = [f"int v_{unit}(void) {{"] + ["  __label__ out;"] * local
        for n in range(r.randint(2, 6)):
            form = r.choice(["{};", "typeof({}) t_ = ({{ {}; }});", 'asm volatile ("nop" : : "r" ({}));', "({{ int f = 1; f; }});",
                             "m_: __attribute__((unused)); {};", "int k_ = ({{ int f_ = {}; f_; }});", "__auto_type a_ = {};",
                             "switch ({}) {{ case 1 ... 3: {}; }}", "int z_[] = {{ [0 ... 2] = {}, }};",
                             "if (({{ {}; }})) {{ {}; }}", "for (int i_ = {}; i_ < {}; i_++) {};", '_Static_assert(1, "f");', "void *l_ = &&e_; e_: {};",
                             'asm ("" : "=r" (x) : "0" ({}) : "memory");', "return {};", "while ({}) {{ typeof({}) w; }}"])
            lines.append("  " + re.sub(r"\b([a-z])_\b", rf"\g<1>{n}", form).format(*(self.call() for _ in range(3))))
        return lines + ["  out: ;"] * local + ["}"]

    def unit(self, name, head, fragment):
        r = self.r
        lines = list(head) + ["int x; struct k { int m; };"]
        lines += [r.choice(['asm("call ff");', 'asm(".globl g");', 'asm("call " "f");'])] if r.random() < .05 else []
        if name == "a.c" and r.random() < .9:
            lines.append(f"{'__attribute__((noinline)) ' if r.random() < .3 else ''}int f({self.parameters()}) {{ return 0; }}")
            lines += [f"extern __typeof__(int) f({self.parameters()}){self.behind()};"] if r.random() < .3 else []
        return "\n".join(lines + self.body(name[0], fragment)) + "\n"


def main():
    program, seed, count, gnu = sys.argv[1], int(sys.argv[2]), int(sys.argv[3]), sys.argv[4:] == ["gnu"]
    r, answers, differ = random.Random(seed), {}, 0
    with tempfile.TemporaryDirectory() as scratch:
        runner = Runner(program, scratch)
        for _ in range(count):
            maker = (GnuMaker if gnu else Maker)(r)
            files, path = maker.files()
            words = ["w.cs", "template", path, "2", "5" if r.random() < .95 else str(r.randint(1, 9)), maker.order()]
            want, copy = wanted(words, files), runner.copy(files)
            got = outcome_of(program, words, copy)
            runner.drop(copy)
            answer = "accepted" if want[0] == 0 else want[2].decode().split(": ")[-1].strip()
            answers[answer] = answers.get(answer, 0) + 1
            if want != got:
                differ += 1
                print("differs: " + " ".join(map(repr, words)) + f": wanted {told(want)}; got {told(got)}")
                for name, data in sorted(files.items()):
                    print(f"  {os.fsdecode(name)}: {data!r}")
            if differ > 20:
                print("more than 20 differ: no more are tried")
                break
    print(", ".join(f"{n} {word}" for word, n in sorted(answers.items(), key=lambda pair: -pair[1])))
    print(f"{sum(answers.values())} orders, {answers.get('accepted', 0)} accepted, {differ} differ")
    return 1 if differ or not answers.get("accepted") else 0


if __name__ == "__main__":
    sys.exit(with_deep_stack(main))
