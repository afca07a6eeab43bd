"""The texts of bench/bind: texts.py DRIVER FOLDER CORPUS, or texts.py DRIVER FOLDER --limits."""
import itertools
import os
import re
import statistics
import subprocess
import sys

sys.dont_write_bytecode = True
from nested import IN, NESTED, numbered  # noqa: E402

driver, folder, given = sys.argv[1:]

KEYWORDS = set("""auto break case char const continue default do double else enum extern float for goto if inline int long
register restrict return short signed sizeof static struct switch typedef union unsigned void volatile while _Bool _Complex
_Imaginary __func__""".split())
TOKEN = re.compile(r"""[A-Za-z_]\w*|L?"(?:\\.|[^"\\])*"|L?'(?:\\.|[^'\\])*'|\.?\d(?:[eEpP][-+]|[\w.])*"""
                   r"""|\.\.\.|->|\+\+|--|<<=|>>=|<<|>>|[-+*/%&|^<>=!]=|&&|\|\||\S""")


def asked(texts, tokens=500000):
    """For each text how many tokens it has, the microseconds of `read` and of `bind`, and the outcome. Each run has a process
    of its own, so that no text, however small, finds memory that is there already. There are as many runs as make up so
    many tokens, 5 to 41 (one, if `tokens` is 0), in turn with those of the other texts, and the times are their medians."""
    paths, counts, found = [], [1] * len(texts), [[] for _ in texts]
    for number, text in enumerate(texts):
        paths.append(os.path.join(folder, str(number)))
        with open(paths[-1], "w") as out:
            out.write(text)
    for turn in range(41):
        for k, path in enumerate(paths):
            if turn and turn >= (min(41, max(5, tokens // counts[k])) if tokens else 1):
                continue
            ran = subprocess.run([driver, path], stdout=subprocess.PIPE, text=True)
            if ran.stdout:
                count, reading, binding, outcome = ran.stdout.rstrip("\n").split(" ", 3)
                found[k].append((int(reading), int(binding), outcome))
                counts[k] = max(1, int(count))
            else:
                found[k].append((0, 0, f"ENDED BY {-ran.returncode}"))
    rows = []
    for count, runs in zip(counts, found):
        rows.append((count, *(statistics.median(run[k] for run in runs) for k in range(2)), runs[0][2]))
    return rows


# Real units.


def preprocessed(corpus, name):
    """The tokens of each unit, by gcc with the settings of the workspace file."""
    options, units = [], []
    for line in open(f"{corpus}/{name}/w.cs"):
        word, _, rest = line.strip().partition(" ")
        rest = rest.strip()
        if word == "project":
            options = []
        elif word == "qpath":
            options.append("-iquote" + rest)
        elif word == "ipath":
            options.append("-I" + rest)
        elif word == "include":
            options += ["-include", rest]
        elif word == "define":
            head, _, body = rest.partition(" ")
            options.append(f"-D{head}={body.strip()}")
        elif word == "undefine":
            options.append("-U" + rest)
        elif word == "file":
            ran = subprocess.run(["gcc", "-std=c99", "-undef", "-nostdinc", "-E", "-P", *options, rest], cwd=corpus,
                                 stdout=subprocess.PIPE, stderr=subprocess.DEVNULL, text=True, check=True)
            units.append(TOKEN.findall(ran.stdout))
    return units


def is_name(tok):
    return (tok[0].isalpha() or tok[0] == "_") and tok[-1] not in "\"'" and tok not in KEYWORDS


def of_file(toks):
    """Spellings that a unit has at file scope, and all tags and enumerators: those that a copy needs anew."""
    found, braces, parens, enum = set(), 0, 0, None
    for k, tok in enumerate(toks):
        before = toks[k - 1] if k else ""
        if tok == "{":
            braces += 1
            if before == "enum" or (k > 1 and toks[k - 2] == "enum"):
                enum = braces
        elif tok == "}":
            enum = None if enum == braces else enum
            braces -= 1
        elif tok in "([":
            parens += 1
        elif tok in ")]":
            parens -= 1
        elif is_name(tok):
            direct = braces == 0 and (parens == 0 or (parens == 1 and before == "*" and toks[k - 2] == "("))
            if direct or before in ("struct", "union", "enum") or enum == braces:
                found.add(tok)
    return found


def short_names():
    """Names in order of length."""
    letters = "abcdefghijklmnopqrstuvwxyzABCDEFGHIJKLMNOPQRSTUVWXYZ"
    for length in itertools.count(1):
        for rest in itertools.product(letters + "0123456789_", repeat=length - 1):
            for first in letters:
                name = first + "".join(rest)
                if name not in KEYWORDS:
                    yield name


def copies(unit, count, own):
    """Copies of a unit one behind the other, where the spellings in `own` have other names in each. Names are made short
    and strings empty, since a file has at most 2^22 bytes."""
    names, fresh, parts = {}, short_names(), []
    for copy in range(count):
        last = " "
        for tok in unit:
            if is_name(tok):
                key = (tok, copy) if tok in own else tok
                if key not in names:
                    names[key] = next(fresh)
                tok = names[key]
            elif tok[-1] == '"':
                tok = '""'
            parts.append(" " + tok if is_glued(last, tok) else tok)
            last = tok
        parts.append("\n")
    return "".join(parts)


def is_glued(last, tok):
    """The two would be read as other tokens without white space."""
    if last[-1].isalnum() or last[-1] in "_.":
        return tok[0].isalnum() or tok[0] in "_.\"'" or (last[-1] in "eEpP" and tok[0] in "+-")
    return last[-1] in "+-<>&|=" or (last + tok)[-2:] in GLUED


GLUED = {"//", "/*", "<:", "<%", "%:", "##", ":>", "%>", "++", "--", "->", "*=", "/=", "%=", "^=", "!=", "..", "=="}

# Texts that grow in one way, by their number n.

GROWING = {
    "declarations at file scope": ((25000, 50000, 100000), lambda n: numbered("", "int a{k};\n", n)),
    "uses of one name": ((25000, 50000, 100000), lambda n: numbered("int x;void f(void){", "x;", n, "}")),
    "one structure, its members used": ((5000, 10000, 20000), lambda n: numbered("struct S{", "int m{k};", n) + numbered("};void f(struct S*p){", "p->m{k};", n, "}")),
    "functions, each with its own names": ((2500, 5000, 10000), lambda n: numbered("", "void f{k}(int a{k}){{int b{k};b{k}=a{k};}}\n", n)),
    "functions, each with a local i": ((2500, 5000, 10000), lambda n: numbered("", "void f{k}(void){{int i;i=0;}}\n", n)),
    "functions, each with a parameter p": ((2500, 5000, 10000), lambda n: numbered("", "void f{k}(int p){{p=0;}}\n", n)),
    "functions, each with a label out": ((2500, 5000, 10000), lambda n: numbered("", "void f{k}(void){{goto out;out:;}}\n", n)),
    "blocks, each with a local i": ((2500, 5000, 10000), lambda n: numbered("void f(void){", "{{int i;i=0;}}", n, "}")),
    "structures, each with a member m": ((2500, 5000, 10000), lambda n: numbered("", "struct S{k}{{int m;}};\n", n)),
    "the first of these, its m used": ((2500, 5000, 10000), lambda n: numbered("", "struct S{k}{{int m;}};\n", n) + numbered("void f(struct S0*p){", "p->m;", n, "}")),
    "declarations of one function": ((2500, 5000, 10000), lambda n: numbered("", "int f(void);\n", n)),
    "declarations of one typedef name": ((2500, 5000, 10000), lambda n: numbered("", "typedef int T;\n", n)),
    "a structure, its members initialized": ((2500, 5000, 10000), lambda n: numbered("struct S{", "int m{k};", n) + numbered("}s={", "0,", n, "};")),
    "a structure, its members designated": ((2500, 5000, 10000), lambda n: numbered("struct S{", "int m{k};", n) + numbered("}s={", ".m{k}=0,", n, "};")),
    "a pointer to .. to int, used": ((2500, 5000, 10000), lambda n: "int " + "*" * n + "x;void f(void){" + "x;" * n + "}"),
    "a typedef of it, names declared": ((2500, 5000, 10000), lambda n: "typedef int " + "*" * n + "T;" + numbered("T ", "x{k}", n, ";", ",")),
    "an object of it, an expression": ((2500, 5000, 10000), lambda n: "int " + "*" * n + "x=" + "+".join(["0"] * n) + ";"),
    "arguments of one call": ((25000, 50000, 100000), lambda n: "int f();void g(void){f(" + ",".join(["0"] * n) + ");}"),
    "items of an array": ((25000, 50000, 100000), lambda n: "int a[]={" + "0," * n + "};"),
    "parameters": ((25000, 50000, 100000), lambda n: numbered("void f(", "int a{k}", n, "){}", ",")),
    "enumerators": ((25000, 50000, 100000), lambda n: numbered("enum{", "e{k},", n, "};")),
    "statements in 80 blocks": ((25000, 50000, 100000), lambda n: "void f(int x){" + "{" * 80 + "x;" * n + "}" * 81),
    "statements in 80 statements `if`": ((25000, 50000, 100000), lambda n: "void f(int x){" + "if(x){" * 80 + "x;" * n + "}" * 81),
    "calls in 80 calls": ((25000, 50000, 100000), lambda n: "int f();void g(int x){" + "f(" * 80 + ",".join(["x"] * n) + ")" * 80 + ";}"),
}


def told_growth(what, rows):
    per = [binding * 1000 / count if count else 0 for count, _, binding, _ in rows]
    growth = per[-1] / per[0] if per[0] else 0
    cells = ", ".join(f"{count} tokens {outcome}: read {reading / 1000:.1f} ms, bind {binding / 1000:.1f} ms, {p:.0f} ns a token"
                      for (count, reading, binding, outcome), p in zip(rows, per))
    print(f"{what}: {'flat' if growth <= 1.2 else f'NOT FLAT ({growth:.1f} times)'}; {cells}", flush=True)


def bench(corpus):
    units = preprocessed(corpus, "lua")
    unit = min(units, key=lambda unit: abs(len(unit) - 10000))
    for what, own in (("copies of a unit, names of the file anew in each", of_file(unit)),
                      ("copies of a unit, all names anew in each", set(unit))):
        told_growth(what, asked([copies(unit, count, own) for count in (1, 3, 10, 30, 100)]))
    rows = asked(["\n".join(unit) for unit in units])
    count, reading, binding = (sum(row[k] for row in rows) for k in range(3))
    outcomes = sorted({row[3] for row in rows})
    print(f"lua's {len(units)} units one by one: {count} tokens, read {reading / 1000:.0f} ms, bind {binding / 1000:.0f} ms "
          f"({binding / reading:.2f} times), {', '.join(outcomes)}", flush=True)
    for what, (sizes, made) in GROWING.items():
        told_growth(what, asked([made(n) for n in sizes]))


# Texts at the limits.

W = 120000
WIDE = {
    "pointers": lambda: "int " + "*" * W + "x;",
    "qualified pointers": lambda: "int " + "*const " * W + "x;",
    "qualifiers of a pointer": lambda: "int *" + "const " * W + "x;",
    "array suffixes": lambda: "int x" + "[1]" * W + ";",
    "function suffixes": lambda: "int x" + "()" * W + ";",
    "specifiers": lambda: "int " * W + "x;",
    "qualifiers": lambda: "const " * W + "int x;",
    "storage words": lambda: "extern " * W + "int x;",
    "parameters": lambda: numbered("int f(", "int a{k}", W, ");", ","),
    "parameters of a body": lambda: numbered("int f(", "int a{k}", W, "){}", ","),
    "names in an identifier list": lambda: numbered("int f(", "a{k}", W, "){}", ","),
    "declared names of such a list": lambda: numbered("int f(", "a{k}", W, ")", ",") + numbered("int ", "a{k}", W, ";{}", ","),
    "arguments": lambda: IN.format("f(" + ",".join("x" * W) + ");"),
    "calls of a result": lambda: IN.format("f" + "()" * W + ";"),
    "subscripts of a result": lambda: IN.format("p" + "[0]" * W + ";"),
    "postfix signs": lambda: IN.format("x" + "++" * W + ";"),
    "sums": lambda: IN.format("+".join("x" * W) + ";"),
    "commas": lambda: IN.format(",".join("x" * W) + ";"),
    "strings": lambda: IN.format('""' * W + ";"),
    "members": lambda: numbered("struct S{", "int m{k};", W, "};"),
    "members of one declaration": lambda: numbered("struct S{int ", "m{k}", W, ";};", ","),
    "enumerators": lambda: numbered("enum{", "e{k},", W, "};"),
    "initializers": lambda: "int a[]={" + "0," * W + "};",
    "designators": lambda: "int a[]={" + "[0]" * W + "=0};",
    "declarators": lambda: numbered("int ", "a{k}", W, ";", ","),
    "declarations": lambda: numbered("", "int a{k};", W),
    "functions": lambda: numbered("", "int f{k}(){{}}", W),
    "statements": lambda: IN.format("x;" * W),
    "empty statements": lambda: IN.format(";" * W),
    "blocks": lambda: IN.format("{}" * W),
    "jumps": lambda: IN.format("l:;" + "goto l;" * W),
    "labels": lambda: IN.format(numbered("", "l{k}:;", W)),
    "semicolons at file scope": lambda: ";" * W,
    "2^22 bytes of pointers": lambda: "int " + "*" * (2 ** 22 - 6) + "x;",
    "2^22 bytes of statements": lambda: "void f(void){" + ";" * (2 ** 22 - 14) + "}",
    "2^22 bytes of uses": lambda: "void f(int x){" + "x;" * (2 ** 21 - 8) + "}",
    "2^22 bytes of suffixes": lambda: "int x" + "()" * (2 ** 21 - 3) + ";",
    "2^22 bytes of initializers": lambda: "int a[]={" + "0," * (2 ** 21 - 6) + "};",
    "one byte more": lambda: "int " + "*" * (2 ** 22 - 5) + "x;",
}


def deepest(made):
    """The largest number at which the text is not too deep, and what comes of it there and behind it."""
    low, high = 1, 300
    while high - low > 1:
        middle = (low + high) // 2
        if asked([made(middle)], 0)[0][3] == "too deep":
            high = middle
        else:
            low = middle
    there, behind = asked([made(low), made(low + 1)], 0)
    return low, there[3], behind[3]


def limits():
    wrong = 0
    for what, made in NESTED.items():
        n, there, behind = deepest(made)
        good = there == "bound" and behind == "too deep"
        wrong += not good
        print(f"{'' if good else 'WRONG: '}nested {what}: {n} {there}, {n + 1} {behind}", flush=True)
    for what, made in WIDE.items():
        count, reading, binding, outcome = asked([made()], 0)[0]
        wrong += "ENDED" in outcome or outcome == "syntax error"
        print(f"{what}: {count} tokens, read {reading / 1000:.0f} ms, bind {binding / 1000:.0f} ms, {outcome}", flush=True)
    print(f"{len(NESTED) + len(WIDE)} texts, {wrong} not as they should be")
    return wrong != 0


if given == "--limits":
    sys.exit(limits())
bench(given)
