"""Random texts through a program over macro_expand and through the model; prints how many differ."""

import os
import random
import subprocess
import sys

sys.path.insert(0, os.environ["MODEL"])
from cscout_ref import expand, lexer, shape

LETTERS = {"Ident": "I", "Number": "N", "Char": "C", "Str": "S", "Punct": "P", "Other": "O", "Header": "H"}
MACROS = ["a", "b", "f", "g", "h"]
NAMES = MACROS + ["x", "y", "L", "__LINE__", "__FILE__", "fg", "ab"]
SIGNS = ["1", "2", "+", "-", "<", "=", ".", ",", "5", '"s"', "'c'", '"\\\\"', "'\"'", "@", "%", ":", "\\", "...", "(", ")"]
FAULTS = ["OpenCall", "WrongArguments", "NotOneToken", "NotAString", "TooMuchWork", "TooDeep"]
WORK = {"a": 4000, "b": 60, "c": 20, "d": 7}
PATHS = {"a": b"a.c", "b": b'd\\"e'}
BATCH = 1000


def body(rnd, params, function):
    """A replacement list."""
    out = []
    for _ in range(rnd.randrange(0, 7)):
        r = rnd.random()
        if function and params and r < 0.2:
            out.append(rnd.choice(["#", "# ", "%:"]) + rnd.choice(params))
        elif r < 0.45 and params:
            out.append(rnd.choice(params))
        elif r < 0.62:
            out.append(rnd.choice(NAMES))
        elif r < 0.74:
            ends = params + params + NAMES + ["1", "5"]
            out.append(rnd.choice(ends) + rnd.choice([" ## ", "##", " ##", " %:%: "]) + rnd.choice(ends))
        elif r < 0.8 and out:
            out.append("##")
        elif r < 0.84:
            out.append(rnd.choice(["f(", "g(", "h (", "("]))
        elif r < 0.88:
            out.append(")")
        else:
            out.append(rnd.choice(SIGNS))
    while out and out[-1] == "##":
        out.pop()
    return rnd.choice([" ", ""]).join(out) if rnd.random() < 0.3 else " ".join(out)


def define(rnd, name, arity):
    """A definition; `arity` keeps how many arguments a call of the macro has."""
    if rnd.random() < 0.35:
        arity[name] = None
        return "#define %s %s" % (name, body(rnd, [], False))
    params = rnd.sample(["x", "y", "z"], rnd.choice([0, 1, 1, 1, 2, 2, 3]))
    variadic = rnd.random() < 0.3
    arity[name] = len(params) + (rnd.randrange(0, 3) if variadic else 0)
    names = params + (["__VA_ARGS__"] if variadic else [])
    return "#define %s(%s) %s" % (name, rnd.choice([",", ", "]).join(params + (["..."] if variadic else [])), body(rnd, names, True))


def argument(rnd, arity, depth):
    r = rnd.random()
    if r < 0.12:
        return ""
    if r < 0.45 and depth < 4:
        return call(rnd, arity, depth + 1)
    if r < 0.55:
        return "(" + ",".join(rnd.choice(NAMES) for _ in range(rnd.randrange(3))) + ")"
    if r < 0.57:
        return rnd.choice(["\\", "x \\ y", "'"])
    return rnd.choice([" ", "", "\n"]).join(rnd.choice(NAMES + SIGNS[:7] + SIGNS[8:13]) for _ in range(rnd.randrange(1, 4)))


def call(rnd, arity, depth=0):
    name = rnd.choice([n for n in MACROS if arity.get(n) is not None] or ["f"])
    count = (arity.get(name) or 0) if rnd.random() < 0.93 else rnd.randrange(5)
    args = [argument(rnd, arity, depth) for _ in range(count)]
    return name + rnd.choice(["", "", " ", "\n"]) + "(" + rnd.choice([", ", ",", " ,"]).join(args) + ")"


def loose(rnd):
    """Tokens whose parentheses need not match."""
    out = []
    for _ in range(rnd.randrange(1, 14)):
        r = rnd.random()
        if r < 0.5:
            out.append(rnd.choice(NAMES))
        elif r < 0.68:
            out.append(rnd.choice(["f(", "g(", "h(", "a("]))
        elif r < 0.86:
            out.append(")")
        else:
            out.append(rnd.choice(SIGNS + ["\n", "/**/", "'", '"']))
    missing = sum(o.endswith("(") for o in out) - out.count(")")
    if missing > 0 and rnd.random() < 0.8:
        out += [")"] * missing
    return rnd.choice([" ", ""]).join(out) if rnd.random() < 0.2 else " ".join(out)


def run(rnd, arity):
    if rnd.random() < 0.75:
        return " ".join(call(rnd, arity) if rnd.random() < 0.7 else rnd.choice(NAMES) for _ in range(rnd.randrange(1, 5)))
    return loose(rnd)


def text_of(rnd):
    """Definitions, text lines, and at times more of both."""
    arity = {}
    if rnd.random() < 0.01:
        depth = rnd.choice([50, 199, 200, 201, 202, 230])
        lines = ["#define f(x) " + rnd.choice(["x", "<x>", "x g"]), define(rnd, "g", arity), "f(" * depth + "g" + ")" * depth]
        return "\n".join(lines).encode() + b"\n"
    lines = [define(rnd, name, arity) for name in rnd.sample(MACROS, rnd.randrange(1, 6))] + [run(rnd, arity)]
    while rnd.random() < 0.25:
        lines.append(rnd.choice([define(rnd, rnd.choice(MACROS), arity), "#undef " + rnd.choice(NAMES[:8])]))
        lines.append(run(rnd, arity))
    return "\n".join(lines).encode() + b"\n"


def origins(tok):
    """One position or none for each character."""
    if tok.source and tok.source[0] == "string":
        return [None] * len(tok.text)
    if tok.source and tok.source[0] == "paste":
        return origins(tok.source[1]) + origins(tok.source[2])
    return list(tok.origins) + [None] * (len(tok.text) - len(tok.origins))


def place(pos):
    return "%08x:%08x" % pos if pos else "-"


def row(mark, tok):
    places = "".join(" " + place(pos) for pos in origins(tok))
    return "%s%s%d%d %s %08x %s%s" % (mark, LETTERS[tok.kind], tok.gap, tok.direct, place(tok.at), tok.line, tok.text.hex(), places)


def expected(items, path, left):
    """What the program is to print, and a word for it."""
    table, work, notes, out = expand.first_definitions(), expand.Work(left), expand.Notes(), []
    try:
        for item in items:
            if item.kind == "Define":
                table[item.definition.name.text] = item.definition
            elif item.kind == "Undef":
                table.pop(item.toks[2].text, None)
            else:
                out += expand.expand(table, path, item.toks, work, notes)
    except expand.ExpandFault as fault:
        return ["!%08x %s" % (FAULTS.index(fault.cause) + 1, place(fault.at))], fault.cause
    rows = [row("t", tok) for tok in out]
    for link in notes.links:
        rows += [row("x", link.x), row("y", link.y)]
    rows += [row("p", tok) for tok in notes.pasted] + [row("s", tok) for tok in notes.stringized]
    for replaced in notes.replaced:
        rows += [row("r", replaced.name), " %s %08x" % (place(replaced.definition.pos), replaced.before)]
    return rows + ["=%08x" % work.left], "Ok"


def is_doubtful(definition):
    """A `##` that is the operand of another stands before a parameter, which the model takes for an operand too."""
    pastes = 0
    for tok in definition.body:
        if tok.text in definition.index and pastes > 0 and pastes % 2 == 0:
            return True
        pastes = pastes + 1 if tok.is_punct(b"##", b"%:%:") else 0
    return False


def case(rnd):
    """A text whose lines are all definitions and text lines."""
    while True:
        text = text_of(rnd)
        try:
            items = shape.shape(lexer.FileText(1, text))
        except lexer.LexFault:
            continue
        if any(item.kind not in ("Define", "Undef", "Run") for item in items):
            continue
        if any(item.kind == "Define" and is_doubtful(item.definition) for item in items):
            continue
        work, path = rnd.choice("aaaabcd"), rnd.choice("ab")
        want, word = expected(items, PATHS[path], WORK[work])
        if len(want) < 2000 and (len(want) > 1 or word != "Ok"):
            return (work + path).encode() + text, want, word


def main():
    dump, folder, seed, count = sys.argv[1], sys.argv[2], int(sys.argv[3]), int(sys.argv[4])
    rnd, bad, told = random.Random(seed), 0, {}
    for first in range(0, count, BATCH):
        cases = [case(rnd) for _ in range(min(BATCH, count - first))]
        paths = [os.path.join(folder, "text%d" % k) for k in range(len(cases))]
        for path, (text, _, _) in zip(paths, cases):
            with open(path, "wb") as file:
                file.write(text)
        out = subprocess.run([dump] + paths, capture_output=True, check=True).stdout
        got = out.decode().split("\n.\n")
        if len(got) < len(cases):
            print("%d texts, and %d answers" % (len(cases), len(got)))
            return 1
        for (text, want, word), have in zip(cases, got):
            told[word] = told.get(word, 0) + 1
            if have != "\n".join(want):
                bad += 1
                print("differs:", text, "\n  model  ", want[:6], "\n  program", have[:300])
    print("%d random texts, %d differ;" % (count, bad), ", ".join("%s %d" % pair for pair in sorted(told.items())))
    return 1 if bad else 0


sys.exit(main())
