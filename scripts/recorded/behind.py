"""What the build has and the workspace does not: macros that its units use, since the kit leaves out `__GNUC__` and the like, and names
in assembler, which the kit drops."""

import os
import re
import shlex
import subprocess
import tempfile
from concurrent.futures import ThreadPoolExecutor

from compiler import head_and_body, own_parameters
from hints import GNU_BODY
from unseen import dropped_names

MARKER = re.compile(r'^# (\d+) "((?:[^"\\]|\\.)*)".*$', re.M)
STRING = re.compile(r'"(?:[^"\\\n]|\\.)*"|\'(?:[^\'\\\n]|\\.)*\'')
# By what a file asks for a compiler or a library that the workspace is not: without one of them it is the same to both.
ASKING = re.compile(r"__GNU|__clang|__has_|__STDC|__OPTIMIZE|__llvm|__glibc|__GLIBC|__VERSION__|__SSE|__AVX|__ARM|__MMX|__BMI|__GCC")
# How many lines with assembler are told one by one.
SOME = 4


class Text:
    """What a compiler preprocesses of files below the root: `macros` has for each macro that is defined there, and that is there at
    the end, its head, body, and place; `lines` by file the lines of text, `text` all of it
    with the strings empty."""

    def __init__(self, said, root, directory):
        self.macros, self.lines, known, own = {}, {}, {}, []
        marks = list(MARKER.finditer(said))
        for mark, end in zip(marks, [mark.start() for mark in marks[1:]] + [len(said)]):
            path = re.sub(r"\\(.)", r"\1", mark.group(2))
            if path not in known:
                known[path] = path if path.startswith("<") else root.file(os.path.join(directory, path))
            if not known[path].startswith(("/", "<")):
                self._take(said[mark.end() + 1:end], known[path], int(mark.group(1)), own)
        self.text = STRING.sub('""', "\n".join(own))

    def _take(self, text, path, first, own):
        lines = self.lines.setdefault(path, set())
        for number, line in enumerate(text.split("\n"), first):
            if line.startswith("#define "):
                head, body = head_and_body(line[len("#define "):])
                self.macros[head.partition("(")[0]] = head, body, f"{path}:{number}"
            elif line.startswith("#undef "):
                self.macros.pop(line[len("#undef "):].strip(), None)
            elif line and not line.isspace() and not line.startswith("#"):
                lines.add(number)
                own.append(line)

    def uses(self, name):
        """Whether the name is left over in the text, and no function is defined by it."""
        return (re.search(rf"\b{name}\b", self.text) is not None
                and re.search(rf"[\w*]\s+\**{name}\s*\([^{{}};]*\)\s*{{", self.text) is None)


def _said(words, directory):
    run = subprocess.run(words, cwd=directory, capture_output=True, text=True, errors="surrogateescape", check=False,
                         stdin=subprocess.DEVNULL, env=dict(os.environ, LC_ALL="C"))
    return run.stdout


def of_build(entry, root):
    """The unit as the recorded command preprocesses it."""
    return Text(_said(entry.compiling(["-E", "-dD", "-w"]), entry.directory), root, entry.directory)


def of_workspace(entry, unit, root, standard):
    """The unit as the same compiler preprocesses it with the include paths and settings of the workspace alone."""
    compiler = os.path.join(entry.directory, entry.compiler) if "/" in entry.compiler else entry.compiler
    with tempfile.NamedTemporaryFile("w", suffix=".h", encoding="utf-8") as settings:
        settings.write("".join(f"#define {head} {body}\n" for head, body in unit.settings.values()))
        settings.flush()
        words = [compiler, "-E", "-dD", "-w", "-undef", "-nostdinc", f"-std={standard}", "-imacros", settings.name]
        for option, named in zip(("-iquote", "-I", "-include"), unit.places):
            words += [word for name in named for word in (option, name)]
        return Text(_said([*words, "-x", "c", unit.path], root.path), root, root.path)


def define_of(head, body):
    """The words of an option that give the macro to the workspace; None where its body is GNU C."""
    head, body = own_parameters(head, body)
    if GNU_BODY.search(body) or body.endswith("\\"):
        return None
    return "--define " + shlex.quote(f"{head} {body}".rstrip())


class Sources:
    """The files below the root, each read once: whether it asks for what the kit leaves out, and the names in operands of assembler,
    each with its line."""

    def __init__(self, root):
        self.root, self.known = root, {}

    def of(self, path):
        if path not in self.known:
            try:
                with open(os.path.join(self.root.path, path), encoding="latin-1") as file:
                    text = file.read()
            except OSError:
                text = ""
            names = [(line, name) for line, word, name in dropped_names(text) if "asm" in word] if "asm" in text else []
            self.known[path] = ASKING.search(text) is not None, names
        return self.known[path]


def compared(pairs, root, standard):
    """What is said of macros that some unit uses and only the build has, and of names in assembler; `pairs` are entries and units."""
    sources, found, dropped = Sources(root), {}, {}

    def of(pair):
        build = of_build(pair[0], root)
        macros = {name: macro for name, macro in build.macros.items() if name not in pair[1].settings}
        if macros and any(sources.of(path)[0] for path in build.lines):
            seen = of_workspace(*pair, root, standard)
            macros = {name: macro for name, macro in macros.items() if name not in seen.macros and seen.uses(name)}
        else:
            macros = {}
        return macros, [(path, line, name) for path, lines in build.lines.items() for line, name in sources.of(path)[1] if line in lines]
    with ThreadPoolExecutor(os.cpu_count()) as pool:
        for macros, names in pool.map(of, pairs):
            for name, macro in macros.items():
                found.setdefault(name, macro)
            for path, line, name in names:
                dropped.setdefault((path, line), {})[name] = True
    return [*_macros_said(found), *_dropped_said(dropped)]


def _macros_said(found):
    def place_of(item):
        path, _, line = item[1][2].rpartition(":")
        return path, int(line)
    for name, (head, body, place) in sorted(found.items(), key=place_of):
        line = define_of(head, body)
        yield (f"{place}: the macro {name} is there in the build alone, and "
               + ("its body is GNU C" if line is None else f"{line} gives it to the workspace"))


def _dropped_said(dropped):
    places = sorted(dropped)
    for path, line in places[:SOME]:
        yield f"{path}:{line}: a rename does not reach what stands in assembler: {', '.join(dropped[path, line])}"
    if len(places) > SOME:
        yield f"a rename does not reach assembler in {len(places) - SOME} lines more: scripts/unseen prints them"
