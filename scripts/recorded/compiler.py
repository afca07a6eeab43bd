"""What a compiler says of itself: where it looks for headers, and which macros it defines."""

import os
import re
import subprocess
from concurrent.futures import ThreadPoolExecutor

from options import Odd, compiling
from record import Refused

# What a condition asks the compiler of one word, as gcc or clang has it; the operands of such questions, each of which counts for each question,
# since programs wrap them in macros of their own; and the names of warnings, in quotes, of which no macro can be made.
QUESTIONS = ("__has_attribute", "__has_builtin", "__has_c_attribute", "__has_cpp_attribute", "__has_feature", "__has_extension",
             "__has_declspec_attribute", "__is_identifier", "__building_module")
ASKED = {
    "question": re.compile(rb"\b(" + "|".join(QUESTIONS).encode() + rb")\b"),
    "operand": re.compile(rb"(?i)(?:has_(?:builtin|feature|extension|(?:c_|cpp_|declspec_)?attribute)|is_identifier|building_module)"
                          rb"\s*\(\s*(\w+)\s*\)"),
    "warning": re.compile(rb'__has_warning\s*\(\s*("[-\w+=]+")\s*\)'),
}
# Macros that a compiler has and does not print, with what they stand for in the file that a command names as `said`; and the one of them that
# no line can say.
GIVEN = {"__BASE_FILE__": lambda said: said, "__FILE_NAME__": os.path.basename, "__TIMESTAMP__": lambda _: "Thu Jan  1 00:00:00 1970"}
NOT_GIVEN = "__INCLUDE_LEVEL__"
NAMED = re.compile(rf"\b({'|'.join([*GIVEN, NOT_GIVEN])})\b".encode())
# A condition, and in it a character constant with an element of 128 or more.
CONDITION = re.compile(rb"(?m)^[ \t]*#[ \t]*(?:if|elif)\b(?:[^\n\\]|\\.|\\\n)*'(?:[^\n\\]|\\.|\\\n)*")
HIGH = re.compile(rb"(?<![\w'])'(?:[^'\\\n]|\\.)*?(?:[\x80-\xff]|\\x0*[89A-Fa-f][\dA-Fa-f](?![\dA-Fa-f])|\\[23][0-7]{2})"
                  rb"(?:[^'\\\n]|\\.)*'")
MACHINES = (("__ILP32__", "other"), ("__x86_64__", "x86_64"), ("__aarch64__", "aarch64"), ("__i386__", "i386"))


class Answer:
    """`quote` and `angle` are the directories of both kinds of include lines, in order, `own` those of them that are
    the compiler's, `macros` pairs of a macro's head and body, `library` what the C library calls itself, `machine` the
    processor."""

    def __init__(self, quote, angle, own, macros, library):
        self.quote, self.angle, self.own, self.macros, self.library = quote, angle, own, macros, library
        names = {head for head, _ in macros}
        self.machine = next((machine for name, machine in MACHINES if name in names), "other")


def _run(words, directory, text=""):
    surroundings = dict(os.environ, LC_ALL="C", LANG="C")
    try:
        return subprocess.run(words, cwd=directory, input=text, capture_output=True, text=True, errors="surrogateescape",
                              env=surroundings, check=False)
    except FileNotFoundError:
        raise Refused(f"no compiler {words[0]}") from None
    except OSError as fault:
        raise Refused(f"compiler {words[0]}: {fault.strerror}") from None


def _directories(said):
    """The two lists that `-v` prints, each directory as it stands there."""
    quote, angle, into = [], [], None
    for line in said.splitlines():
        if line.startswith('#include "..." search starts here:'):
            into = quote
        elif line.startswith("#include <...> search starts here:"):
            into = angle
        elif line.startswith("End of search list."):
            into = None
        elif into is not None and line.startswith(" ") and not line.endswith("(framework directory)"):
            into.append(line[1:])
    return quote, angle


def head_and_body(text):
    """`NAME BODY` or `NAME(..) BODY`, parted: the name with its parameters, and the rest."""
    end = 0
    while end < len(text) and (text[end].isalnum() or text[end] == "_"):
        end += 1
    if text[end:end + 1] == "(":
        end = text.index(")", end) + 1
    return text[:end], text[end:].strip()


def own_parameters(head, body):
    """The macro with parameters whose names begin with `__`, and with `...` for the named rest of GNU C: so that no name of the
    program is one of them."""
    name, bracket, rest = head.partition("(")
    if not bracket:
        return head, body
    parts = re.split(r'("(?:[^"\\]|\\.)*"|\'(?:[^\'\\]|\\.)*\')', body)
    words = [word.strip() for word in rest.rstrip(")").split(",")]
    for n, word in enumerate(words):
        plain = word.removesuffix("...").strip()
        words[n] = "..." if word.endswith("...") else "__" + plain.removeprefix("__") if plain else ""
        if plain:
            own = "__VA_ARGS__" if word.endswith("...") else words[n]
            parts[::2] = [re.sub(rf"\b{re.escape(plain)}\b", own, part) for part in parts[::2]]
    return f"{name}({','.join(words)})", "".join(parts)


def _macros(said):
    lines = [line[len("#define "):] for line in said.splitlines() if line.startswith("#define ")]
    return [head_and_body(line) for line in lines]


def _questions(asked):
    """A text in which the compiler says which of the questions it has, by their numbers, and what it answers to each for each operand."""
    words = {name for kind, name in asked if kind == "operand"}
    words |= {f"__{name}__" for name in words if not name.startswith("_")} | {name.strip("_") for name in words} - {""}
    lines = []
    for number, question in enumerate(QUESTIONS):
        if ("question", question) in asked:
            answers = [f"answer {number} {word} {question}({word})" for word in sorted(words)]
            lines += [f"#ifdef {question}", f"there {number}", *answers, "#endif"]
    warnings = [f"warning __has_warning({name})" for kind, name in sorted(asked) if kind == "warning"]
    return "\n".join([*lines, "#ifdef __has_warning", "warnings", *warnings, "#endif", ""])


def _answers(said):
    """The define lines for what the compiler says of such a text: an operand is pasted to a name, which has a line where the compiler
    affirms it. Of warnings the answer is one for all."""
    lines, rows = [], [line.split() for line in said.splitlines()]
    for row in rows:
        name = QUESTIONS[int(row[1])].strip("_") if row[:1] in (["there"], ["answer"]) else ""
        if row[:1] == ["there"]:
            lines += [f"__{name}(__name) cscout_{name}(__name)", f"cscout_{name}(__name) cscout_{name}_##__name"]
        elif row[:1] == ["answer"] and row[-1].isdigit() and int(row[-1]):
            lines.append(f"cscout_{name}_{row[2]} {row[-1]}")
    if ["warnings"] in rows:
        lines.append(f"__has_warning(__name) {int(all(row[1:] == ['1'] for row in rows if row[:1] == ['warning']))}")
    return lines


class Compilers:
    """Asks each compiler once for each directory and list of options."""

    def __init__(self):
        self.known, self.folders, self.libraries, self.texts, self.asked, self.answers = {}, {}, {}, {}, {}, {}
        self.marked, self.marks, self.given = {}, {}, {}

    def ask(self, compiler, directory, options):
        if "/" in compiler:
            compiler = os.path.join(directory, compiler)
        key = compiler, directory, tuple(options)
        if key not in self.known:
            self.known[key] = self._ask(compiler, directory, options)
        return self.known[key]

    def system(self, compiler, directory, options):
        """The directories that the compiler has where the command names none."""
        words, plain = list(options), []
        while words:
            word = words.pop(0)
            if word in ("-iquote", "-isystem", "-idirafter"):
                words.pop(0)
            elif not word.startswith("-I"):
                plain.append(word)
        return self.ask(compiler, directory, plain).angle

    def _ask(self, compiler, directory, options):
        answer = _run([compiler, *options, "-E", "-dM", "-v", "-x", "c", "/dev/null"], directory)
        if answer.returncode:
            said = [line for line in answer.stderr.splitlines() if "error" in line] or ["it gives no reason"]
            raise Odd(f"the compiler {compiler} does not take the options: {said[0].strip()}")
        quote, angle = _directories(answer.stderr)
        macros = _macros(answer.stdout)
        if not macros:
            raise Odd(f"{compiler} prints no macros with -E -dM")
        own = self._own(compiler, directory)
        at = [os.path.realpath(os.path.join(directory, folder)) for folder in angle]
        return Answer(quote, angle, {folder for folder, real in zip(angle, at) if real in own}, macros,
                      self._library(compiler, directory, options))

    def look(self, entries):
        """Notes what the files of these units ask the compiler of words, for all units that have one compiler, folder and options: so all
        of them have the same answers. The compiler names the files of several units at once."""
        with ThreadPoolExecutor(len(os.sched_getaffinity(0))) as pool:
            for entry, files in zip(entries, pool.map(self._files, entries)):
                asked = self.asked.setdefault(self._key(entry), set())
                for path in files:
                    asked |= self._asked_in(path)
                self.marked[entry.number] = [path for path in files if path in self.marks]

    def affirmed(self, entry):
        """The define lines that answer what units like this one ask the compiler of words."""
        key = self._key(entry)
        if key not in self.answers:
            words = [self._path(entry), *entry.options.asking, "-w", "-E", "-P", "-x", "c", "-"]
            self.answers[key] = _answers(_run(words, entry.directory, _questions(self.asked[key])).stdout)
        return self.answers[key]

    def given_to(self, entry):
        """The define lines for macros that the compiler has and does not print, of those that the unit's files name."""
        lines, said = [], compiling(entry.words, entry.directory, entry.file)[1]
        for name in sorted({mark for path in self.marked[entry.number] for _, mark in self.marks[path]} & set(GIVEN)):
            key = entry.compiler, entry.directory, name
            if key not in self.given:
                text = f"#ifdef {name}\nthere\n#endif\n"
                self.given[key] = "there" in _run([self._path(entry), "-w", "-E", "-P", "-x", "c", "-"], entry.directory, text).stdout
            if self.given[key]:
                body = GIVEN[name](said).replace("\\", "\\\\").replace('"', '\\"')
                lines.append(f'{name} "{body}"')
        return lines

    def marks_of(self, entry):
        """The places in the unit's files of what a workspace cannot say: the path, the line, and the word or the constant."""
        return [(path, line, mark) for path in self.marked[entry.number] for line, mark in self.marks[path] if mark not in GIVEN]

    @staticmethod
    def _path(entry):
        return os.path.join(entry.directory, entry.compiler) if "/" in entry.compiler else entry.compiler

    @staticmethod
    def _key(entry):
        return entry.compiler, entry.directory, tuple(entry.options.asking)

    @staticmethod
    def _files(entry):
        """The unit's file and all that it includes, as the compiler names them."""
        said = _run(entry.compiling(["-M", "-MT", "x", "-w"]), entry.directory).stdout
        return [os.path.join(entry.directory, path) for path in said.replace("\\\n", " ").partition(":")[2].split()]

    def _asked_in(self, path):
        if path not in self.texts:
            try:
                with open(path, "rb") as file:
                    text = file.read()
            except OSError:
                text = b""
            # Nearly all files ask nothing, and one look says so.
            low = text.lower()
            patterns = ASKED.items() if any(word in low for word in (b"has_", b"is_identifier", b"building_module")) else ()
            self.texts[path] = {(kind, name.decode()) for kind, pattern in patterns for name in pattern.findall(text)}
            marks = [(it.start(), it.group()) for it in NAMED.finditer(text)] if b"__" in text else []
            for condition in CONDITION.finditer(text):
                high = HIGH.search(condition.group())
                marks += [(condition.start() + high.start(), high.group())] if high else []
            if marks:
                self.marks[path] = [(text.count(b"\n", 0, at) + 1, mark.decode("latin-1")) for at, mark in sorted(marks)]
        return self.texts[path]

    def _own(self, compiler, directory):
        """The compiler's own folders, with the headers that it brings itself."""
        if compiler not in self.folders:
            found = set()
            for name in "include", "include-fixed":
                said = _run([compiler, "-print-file-name=" + name], directory).stdout.strip()
                if "/" in said:
                    found.add(os.path.realpath(said))
            self.folders[compiler] = found
        return self.folders[compiler]

    def _library(self, compiler, directory, options):
        key = compiler, tuple(option for option in options if not option.startswith(("-I", "-f", "-W", "-O", "-g")))
        if key not in self.libraries:
            said = _run([compiler, *options, "-E", "-dM", "-x", "c", "-"], directory, "#include <limits.h>\n")
            names = {head for head, _ in _macros(said.stdout)}
            if said.returncode:
                self.libraries[key] = None
            else:
                self.libraries[key] = "glibc" if "__GLIBC__" in names else "musl"
        return self.libraries[key]
