"""Options of a recorded compiler command, as GCC and Clang take them."""

import os
import shlex

# Options that take the next word as their own.
TAKES_NEXT = set(
    "-o -I -iquote -isystem -idirafter -isysroot -iprefix -iwithprefix -iwithprefixbefore -imultilib -iframework -F -D -U"
    " -include -imacros -include-pch -x -MF -MT -MQ -MJ -L -l -u -T -z -e -A -B -arch -target --target --sysroot --param"
    " -Xlinker -Xassembler -Xpreprocessor -Xclang -mllvm -dumpbase -dumpbase-ext -dumpdir -aux-info -wrapper -framework"
    " -specs -resource-dir -gcc-toolchain --gcc-toolchain -ivfsoverlay -rpath -soname".split())
# Options whose argument may also be joined to them.
JOINED = ("-iquote", "-isystem", "-idirafter", "-include", "-imacros", "-I", "-D", "-U", "-o", "-x")
# What says nothing about preprocessing, and would make the compiler do more than answer.
ONLY_PREPROCESSED = ("-c", "-S", "-E", "-fsyntax-only")
DONE_WITHOUT = ("-M", "-L", "-l", "-Wl,", "-Wa,", "-save-temps", "--save-temps", "-Werror", "-pedantic-errors")
LAUNCHERS = {"ccache", "sccache", "distcc", "icecc", "nice", "env"}
C_NAMES = {".c"}
OTHERS = {
    **dict.fromkeys((".cc", ".cp", ".cpp", ".cxx", ".c++", ".C", ".CPP", ".ii", ".hh", ".hpp", ".tcc"), "C++"),
    **dict.fromkeys((".s", ".S", ".sx", ".asm"), "assembler"),
    **dict.fromkeys((".m", ".mi", ".M", ".mm", ".mii"), "Objective-C"),
    **dict.fromkeys((".f", ".F", ".f90", ".F90", ".for", ".f77"), "Fortran"),
    ".i": "preprocessed already",
    ".cu": "CUDA",
}
LANGUAGES = {"c": None, "cpp-output": "preprocessed already", "assembler": "assembler",
             "assembler-with-cpp": "assembler", "c++": "C++", "c++-cpp-output": "C++", "c-header": "a header alone",
             "objective-c": "Objective-C", "objective-c++": "C++", "none": ""}


class Odd(Exception):
    """What stands against an entry of the record."""


def _words_of_file(path, depth):
    """The words of a file that `@path` names, as GCC reads it."""
    if depth > 20:
        raise Odd(f"@{path}: files of options go deeper than 20")
    try:
        with open(path, encoding="utf-8") as file:
            return shlex.split(file.read())
    except (OSError, ValueError) as fault:
        raise Odd(f"@{path}: {getattr(fault, 'strerror', None) or fault}") from None


def spread(words, directory, depth=0):
    """The words with `@FILE`, `-Wp,..` and `-Xpreprocessor ..` replaced by what they stand for."""
    result, words = [], list(words)
    while words:
        word = words.pop(0)
        if word.startswith("@") and len(word) > 1:
            result += spread(_words_of_file(os.path.join(directory, word[1:]), depth), directory, depth + 1)
        elif word.startswith("-Wp,"):
            parts = word[4:].split(",")
            # `-Wp,-MD,FILE` is -MD with a file of its own.
            if parts and parts[0] in ("-MD", "-MMD") and len(parts) > 1:
                del parts[:2]
            result += parts
        elif word == "-Xpreprocessor":
            if not words:
                raise Odd("-Xpreprocessor has no word behind it")
            result.append(words.pop(0))
        else:
            result.append(word)
    return result


class Options:
    """What a command asks for.

    `asking` are the options under which the compiler is asked for its directories and macros, `settings` the pairs
    ("define" or "undefine", text) of `-D` and `-U` in their order, `included` the options `-include` and `-imacros` with
    their files, `system` and `after` the directories of `-isystem` and `-idirafter`, `inputs` the words that are no options,
    each with the language that `-x` gives it, `without` what is left out, each with the reason, `output` the word of `-o`."""

    def __init__(self, words, directory):
        self.asking, self.settings, self.inputs, self.without, self.included, self.system, self.after = [], [], [], [], [], [], []
        self.output, self.links, language = None, True, "none"
        words = spread(words, directory)
        while words:
            option, value = self._next(words)
            if option is None:
                self.inputs.append((value, language))
            elif option == "-x":
                if value not in LANGUAGES:
                    raise Odd(f"-x {value} is no language that is known here")
                language = value
            else:
                self._take(option, value)

    @staticmethod
    def _next(words):
        word = words.pop(0)
        if not word.startswith("-") or word == "-":
            return None, word
        if word in TAKES_NEXT:
            if not words:
                raise Odd(f"{word} has no word behind it")
            return word, words.pop(0)
        for option in JOINED:
            if word.startswith(option) and word != "-include-pch":
                return option, word[len(option):]
        return word, None

    def _take(self, option, value):
        if option == "-D":
            self.settings.append(("define", _defined(value)))
        elif option == "-U":
            self.settings.append(("undefine", _name(value, "-U")))
        elif option == "-o":
            self.output = value
        elif option in ("-include", "-imacros"):
            self.included.append((option, value))
        elif option == "-include-pch":
            self.without.append((f"{option} {value}", "it names no text, so what it brings is not seen"))
        elif option == "-I" and value == "-":
            raise Odd("-I- is not taken: name the directories with -iquote")
        elif option in ("-traditional", "-traditional-cpp", "-fpreprocessed", "-fdirectives-only"):
            raise Odd(f"{option} preprocesses otherwise than C does")
        else:
            if option in ONLY_PREPROCESSED or option in ("-M", "-MM"):
                self.links = False
            elif not option.startswith(DONE_WITHOUT):
                if option == "-isystem":
                    self.system.append(value)
                elif option == "-idirafter":
                    self.after.append(value)
                if value is None:
                    self.asking.append(option)
                elif option in ("-I", "-F", "-B"):
                    self.asking.append(option + value)
                else:
                    self.asking += [option, value]


def _name(text, option):
    name = text.split("(")[0]
    if not (name.isascii() and name.isidentifier()):
        raise Odd(f"{option}{text} names no macro")
    return text


def _defined(text):
    """The rest of a `define` line for `-DTEXT`."""
    name, equals, body = text.partition("=")
    _name(name, "-D")
    if "\n" in text or "\r" in text:
        raise Odd(f"-D{name} has a value of more than one line")
    if body.rstrip(" \t").endswith("\\"):
        raise Odd(f"-D{name} has a value that ends in a backslash, which a workspace line cannot say")
    if "/*" in body:
        raise Odd(f"-D{name} has a value with a comment")
    if not equals:
        body = "1"
    return f"{name} {body}".rstrip(" \t")


def compiling(words, directory, path):
    """The words of a command that preprocess or compile the one file `path` alone: without what the compiler is to make,
    where to, and what it links."""
    result, words, said = [], spread(words, directory), None
    while words:
        option, value = Options._next(words)
        if option is None:
            if os.path.realpath(os.path.join(directory, value)) == os.path.realpath(path):
                said = value
        elif option != "-o" and option not in ONLY_PREPROCESSED and not option.startswith(DONE_WITHOUT):
            if value is None:
                result.append(option)
            elif option in JOINED and option in ("-I", "-D", "-U"):
                result.append(option + value)
            else:
                result += [option, value]
    return result, said


def language_of(path, said):
    """None for a C file, else what it is."""
    if said != "none":
        return LANGUAGES[said]
    ending = os.path.splitext(path)[1]
    if ending in C_NAMES:
        return None
    return OTHERS.get(ending, f"a file that is called *{ending or path}")


def compiler_and_rest(words):
    """The compiler of a command and what follows it, behind the launchers before it."""
    words = list(words)
    while words and os.path.basename(words[0]) in LAUNCHERS:
        words.pop(0)
        while words and "=" in words[0] and not words[0].startswith("-"):
            words.pop(0)
    if not words or not words[0] or words[0].startswith("-"):
        raise Odd("the command has no compiler")
    return words[0], words[1:]
