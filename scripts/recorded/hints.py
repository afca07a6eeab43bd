"""What the first fault of a unit means, most often, and what helps: the tables of docs/GUIDE.md, row by row, in their order."""

import re
from collections import namedtuple

# `found` says of a Place whether the row is about it; `where`, `means` and `helps` are the row's cells.
Hint = namedtuple("Hint", "words found where means helps")
ASSEMBLER = ("asm", "__asm__", "__asm")
# What the body of a macro has that is GNU C.
GNU_BODY = re.compile(r"\(\s*\{|\b(__)?typeof(__)?\b|##\s*__VA_ARGS__|\b__auto_type\b|\b__label__\b|\?\s*:|\bvolatile\s*\(")
CAPITALS = re.compile(r"[A-Z_][A-Z0-9_]+\Z")


class Place:
    """Where a fault stands: the line, whether its file is the program's own, the token with the one before it in the line, and the
    `define` lines of a macro of that name that the program has."""

    def __init__(self, line, column, own, defined):
        self.line, self.own = line, own
        self.token = re.match(r"[A-Za-z_]\w*|\S?", line[column:]).group(0)
        before = re.findall(r"[A-Za-z_]\w*|\S", line[:column])
        self.before = before[-1] if before else ""
        self.defined = defined(self.token) if re.match(r"[A-Za-z_]", self.token) else []


def _assembler(place):
    return place.token in ASSEMBLER or place.before in ASSEMBLER


def _capitals(place):
    return any(CAPITALS.match(word) for word in (place.token, place.before))


HINTS = [
    Hint("missing file", lambda it: True, "`missing file`", "a header that the build makes, or another folder than that of the workspace",
         "build first, and import anew; run it in the folder that the workspace's paths are relative to"),
    Hint("bad directive", lambda it: not it.own, "`bad directive` in a header of the system",
         "`#warning`, `#include_next`, a GNU macro `f(args...)`",
         "`--define` what the lines above a `#warning` ask for; or a stand-in header of the same name in a folder of your own, with "
         "`ipath` of it before the system's"),
    Hint("bad directive", lambda it: re.search(r"\w\s*\.\.\.", it.line), "`bad directive` at `f(args...)`", "a GNU macro",
         "write `f(...)`, and `__VA_ARGS__` for `args`"),
    Hint("bad directive", lambda it: True, "`bad directive` at another line of the program",
         "`#warning`, `#include_next`, `#import`, `#ident`, `#assert`", "an edit of the line"),
    Hint("error directive", lambda it: True, "`error directive`", "a header or the program wants to know the compiler or the system",
         "read the line above it; `--define` what it asks for"),
    Hint("bad condition", lambda it: True, "`bad condition`", "a test that the compiler has built in, `__has_something(x)`",
         "`--define '__has_something(x) 0'`"),
    Hint("defined from macro", lambda it: True, "`defined from macro`", "a macro that stands for `defined`",
         "write out in the condition what it stands for"),
    Hint("not one token", lambda it: True, "`not one token`", "`, ## __VA_ARGS__`",
         "put the argument before it into the `...`, so that the comma needs no care"),
    Hint("wrong arguments", lambda it: True, "`wrong arguments`",
         "an operand with commas, of a word to which a define line gives one parameter; a macro that has others where `__GNUC__` is",
         "`--define 'WORD(...)'`, or the macro as it is there"),
    Hint("open call", lambda it: True, "`open call`", "the `(` behind the macro's name is closed in another file, or behind a directive",
         "an edit: name and arguments in one place, without directives"),
    Hint("mixed linkage", lambda it: True, "`mixed linkage`",
         "a name is declared with `static` and without it, often since a macro stands for `static` where `__GNUC__` is alone",
         "`--define` the macro; or write `static` at the first declaration too"),
    Hint("syntax", lambda it: it.token == "{" and it.before == "(", "`syntax` at a `{` behind `(`", "a statement expression",
         "an inline function"),
    Hint("syntax", lambda it: any(GNU_BODY.search(line) for _, line in it.defined), "`syntax` at a macro whose `define` line has GNU C",
         "`({ .. })`, `typeof` or `a ?: b` in it", "an inline function, or an edit of that line"),
    Hint("syntax", lambda it: it.token == ":" and it.before == "?", "`syntax` at a `:` behind `?`", "`a ?: b`", "write `a ? a : b`"),
    Hint("syntax", lambda it: it.token.strip("_") == "typeof" or it.before.strip("_") == "typeof", "`syntax` at `typeof`, or behind it",
         "GNU's word for the type of an expression", "write the type"),
    Hint("syntax", lambda it: it.token == ".", "`syntax` at `...`", "`case 1 ... 5:`, `[0 ... 7] =`", "write each value"),
    Hint("syntax", lambda it: it.token == "}" and it.before == "{", "`syntax` at a `}` behind `{`", "`struct {}`, `= {}`",
         "a member; `= {0}`"),
    Hint("syntax", _assembler, "`syntax` at `asm`, or behind it", "a statement of assembler with `volatile` or `goto`",
         "an inline function in a file that is not a unit, declared in a header; or `--without` the unit"),
    Hint("syntax", lambda it: it.token.startswith("__") or it.before.startswith("__"), "`syntax` at a word of the compiler",
         "the word has no line in the kit", "`--define 'WORD'`, or with what stands for it, all operands kept"),
    Hint("syntax", _capitals, "`syntax` at a name in capitals, or behind it",
         "a macro that is there only where `__GNUC__` is, for an attribute say",
         "the `--define` line that `scripts/import` prints for it"),
    Hint("syntax", lambda it: it.token == ";" and it.before == "}", "`syntax` at `;` behind the `}` of a structure's member",
         "a member without a name (C11)", "`--standard c11`"),
    Hint("syntax", lambda it: True, "`syntax` at another place", "another construct of the table below", "the edit that it names"),
    Hint("undeclared", lambda it: True, "`undeclared`",
         "a name that is defined where `__GNUC__` is; a function that the compiler has built in",
         "`--define` it: `scripts/import` prints the line for a macro of the program"),
    Hint("no member", lambda it: True, "`no member`", "a member that a stand-in leaves out", "a stand-in of your own"),
    Hint("redeclared", lambda it: True, "`redeclared`", "one name for two things, of which the compiler sees one alone",
         "`skipped` shows which lines are out of sight; `--define` what chooses the right ones"),
    Hint("too many", lambda it: True, "`too many units`, `too many tokens`, `too many bytes`", "the workspace is too large",
         "`--without` what a rename need not reach"),
]


# The rows for units of GNU C; where these say nothing, the others do that do not speak of GNU C.
GNU_HINTS = [
    Hint("bad directive", lambda it: "__VA_OPT__" in it.line, "`bad directive` at `__VA_OPT__`", "a word of C23 in a macro",
         "`, ## __VA_ARGS__`"),
    Hint("bad directive", lambda it: True, "`bad directive` at another line", "`#import`, `#assert`, a line `# 1 \"file\"`",
         "an edit of the line; where a file is made by a tool, an option of that tool"),
    Hint("bad condition", lambda it: True, "`bad condition`", "a comma, or a constant as `0b1`; a test that another compiler has built in",
         "an edit of the line; `--define '__has_something(x) 0'`"),
    Hint("wrong arguments", lambda it: True, "`wrong arguments`", "a call with another number of arguments, which the compiler refuses too",
         "build first, and import anew"),
    Hint("not one token", lambda it: True, "`not one token`", "`##` between what makes no token, which the compiler refuses too", "an edit"),
    Hint("mixed linkage", lambda it: True, "`mixed linkage`", "a name is declared without `static` first, and with it later, which the compiler "
         "refuses too", "write `static` at the first declaration too"),
    Hint("syntax", lambda it: it.token == "{" and it.before in (")", ""), "`syntax` at a `{` behind `)`, or at the beginning of a line",
         "a function in a function", "move it out of the function"),
    Hint("syntax", lambda it: it.token[:1] in ("\"", "'") or it.before in ("u8", "u", "U"), "`syntax` at a quote behind `u8`, `u` or `U`",
         "a string or constant with a prefix of C11", "`--without` the unit"),
    Hint("syntax", lambda it: it.token == "$" or it.before == "$" or (it.token and not it.token.isascii()),
         "`syntax` at `$`, or at a letter beyond ASCII", "a name with such a letter", "another name, or `--without` the unit"),
    Hint("syntax", lambda it: True, "`syntax` at another place",
         "a declaration without a type; words of another compiler than gcc, as `^` and `_BitInt` of clang", "write the type; `--without` the unit"),
    Hint("undeclared", lambda it: it.before == "enum", "`undeclared` behind `enum`", "an enumeration whose list comes later", "move the list up"),
    Hint("undeclared", lambda it: True, "`undeclared` at another place",
         "a name of another compiler than gcc", "`--define` it"),
    Hint("no member", lambda it: True, "`no member`", "a member of what `_Generic`, `__builtin_choose_expr` or a vector gives",
         "a variable of that type for it"),
    Hint("redeclared", lambda it: True, "`redeclared`", "one name for two things, which the compiler refuses too", "build first, and import anew"),
]
# Those of the others that hold there too.
SHARED = ("missing file", "error directive", "defined from macro", "open call", "too many")


def hint_of(words, place, gnu=False):
    """The row for a fault, or None where the table has none."""
    table = GNU_HINTS + [hint for hint in HINTS if hint.words in SHARED] if gnu else HINTS
    return next((hint for hint in table if words.startswith(hint.words) and hint.found(place)), None)


def rows(table):
    """The rows of a table as docs/GUIDE.md has them."""
    return [f"| {hint.where} | {hint.means} | {hint.helps} |" for hint in table]
