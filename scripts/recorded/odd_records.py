"""Small records, odd and broken, and what the import makes of them; pairs of texts, with what differs between their objects; and
bad words and files of the other scripts, with what they say.

Each row: what it shows; files beside a.c; the record (entries, to which `directory` and `file` a.c are added where they do not say
it, or a text); the words of the command; the status; the lines of the workspace without what compiler and kit bring, and the files
that are written; and what is said, `@AT@` standing for the folder."""

ONE = "import: 1 units of 1 files\n"
PLAIN = "project default\nfile a.c"


def cc(*words):
    return {"arguments": ["cc", *words, "-c", "a.c"]}


ODD = [
    ("arguments", {}, [cc("-DA", "-DB=2", "-D", "C=x y", "-DD=", "-DE(x)=x + 1")], ["c.json"], 0,
     "project default\ndefine A 1\ndefine B 2\ndefine C x y\ndefine D\ndefine E(x) x + 1\nfile a.c", ONE),
    ("a command is split as a shell does", {}, [{"command": "cc -DA='\"x y\"' -DB=\\\"z\\\" -c a.c"}], ["c.json"], 0,
     'project default\ndefine A "x y"\ndefine B "z"\nfile a.c', ONE),
    ("the last word on a name counts", {}, [cc("-DA=1", "-UA", "-DB=1", "-DB=2", "-UC")], ["c.json"], 0,
     "project default\ndefine B 2\nfile a.c", ONE),
    ("a macro of the compiler goes", {"b.c": ""}, [cc("-std=gnu99", "-Ulinux"), {"arguments": ["cc", "-std=gnu99", "-c", "b.c"], "file": "b.c"}],
     ["c.json"], 0, "project default\nfile a.c\ndefine linux 1\nfile b.c", "import: 2 units of 2 files\n"),
    ("words behind commas", {}, [cc("-Wp,-MD,a.dep,-DA=1", "-Xpreprocessor", "-DB")], ["c.json"], 0,
     "project default\ndefine A 1\ndefine B 1\nfile a.c", ONE),
    ("words of a file", {"words": "-DA=1 '-DB=x y' @more", "more": "-DC=3"}, [cc("@words")], ["c.json"], 0,
     "project default\ndefine A 1\ndefine B x y\ndefine C 3\nfile a.c", ONE),
    ("a launcher goes before the compiler", {}, [{"arguments": ["ccache", "cc", "-DA", "-c", "a.c"]}], ["c.json"], 0,
     "project default\ndefine A 1\nfile a.c", ONE),
    ("include paths in the compiler's order", {"i/x.h": "", "q/x.h": "", "s/x.h": "", "l/x.h": ""},
     [cc("-isystem", "s", "-idirafter", "l", "-iquoteq", "-I", "i", "-I./i/../i", "-Inowhere")], ["c.json"], 0,
     "readonly s/\nproject default\nqpath q\nipath i\nipath s\nipath l\nfile a.c", ONE),
    ("directories of quoted names alone", {"a.c": "#include <x.h>\n#include \"x.h\"\n", "i/x.h": "", "q/x.h": ""},
     [cc("-iquote", "q", "-I", "i", "-iquoter", "-iquote", "./q")], ["c.json"], 0, "project default\nqpath q\nipath i\nfile a.c", ONE),
    ("what comes before the file", {"d/x.h": "", "i/y.h": "", "i/x.h": "", "m.h": ""},
     [{"directory": "@AT@/d", "file": "../a.c", "arguments": ["cc", "-I../i", "-include", "x.h", "-imacros", "../m.h", "-includey.h", "-c",
                                                              "../a.c"]}], ["c.json"], 0,
     "project default\nipath i\ninclude m.h\ninclude d/x.h\ninclude i/y.h\nfile a.c",
     "import: a.c: -imacros ../m.h is read whole: what it declares is seen too\n" + ONE),
    ("a file that the caller puts before all", {"d/x.h": "", "m.h": ""}, [cc("-include", "m.h")], ["--include", "d/x.h", "--include=m.h", "c.json"],
     0, "project default\ninclude d/x.h\ninclude m.h\ninclude m.h\nfile a.c", ONE),
    ("a heading for each list of what comes before", {"x.h": "", "y.h": ""},
     [cc("-include", "x.h"), cc("-include", "y.h", "-DA"), cc("-include", "x.h", "-DB"), cc("-DC")], ["c.json"], 0,
     "project default\ninclude x.h\nfile a.c\ndefine B 1\nfile a.c\nproject default\ninclude y.h\ndefine A 1\nfile a.c\n"
     "project default\ndefine C 1\nfile a.c", "import: 4 units of 1 files\n"),
    ("macros that the build alone has", {"a.c": "#include \"x.h\"\nint f(const char *s, ...) PRINTS(1, 2);\nint g(void) { PASS(1); }\n"
                                               "#ifdef TESTED\n#endif\nint h(void) { return BOTH; }\n"
                                               "char *said = \"QUOTED\";\n#ifndef swap\nstatic int swap(int n)\n{ return n; }\n#endif\n"
                                               "int k(void) { return swap(1); }\n",
                                        "x.h": "#ifdef __GNUC__\n#define PRINTS(a, b) __attribute__((format(printf, a, b)))\n"
                                               "#define PASS(x...) ({ f(x); })\n#define TESTED 1\n#define UNUSED 1\n#define BOTH 1\n"
                                               "#define QUOTED 1\n#define swap(x) (x)\n"
                                               "#else\n#define BOTH 2\n#endif\n"}, [cc()], ["c.json"], 0, PLAIN,
     "import: x.h:2: the macro PRINTS is there in the build alone, and --define 'PRINTS(__a,__b) __attribute__((format(printf, __a, __b)))' "
     "gives it to the workspace\nimport: x.h:3: the macro PASS is there in the build alone, and its body is GNU C\n" + ONE),
    ("a macro that is given", {"a.c": "#include \"x.h\"\nint f(int) ONE;\n", "x.h": "#ifdef __GNUC__\n#define ONE __attribute__((pure))\n#endif\n"},
     [cc()], ["--define", "ONE", "c.json"], 0, "project default\ndefine ONE\nfile a.c", ONE),
    ("a folder of its own for each command", {"d/b.c": "", "h/y.h": ""},
     [{"directory": "@AT@/d", "file": "b.c", "arguments": ["cc", "-I../h", "-I.", "-c", "b.c"]}], ["c.json"], 0,
     "project default\nipath h\nipath d\nfile d/b.c", ONE),
    ("the root", {"d/b.c": "", "h/y.h": ""}, [{"file": "d/b.c", "arguments": ["cc", "-Id", "-c", "d/b.c"]}],
     ["--root", "d", "c.json"], 0, "project default\nipath .\nfile b.c", ONE),
    ("one unit for a file and its settings", {}, [cc("-DA"), cc("-O2", "-g", "-DA"), cc("-DA=1", "-o", "x.o"), cc("-DA=2")],
     ["c.json"], 0, "project default\ndefine A 1\nfile a.c\ndefine A 2\nfile a.c",
     "import: 2 units of 1 files\n"),
    ("shared settings come once", {"b.c": "", "d.c": ""},
     [cc("-DONE", "-DTWO=2"), {"arguments": ["cc", "-DTWO=2", "-c", "b.c"], "file": "b.c"},
      {"arguments": ["cc", "-DTWO=2", "-DONE", "-c", "d.c"], "file": "d.c"}], ["c.json"], 0,
     "project default\ndefine TWO 2\ndefine ONE 1\nfile a.c\nfile d.c\nundefine ONE\nfile b.c", "import: 3 units of 3 files\n"),
    ("programs that are linked apart", {"b.c": "", "u.c": ""},
     [{"arguments": ["cc", "a.c", "u.o", "-o", "one"]}, {"arguments": ["cc", "b.c", "u.o", "-o", "two"], "file": "b.c"},
      {"arguments": ["cc", "-c", "u.c"], "file": "u.c"}], ["c.json"], 0,
     "project one\nfile a.c\nfile u.c\nproject two\nfile b.c\nfile u.c", "import: 4 units of 3 files\n"),
    ("a library leaves all in one project", {"b.c": ""},
     [{"arguments": ["cc", "a.c", "l.a", "-o", "one"]}, {"arguments": ["cc", "b.c", "-o", "two"], "file": "b.c"}], ["c.json"], 0,
     "project default\nfile a.c\nfile b.c", "import: 2 units of 2 files\n"),
    ("projects by pattern", {"t/b.c": "", "d.c": ""},
     [cc(), {"file": "t/b.c", "arguments": ["cc", "-c", "t/b.c"]}, {"file": "d.c", "arguments": ["cc", "-c", "d.c"]}],
     ["--project", "test=t/*", "--project=main=a.c", "c.json"], 0,
     "project main\nfile a.c\nproject test\nfile t/b.c\nproject default\nfile d.c", "import: 3 units of 3 files\n"),
    ("what is left out is told", {"b.cc": "", "s.S": "", "x.h": "", "g.c": ""},
     [cc("-include-pch", "x.pch", "-D_FORTIFY_SOURCE=2"), {"file": "b.cc", "arguments": ["c++", "-c", "b.cc"]},
      {"file": "s.S", "arguments": ["cc", "-c", "s.S"]}, {"file": "g.c", "arguments": ["g++", "-c", "g.c"]}], ["c.json"], 0, PLAIN,
     "import: b.cc: left out: C++\nimport: s.S: left out: assembler\nimport: g.c: left out: C++\n"
     "import: a.c: -include-pch x.pch is left out: it names no text, so what it brings is not seen\n"
     "import: a.c: -D_FORTIFY_SOURCE is left out: kit/left-out-of-commands says why\n" + ONE),
    ("a word that is nothing", {}, [cc("-DA", "-frandom-seed=x", "y")], ["c.json"], 0, "project default\ndefine A 1\nfile a.c",
     "import: a.c: y is no option and no file, and is passed over\n" + ONE),
    ("the language of an option", {"p.inc": ""}, [{"file": "p.inc", "arguments": ["cc", "-x", "c", "-c", "p.inc"]}], ["c.json"], 0,
     "project default\nfile p.inc", ONE),
    ("without", {"b.c": ""}, [cc(), {"file": "gone.c", "arguments": ["cc", "-c", "gone.c"]}], ["--without", "g*.c", "c.json"], 0, PLAIN,
     "import: gone.c: left out: --without g*.c\n" + ONE),
    ("links", {"i/x.h": "", "i/y.h": "-> x.h", "b.c": "-> a.c"},
     [{"file": "b.c", "arguments": ["cc", "-Ii", "-c", "b.c"]}], ["c.json"], 0, "project default\nipath i\nfile b.c",
     "import: b.c: a link to a.c: they are two files to cscout\nimport: i/y.h: a link to i/x.h: they are two files to cscout\n" + ONE),
    ("GNU C takes the macros and the folders of the compiler", {"i/x.h": "", "q/x.h": "", "d/y.h": ""},
     [cc("-std=gnu11", "-DA", "-DB=2", "-UB", "-iquote", "q", "-I", "i", "-include", "d/y.h")], ["--standard", "gnu11", "c.json"], 0,
     "project default\nstandard gnu11\nqpath q\nipath i\ninclude d/y.h\ndefine A 1\nfile a.c", ONE),
    ("a unit whose tokens are not the compiler's", {"b.c": "#line 7\nint b = __LINE__;\n"},
     [cc(), {"arguments": ["cc", "-c", "b.c"], "file": "b.c"}], ["--standard", "gnu99", "--hold", "PROGRAM", "c.json"], 1,
     "project default\nstandard gnu99\nfile a.c\nfile b.c",
     "import: unit 2, b.c: token 4 is 2, and the compiler has 7\nimport: 2 units of 2 files\n"),
    ("units whose tokens are the compiler's", {"b.c": "#include <x.h>\n#if __has_attribute(pure) && !__has_attribute(no_such)\nint yes;\n#endif\n"
                                                   "#ifdef __GNUC__\nint b;\n#endif\n", "d/x.h": "int x;\n#include_next <x.h>\n", "e/x.h": "int y;\n"},
     [cc(), {"arguments": ["cc", "-Id", "-Ie", "-c", "b.c"], "file": "b.c"}], ["--standard", "gnu11", "--hold", "PROGRAM", "c.json"], 0,
     "project default\nstandard gnu11\nfile a.c\nproject default\nstandard gnu11\nipath d\nipath e\nfile b.c", "import: 2 units of 2 files\n"),
    ("headers that conditions ask for, none of which is there", {"b.c": "#ifdef __has_include\n#if __has_include(<no/x.h>) || \\\n"
                                                                  "__has_include ( \"x.h\" )\nint x;\n#endif\nint b;\n#endif\n"},
     [{"arguments": ["cc", "-c", "b.c"], "file": "b.c"}, cc()],
     ["--standard", "gnu11", "--hold", "PROGRAM", "c.json"], 0, "project default\nstandard gnu11\nfile b.c\nfile a.c", "import: 2 units of 2 files\n"),
    ("headers that conditions ask for, some of which are there", {"i/x.h": "", "b.c": "#if defined __has_include\n#if __has_include(<x.h>)\nint x;\n#endif\n"
                                                                   "#if __has_include(\"y.h\")\nint y;\n#endif\n#endif\n"},
     [{"arguments": ["cc", "-Ii", "-c", "b.c"], "file": "b.c"}], ["--standard", "gnu11", "--hold", "PROGRAM", "c.json"], 0,
     "project default\nstandard gnu11\nipath i\nfile b.c", "import: 1 units of 1 files\n"),
    ("versions of C that the commands say", {"b.c": "#if __STDC_VERSION__ == 199901L && !__STDC_HOSTED__\nint b;\n#endif\n",
                                             "a.c": "#ifdef __STDC_VERSION__\nint no;\n#endif\n#if __STDC_HOSTED__\nint a;\n#endif\n"},
     [{"arguments": ["cc", "-std=c99", "-ffreestanding", "-c", "b.c"], "file": "b.c"}, cc("-std=c90"), cc("-std=gnu90", "-DA")],
     ["--standard", "gnu11", "--hold", "PROGRAM", "c.json"], 0,
     "project default\nstandard gnu11\nfile b.c\nfile a.c\ndefine A 1\nfile a.c", "import: 3 units of 2 files\n"),
    ("macros that the compiler has and does not print", {"x.h": "\n#if __INCLUDE_LEVEL__ > 8\nint no;\n#endif\n", "b.c": "int b;\n",
                                                         "a.c": "#include \"x.h\"\n#if defined __BASE_FILE__ && defined __TIMESTAMP__\n"
                                                                "char *base = __BASE_FILE__;\n#endif\n"},
     [cc("-DA"), {"arguments": ["cc", "-c", "b.c"], "file": "b.c"}], ["--standard", "gnu11", "--hold", "PROGRAM", "c.json"], 0,
     "project default\nstandard gnu11\ndefine A 1\nfile a.c\nundefine A\nfile b.c",
     "import: x.h:2: __INCLUDE_LEVEL__ is no macro to cscout, and counts as 0 in a condition\nimport: 2 units of 2 files\n"),
    ("signs of characters", {"a.c": "#if 'a' == 97 || \\\n  '\\377' > 0\n#endif\n"
                                    "#if L'\\xff' > 0 || '\\x7f' < 0 || '\\'' == 34\n#endif\nint a = '\\377';\n"},
     [cc(), cc("-funsigned-char", "-DA")], ["--standard", "gnu11", "c.json"], 0, "project default\nstandard gnu11\nfile a.c\ndefine A 1\nfile a.c",
     "import: a.c:2: '\\377' in a condition is never negative to cscout, and may be to the compiler, whose char is signed\n"
     "import: 2 units of 1 files\n"),
    ("a plugin is no program", {"b.c": ""},
     [{"arguments": ["cc", "a.c", "-o", "one"]}, {"arguments": ["cc", "-shared", "b.c", "-o", "two.plugin"], "file": "b.c"}], ["c.json"], 0,
     "project default\nfile a.c\nfile b.c", "import: 2 units of 2 files\n"),
    ("settings of the caller", {}, [cc("-DA")], ["--define", "A 2", "--define=F(x) x", "--readonly", "gen/", "--standard", "c11", "c.json"],
     0, "readonly gen/\nproject default\nstandard c11\ndefine A 2\ndefine F(x) x\nfile a.c", ONE),
    ("no kit", {}, [cc("-D_FORTIFY_SOURCE=2")], ["--no-kit", "c.json"], 0, "project default\ndefine _FORTIFY_SOURCE 2\nfile a.c", ONE),
]


def broken(name, record, said, options=("c.json",), status=1, files=None):
    return name, files or {}, record, list(options), status, "", said


def by_entry(name, entry, said, files=None):
    """A good entry and then this one."""
    return broken(name, [cc(), entry], f"import: c.json: entry 2{'' if said[0] == ':' else ' '}{said}\n", files=files)


BROKEN = [
    broken("no record is there", None, "import: c.json: No such file or directory\n"),
    broken("no JSON", "[{", "import: c.json: not JSON: Expecting property name enclosed in double quotes: line 1 column 3 (char 2)\n"),
    broken("no text", "[\0]", "import: c.json: not JSON: Expecting value: line 1 column 2 (char 1)\n"),
    broken("no list", "{}", "import: c.json: not a list of entries\n"),
    broken("an empty list", "[]", "import: c.json: no entries\n"),
    broken("deep", "[" * 100000, "import: c.json: not a list of entries\n"),
    by_entry("an entry that is a text", "x", "is no object"),
    by_entry("no file", {"file": "", "arguments": ["cc", "-c", "a.c"]}, "has no file"),
    by_entry("no directory", {"directory": None, "arguments": ["cc", "-c", "a.c"]}, "has no directory"),
    by_entry("a directory that is gone", {"directory": "@AT@/gone", "arguments": ["cc", "-c", "a.c"]},
             "has a directory that is not there: @AT@/gone"),
    by_entry("no command", {}, "has neither arguments nor command"),
    by_entry("arguments of no words", {"arguments": ["cc", 1]}, "has arguments that are no list of words"),
    by_entry("arguments that are a text", {"arguments": "cc -c a.c"}, "has arguments that are no list of words"),
    by_entry("an open quote", {"command": "cc -DA=' -c a.c"}, "has a command that no shell splits: No closing quotation"),
    by_entry("an empty command", {"command": " "}, "has a command without words"),
    by_entry("no compiler", {"arguments": ["-c", "a.c"]}, ": the command has no compiler"),
    by_entry("a file that is gone", {"file": "gone.c", "arguments": ["cc", "-c", "gone.c"]},
             "has a file that is not there: gone.c (`--without 'gone.c'` leaves it out)"),
    by_entry("another file", {"arguments": ["cc", "-c", "b.c"]}, "does not name its file a.c in its command"),
    by_entry("an option without its word", {"arguments": ["cc", "-c", "a.c", "-I"]}, ": -I has no word behind it"),
    by_entry("a definition without a name", cc("-D2x=1"), ": -D2x names no macro"),
    by_entry("a backslash at the end", cc("-DA=x\\"),
             ": -DA has a value that ends in a backslash, which a workspace line cannot say"),
    by_entry("two lines", cc("-DA=x\ny"), ": -DA has a value of more than one line"),
    by_entry("a comment", cc("-DA=/*"), ": -DA has a value with a comment"),
    by_entry("the old sign for quotes", cc("-I-"), ": -I- is not taken: name the directories with -iquote"),
    by_entry("another preprocessor", cc("-traditional-cpp"), ": -traditional-cpp preprocesses otherwise than C does"),
    by_entry("a language", cc("-x", "d"), ": -x d is no language that is known here"),
    by_entry("a file of words that is gone", cc("@gone"), ": @@AT@/gone: No such file or directory"),
    by_entry("files of words in a circle", cc("@circle"), ": @@AT@/circle: files of options go deeper than 20", {"circle": "@circle"}),
    by_entry("a path with a blank at its end", {"file": "b.c ", "arguments": ["cc", "-x", "c", "-c", "b.c "]},
             ": 'b.c ' is a path that a workspace line cannot say", {"b.c ": ""}),
    by_entry("a directory with a backslash at its end", cc("-Ib\\"), ": 'b\\\\' is a directory that a workspace line cannot say",
             {"b\\/x.h": ""}),
    broken("two broken entries", [{"file": 1}, cc(), {"command": "'"}],
           "import: c.json: entry 1 has no file\nimport: c.json: entry 3 has a command that no shell splits: No closing quotation\n"),
    broken("no C at all", [{"file": "b.cc", "arguments": ["c++", "-c", "b.cc"]}],
           "import: b.cc: left out: C++\nimport: c.json: no entry is a C file that is taken\n", files={"b.cc": ""}),
    broken("a compiler that is gone", [{"arguments": ["no-such-cc", "-c", "a.c"]}], "import: no compiler no-such-cc\n"),
    broken("a compiler in a folder that is gone", [{"arguments": ["tools/cc", "-c", "a.c"]}], "import: no compiler @AT@/tools/cc\n"),
    broken("a compiler that does nothing", [{"arguments": ["true", "-c", "a.c"]}],
           "import: c.json: entry 1: true prints no macros with -E -dM\n"),
    by_entry("a file before the own that is gone", cc("-include", "gone.h"), ": -include gone.h is a file that is not there"),
    by_entry("a file before the own that no include line can say", cc("-include", "x\"y.h"), ": 'x\"y.h' is a path that an include line cannot say",
             files={"x\"y.h": ""}),
    broken("no unit below the root", [{"directory": "@AT@/build", "file": "../src/a.c", "arguments": ["cc", "-I../inc", "-c", "../src/a.c"]}],
           "import: no unit lies below @AT@/build, so all would be read-only: run it in @AT@, or give --root @AT@\n",
           ["--root", "build", "c.json"], files={"src/a.c": "", "inc/x.h": "", "build/made": ""}),
    broken("no record is named", None, "import: no record is named: import [OPTION..] COMPILE_COMMANDS.json >w.cs\n", [], 2),
    broken("two records", [cc()], "import: one record is taken, and d.json is a second\n", ["c.json", "d.json"], 2),
    broken("no such option", [cc()], "import: --paint is no option\n", ["--paint", "red", "c.json"], 2),
    broken("an option at the end", [cc()], "import: --root wants a word behind it\n", ["c.json", "--root"], 2),
    broken("a root that is no folder", [cc()], "import: --root a.c is no folder\n", ["--root", "a.c", "c.json"], 2),
    broken("a standard", [cc()], "import: --standard c17 is none of c99, c11, gnu99 and gnu11\n", ["--standard", "c17", "c.json"], 2),
    broken("a project without a pattern", [cc()], "import: --project x is not NAME=PATTERN\n", ["--project", "x", "c.json"], 2),
    broken("a project of two words", [cc()], "import: --project x y=* is not NAME=PATTERN\n", ["--project", "x y=*", "c.json"], 2),
    broken("a setting", [cc()], "import: --define '2' is no setting\n", ["--define", "2", "c.json"], 2),
    broken("a kit", [cc()], "import: --kit . has no words.cs\n", ["--kit", ".", "c.json"], 2),
]

# Texts, and the lines, words and names of operands that the kit's define lines drop.
DROPPED_NAMES = [
    ('int f(void) __attribute__((alias("g" /* no */))), h(void)\n__asm__("k");\nint v __attribute__((section("s")));',
     [(1, "__attribute__", "g"), (2, "__asm__", "k")]),
    ('static int w(void) __attribute__((__weakref__("a" "@b")));\nvoid m(void) { __asm__("nop"); __asm__ volatile ("mov %0" : "=r" (n)); }',
     [(1, "__attribute__", "a"), (1, "__attribute__", "b"), (2, "__asm__", "n")]),
    ('int f(void) { register int r __asm__ ("eax"); return r; }', []),
    ("void f(int n) __attribute__((nonnull(1), cleanup(g), noreturn));", [(1, "__attribute__", "1"), (1, "__attribute__", "g")]),
]

JUDGED = [
    ("int f(int name) { return name; }", "int f(int next) { return next; }", None),
    ("int name; int f(void) { return name; }", "int next; int f(void) { return next; }", None),
    ("const char *name(void) { return __func__; }", "const char *next(void) { return __func__; }", None),
    ("int name(int n) { static int k = 1; return k += n; }", "int next(int n) { static int k = 1; return k += n; }", None),
    ("int name(void); int f(void) { return name(); }", "int next(void); int f(void) { return next(); }", None),
    ("int name(void); int f(void) { return name(); }", "int more(void); int f(void) { return more(); }", "symbol name is more"),
    ("int f(int n) { return n + 1; }", "int f(int n) { return n + 2; }", "section .text differs"),
    ("int a = 1, name;", "int a = 2, name;", "section .data differs"),
    ("int f(void) { return 1; }", "int f(void) { return 1; } int g;", "the sections differ"),
    ("int a[2]; int f(void) { return a[0] - a[1]; }", "int a[2]; int f(void) { return a[1] - a[0]; }", "the relocations differ"),
    ("char *s = \"names\";", "char *s = \"nexts\";", None),
    ("int name, first;", "int next, other;", None),
    ("char *s = \"name first name\";", "char *s = \"next other next\";", None),
    ("char *s = \"name first name\";", "char *s = \"next other nert\";", "section .rodata.str1.1 differs"),
    ("int name; int first(void) { return name; }", "int other; int next(void) { return other; }", "symbol first is next"),
    ("char *s = \"names\";", "char *s = \"namet\";", "section .rodata.str1.1 differs"),
]

ACCEPTED = "accepted-units PROGRAM WORKSPACE [--list] [--leave-out]\n"
UNSEEN = "unseen PROGRAM WORKSPACE COMPILE_COMMANDS.JSON [--without PATTERN]..\n"
ELSEWHERE = "no file of within/w.cs is here: run it in @AT@/within\n"
NO_JSON = "a.json: not JSON: Expecting property name enclosed in double quotes: line 1 column 3 (char 2)\n"
BAD_INPUT = [
    ("accepted-units", [], ACCEPTED),
    ("accepted-units", ["PROGRAM", "--list"], ACCEPTED),
    ("accepted-units", ["PROGRAM", "gone.cs"], "accepted-units: gone.cs: No such file or directory\n"),
    ("accepted-units", ["./gone", "within/w.cs"], "accepted-units: " + ELSEWHERE),
    ("accepted-units", ["./gone", "here.cs"], "accepted-units: @AT@/gone: No such file or directory\n"),
    ("accepted-units", ["PROGRAM", "none.cs"], "accepted-units: none.cs has no units\n"),
    ("accepted-units", ["PROGRAM", "within/w.cs"], "accepted-units: " + ELSEWHERE),
    ("accepted-units", ["PROGRAM", "no.cs", "--leave-out"],
     "accepted-units: no file of no.cs is here: run it in the folder that its paths are relative to\n"),
    ("unseen", [], UNSEEN),
    ("unseen", ["PROGRAM", "within/w.cs", "a.json"], "unseen: " + NO_JSON),
    ("unseen", ["PROGRAM", "within/w.cs", "gone.json"], "unseen: " + ELSEWHERE),
    ("judge-renames", [], "judge-renames PROGRAM COMPILE_COMMANDS.JSON [COUNT] "),
    ("judge-renames", ["PROGRAM", "a.json"], "judge-renames: " + NO_JSON),
    ("judge-renames", ["PROGRAM", "gone.json"], "import: no compiler no-such-cc\njudge-renames: no workspace\n"),
    ("judge-renames", ["PROGRAM", "none.json"], "judge-renames: none.json: No such file or directory\n"),
    ("import-rows", [], "import-rows PROGRAM CORPUS [--make]\n"),
    ("try-headers", [], "try-headers PROGRAM COMPILER PACKAGE.. [--standard c11] [--no-kit]\n"),
]
