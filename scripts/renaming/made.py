"""Random workspaces of C, whose names pass through macros, headers, units of both standards and projects."""

G = ["ga", "gb", "gc", "gd"]
F = ["fa", "fb", "fc"]


class Maker:
    """Makes the files of one workspace out of a random source. With `strings` many macros make strings of names, wide ones and
    strings of strings among them."""

    def __init__(self, r, strings=False):
        self.r, self.strings = r, strings
        self.has_members = False

    def files(self):
        r = self.r
        sep = r.choice(["\n", "\n", "\n", "\r\n"])
        made = {"h.h": self.header(), "a.c": self.unit("a"), "b.c": self.unit("b"), "d/k.h": self.second_header()}
        files = {path: sep.join(lines) + r.choice(["\n", "\n", ""]) for path, lines in made.items()}
        if r.random() < .4:
            files = {path: self.respelled(text) for path, text in files.items()}
        files["w.cs"] = "\n".join(self.workspace()) + "\n"
        return {path.encode(): text.encode() for path, text in files.items()}

    def respelled(self, text):
        """The same tokens with other signs, with comments for blanks, and with splices anywhere."""
        r = self.r
        for sign, other in (("##", "%:%:"), ("#define", "%:define"), ("#define", "# define"), ("{", "<%"), (" ", "/* ga\n*/"),
                            (" ", "\t"), (";\n", "; // gb\n"), ("#include", "#/**/include")):
            places = [k for k in range(len(text)) if text.startswith(sign, k)]
            for k in sorted(r.sample(places, min(len(places), r.choice([0, 0, 1, 3]))), reverse=True):
                text = text[:k] + other + text[k + len(sign):]
        for _ in range(r.choice([0, 2, 8])):
            k = r.randrange(len(text) + 1)
            if text[k:k + 1] not in ("", "\n"):
                text = text[:k] + r.choice(["\\\n", "\\\r\n"]) + text[k:]
        return text

    def shown(self, names, depth):
        """A value in which a macro makes a string of names."""
        r = self.r
        k = r.random()
        name = r.choice(names)
        if k < .35:
            return "SHOW(%s)" % self.value(names, depth + 1)
        if k < .45:
            return "ARGS(%s, %s)" % (name, self.value(names, depth + 1))
        if k < .55:
            return "PUT(g, %s)" % r.choice("abcd")
        if k < .62:
            return "SHOW(%s)" % r.choice(["'\\\"' + %s", "sizeof \"\\n%s\" + (%s)", "\"%s\"[0] + %s"]).replace("%s", name)
        made = r.choice(["TWICE(%s)", "WIDE(%s)", "WIDE_(QUOTE(%s))", "NAME(%s, )", "QUOTE_(WIDE(%s))", "TWICE(NAME(, %s))", "QUOTE(%s) \"%s\"",
                         "QUOTE_(QUOTE(%s) QUOTE(ID(%s)))", "QUOTE( %s  + /* %s */ %s )"]).replace("%s", name)
        return "%s(%s, %s)" % (r.choice(["put", "put", "puts_"]), made, name)

    def value(self, names, depth=0):
        r = self.r
        if self.strings and depth <= 2 and r.random() < .3:
            return self.shown(names, depth)
        k = r.random()
        if depth > 2 or k < .3:
            return r.choice(names)
        if k < .36 and self.has_members and r.random() < .7:
            return r.choice(["dv.%s", "dp->%s", "AN(dp, %s)"]) % r.choice(["ma", "mz", "md", "mc"])
        if k < .36:
            return str(r.randrange(9))
        if k < .42:
            return "ID(%s)" % self.value(names, depth + 1)
        if k < .48:
            return "ADD(%s, %s)" % (self.value(names, depth + 1), self.value(names, depth + 1))
        if k < .55:
            return "J(g, %s)" % r.choice("abcd")
        if k < .59:
            return "G_(%s)" % r.choice("abcd")
        if k < .62:
            return "JJ(J(g, %s), )" % r.choice("abcd")
        if k < .66:
            return "sizeof STR(%s)" % r.choice(names + ["g", "ga gb"])
        if k < .72:
            return "sv.%s" % r.choice(["ma", "mb"])
        if k < .77:
            return "MEM(sp, %s)" % r.choice(["ma", "mb"])
        if k < .83:
            return "OBJ"
        if k < .85:
            return "J(x_, 1)"
        if k < .87:
            return "(int)sizeof(%s)" % r.choice(["ta", "struct sa", "int"])
        if k < .93:
            return "%s(%s)" % (r.choice(F), self.value(names, depth + 1))
        return "(%s + %s)" % (self.value(names, depth + 1), self.value(names, depth + 1))

    def header(self):
        r = self.r
        out = ["#ifndef H_H", "#define H_H", "#define ID(x) x", "#define ADD(a, b) ((a) + (b))", "#define J(a, b) a##b", "#define JJ(a, b) J(a, b)",
               "#define G_(s) g##s", "#define MEM(p, m) (p)->m", "#define STR(s) " + r.choice(["#s", "# s", "#s #s"])]
        out += ["#define AB(s) s##k", "#define BA(s) k##s", "#define AA(s) s##s", "#define BOTH(s) s##k, k##s"]
        if self.strings:
            out += ["#define QUOTE(v) #v", "#define QUOTE_(v) QUOTE(v)", "#define SHOW(v) put(#v, v)", "#define TWICE(v) QUOTE_(QUOTE(v))",
                    "#define WIDE(v) L ## #v", "#define WIDE_(v) L ## v", "#define NAME(a, b) QUOTE_(a ## b)", "#define ARGS(...) put(#__VA_ARGS__, ADD(__VA_ARGS__))",
                    "#define PUT(a, b) put(NAME(a, b), a ## b)", "#define ROW(n) { #n, sizeof(n) },", "#define LIST(X) " + r.choice(["X(ga) X(gb)", "X(gc)", "X(fa) X(ga)"]),
                    "int put(const void *s, int n);", "int puts_(const void *s, ...);"]
        out.append("#define OBJ " + r.choice(["ga", "(gb + 1)", "ID(gc)", "sv.ma", "__LINE__", "J(g, b)"]))
        out.append("struct sa { int ma; int mb; };")
        out += ["extern int %s;" % name for name in G + ["x_1"]]
        out += ["int %s(int %s);" % (name, r.choice(["", "p", "ga"])) for name in F]
        out.append(r.choice(["typedef int ta;", "typedef struct sa ta;", "typedef int\\\n ta;"]))
        out.append("enum %s{ ea = 1, eb };" % r.choice(["", "en "]))
        if r.random() < .2:
            out.append("#define DEF(n) extern int n##_v; extern int n")
            out.append("DEF(de);")
        if r.random() < .2:
            out.append("#if 0\nint gz, %s;\n#endif" % r.choice(G + ["q7"]))
        if r.random() < .15:
            out.append("#define VA(...) ADD(__VA_ARGS__)\nenum { ev = VA(1, 2) };")
        if r.random() < .15:
            out.append("#if defined OBJ && ID(1)\nextern int more;\n#elif J(OB, J) || zq\nextern int less;\n#endif")
        return out + self.members() + ["#endif"]

    def members(self):
        """A structure with members without names in units of C11, and one with the same names in others."""
        r = self.r
        self.has_members = r.random() < .6
        if not self.has_members:
            return []
        inner = r.choice(["union { int ma; struct { int mz; int md; }; };", "const struct { int ma, mz; union { int md; }; };"])
        return ["#if __STDC_VERSION__ >= 201112L", "_Static_assert(sizeof(int) > %s, \"s\");" % r.choice(["0", "ID(0)"]),
                "struct sd { int mc; %s };" % inner, "_Noreturn void nr(int q);", "#else", "struct sd { int mc, ma, mz, md; };", "#endif",
                "extern struct sd dv, *dp;", "#define AN(p, m) (p)->m",
                r.choice(["", "static struct sd ds = { .mz = 1, .mc = 2 };", "enum { es = sizeof dv.%s };" % r.choice(["ma", "md"])])]

    def second_header(self):
        r = self.r
        out = ["#define K_%s" % r.choice(["H", "H 1"])] if r.random() < .5 else []
        out.append(r.choice(["extern int ga;", "extern int x_1;", "struct sa;", "#define KK ga", "int fa(int);", ""]))
        return out

    def body(self, params):
        r = self.r
        names = G + params + ["ea"]
        out, seen = [], set(params)
        for _ in range(r.randrange(0, 4)):
            k = r.random()
            if k < .22:
                name = r.choice(["la", "ga", "ma"])
                if name in seen:
                    continue
                seen.add(name)
                out.append("int %s = %s;" % (name, self.value(names)))
                names = names + [name]
            elif k < .32:
                out.append("{ int la = %s; la = %s; }" % (self.value(names), self.value(names + ["la"])))
            elif k < .4:
                out.append("goto out;")
            elif k < .48:
                out.append("{ extern int gd; gd = %s; }" % self.value(names))
            elif k < .56:
                out.append("if (%s) %s = %s;" % (self.value(names), r.choice(["ga", "gb"]), self.value(names)))
            elif k < .64:
                out.append("{ ta tv; struct sa sv = { .ma = %s }; (void)tv; (void)sv; }" % self.value(names))
            elif k < .71:
                out.append("ID(gb) = J(g, a);")
            elif k < .77:
                out.append("{ struct sb { int ma; } sv; sv.ma = sv.ma; }")
            elif k < .85:
                out.append("{ int ta = 1; %s; }" % r.choice(["(void)sizeof(int (ta))", "ta = ta", "{ int f(int ta); int g(int (ta)); }"]))
            elif k < .92:
                out.append("{ int la; { ta (la); (void)la; } int f(%s (la)); la = 0; }" % r.choice(["int", "ta"]))
            else:
                out.append("{ enum { ea = 2 } e; e = ea; (void)e; }")
        return out + ["out: return %s;" % self.value(names)]

    def unit(self, which):
        r = self.r
        out = [r.choice(['#include "h.h"', '#include "h.h"', '#define INC "h.h"\n#include INC',
                         "#define hh h\n#include <h.h>", "#define H h\n#define B <\n#include B H.h>", "#define H h\n#define I(x) <x.h>\n#include I(H)"])]
        if self.strings and r.random() < .25:
            out.append(r.choice(["#define HN(x) #x\n#include HN(d/k.h)", "#define HN(x) HM(x)\n#define HM(x) #x\n#define ga h\n#include HN(ga.h)\n#undef ga",
                                 "void *wide_%s = L\"%s\";" % (which, r.choice(NAMES)), "char *plain_%s = \"%s\";" % (which, r.choice(NAMES))]))
        if r.random() < .3:
            out.append(r.choice(['#include "h.h"', '#include "d/k.h"', "#include <k.h>"]))
        out.append("static struct sa sv, *sp = &sv;")
        for name in G:
            if r.random() < .5:
                out.append("int %s%s;" % (name, r.choice(["", " = 1"])))
        if self.strings and r.random() < .4:
            out.append("static struct { char *name; int size; } list_%s[] = { LIST(ROW) ROW(%s) };" % (which, r.choice(["struct sa", "ta", "gd"])))
        if r.random() < .3:
            out.append("#ifdef %s\nint extra = ga;\n#else\nint other;\n#endif" % r.choice(["FLAG", "OBJ", "NONE"]))
        if r.random() < .3:
            out.append("#if defined(FLAG) && %s\nint more;\n#endif" % r.choice(["FLAG", "ID(1)", "defined OBJ"]))
        if r.random() < .2:
            out.append("#undef OBJ\n#define OBJ gd")
        if r.random() < .2:
            out.append("#define LOC_%s(q) q + la_\nint la_0;" % which)
        if r.random() < .25:
            out.append("static int long_\\\nname; int use_it(void) { return long_name%s; }" % r.choice(["", " + lo\\\nng_name"]))
        if r.random() < .2:
            out.append("static int old(x, y) int x, y; { return x + %s; }" % r.choice(["y", "y + sp->ma", "ga"]))
        if r.random() < .15:
            out.append(r.choice(["#pragma q7 ga", "#define UNUSED(ga) ga gb", "#define OBJ_ J(g", "/* ga */ // gb", "#line 7",
                                 "#if 0\n'open ga\n#bad gb\n#endif", "int de_v, de;"]))
        for name in F:
            if r.random() < .6:
                param = r.choice(["p", "ga", "q"])
                out.append("int %s(int %s) { %s }" % (name, param, r.choice([" ", "\n"]).join(self.body([param]))))
        if r.random() < .3:
            out.append("int v%s = J(ea, );" % which)
        if r.random() < .15:
            out.append("int n%s = J(1, %s);" % (which, r.choice(["2", "u", "L", "0x"])))
        if r.random() < .15:
            out.append("int m%s = %s;" % (which, r.choice(["J(e, a)", "J(ea, )", "J(, eb)", "JJ(e, J(a, ))", "sizeof STR(ea)"])))
        if r.random() < .12:
            out.append(r.choice(["int BA(w), AB(w);", "int AB(w), w; int use_w(void) { return w + AB(w); }", "int AA(w); int w;", "int BOTH(w);", "int BOTH(w);"]))
        if r.random() < .12:
            out.append("int s%s = sizeof %s;" % (which, r.choice(["STR(gb)", "STR(fa w)", "STR(J(g, c))", "STR(ea) STR(sa)"])))
        if r.random() < .03:
            out.append("int many(void) { return %s; }" % " + ".join(["ga"] * r.randrange(28, 40)))
        if r.random() < .04:
            out.append(r.choice(["int bad = zz;", "int x y;", "int f(void) { goto no; }", "int w = sv.zz;"]))
        return out

    def workspace(self):
        r = self.r
        out = ["ipath ."]
        if r.random() < .9:
            out.append("ipath d")
        if r.random() < .12:
            out.append("readonly " + r.choice(["h", "d/", "a.c", "b"]))
        if r.random() < .3:
            out.append("define FLAG " + r.choice(["", "1", "0", "ga"]))
        if r.random() < .1:
            out.append("define gq ga")
        if r.random() < .4:
            out.append("standard " + r.choice(["c11", "c11", "c99"]))
        out.append("file a.c")
        if r.random() < .3:
            out.append("standard " + r.choice(["c11", "c99"]))
        if r.random() < .3:
            out += ["project two", "ipath .", "ipath d"]
        if r.random() < .3:
            out.append("standard c11")
        if r.random() < .8:
            out.append("file b.c")
        if r.random() < .2:
            out += ["define FLAG 1", "file a.c"]
        return out


NAMES = G + F + ["ma", "mb", "sa", "sb", "ta", "ea", "eb", "la", "out", "p", "q", "x", "y", "a", "b", "s", "OBJ", "ID", "ADD",
                 "J", "G_", "H_H", "STR", "FLAG", "INC", "sv", "sp", "gz", "q7", "zq", "x_1", "x_", "g", "h", "H", "u", "L"]


def new_name(r, old):
    """A new name: fresh in a third of the cases; the others are near the names there, reserved, or no names."""
    k = r.random()
    if old == "w" and k < .5:
        return r.choice(["k", "wk", "kw", "ww"])
    if old == "ga" and k < .01:
        return "n" * r.randrange(110000, 131000)
    if k < .35:
        return r.choice(["n", "new_name", "z9", "Zz", "n_", "name_of_some_length", "a_", "q_q"])
    if k < .5:
        return old + r.choice("abcd_19")
    if k < .82:
        return r.choice(NAMES)
    if k < .94:
        return r.choice(["int", "while", "defined", "__VA_ARGS__", "__func__", "L", "__LINE__", "__STDC__", "_Bool", "_Generic",
                         "main", "inline", "__DATE__", "auto", "_Atomic", "Lx", "__FILE__x"])
    return r.choice(["", "1", "a b", "a-", "x ", "\xe9", "g\\", old])
