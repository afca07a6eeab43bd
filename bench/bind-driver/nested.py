"""Texts in which one construct of C encloses another of its kind, by how many do: NESTED."""


def numbered(head, one, n, tail="", between=""):
    return head + between.join(one.format(k=k) for k in range(n)) + tail


IN = "int x,*p,f();struct S{{int m;}};void g(void){{{0}}}"
NESTED = {
    "parentheses": lambda n: IN.format("(" * n + "x" + ")" * n + ";"),
    "blocks": lambda n: IN.format("{" * n + "}" * n),
    "if": lambda n: IN.format("if(x)" * n + ";"),
    "else if": lambda n: IN.format("if(x);else " * n + ";"),
    "while": lambda n: IN.format("while(x)" * n + ";"),
    "do": lambda n: IN.format("do " * n + ";" + "while(x);" * n),
    "for": lambda n: IN.format("for(int i=0;i;i)" * n + ";"),
    "switch": lambda n: IN.format("switch(x)" * n + ";"),
    "labels": lambda n: IN.format(numbered("", "l{k}:", n, ";")),
    "case": lambda n: IN.format("switch(x){" + "case 0:" * n + ";}"),
    "default": lambda n: IN.format("switch(x){" + "default:" * n + ";}"),
    "unary": lambda n: IN.format("- " * n + "x;"),
    "prefix": lambda n: IN.format("++ " * n + "x;"),
    "sizeof": lambda n: IN.format("sizeof " * n + "x;"),
    "casts": lambda n: IN.format("(int)" * n + "x;"),
    "assignments": lambda n: IN.format("x=" * n + "x;"),
    "conditionals behind": lambda n: IN.format("x?x:" * n + "x;"),
    "conditionals between": lambda n: IN.format("x?" * n + "x" + ":x" * n + ";"),
    "calls": lambda n: IN.format("f(" * n + ")" * n + ";"),
    "subscripts": lambda n: IN.format("p[" * n + "x" + "]" * n + ";"),
    "compound literals": lambda n: IN.format("(int){" * n + "0" + "}" * n + ";"),
    "type names": lambda n: IN.format("sizeof(int[" * n + "1" + "])" * n + ";"),
    "declarators": lambda n: "int " + "(" * n + "x" + ")" * n + ";",
    "pointed declarators": lambda n: "int " + "(*" * n + "x" + ")" * n + ";",
    "parameter lists": lambda n: "int f(" + "int p(" * n + ")" * n + ");",
    "abstract declarators": lambda n: IN.format("sizeof(int" + "(*" * n + ")" * n + ");"),
    "abstract parameter lists": lambda n: "int f(" + "int(" * n + ")" * n + ");",
    "array bounds": lambda n: "int x" + "[sizeof(int" * n + "[1]" + ")]" * n + ";",
    "structures": lambda n: "struct{" * n + "int m;" + numbered("", "}}m{k};", n),
    "named structures": lambda n: numbered("", "struct S{k}{{", n) + "int m;" + numbered("", "}}m{k};", n),
    "structures in parameters": lambda n: "void f(" + "struct{int(*m)(" * n + ");}p" * n + ");",
    "enumerators": lambda n: numbered("", "enum{{e{k}=sizeof(", n) + "int" + ")}" * n + ";",
    "bit-fields": lambda n: "struct{int m:sizeof(" * n + "int" + ");}" * n + ";",
    "brace lists": lambda n: "int a[1]=" + "{" * n + "0" + "}" * n + ";",
    "designated lists": lambda n: "int a[1]=" + "{[0]=" * n + "0" + "}" * n + ";",
    "indices of designators": lambda n: "int a=" + "(int[1]){[" * n + "0" + "]=0}[0]" * n + ";",
    "lists of members": lambda n: numbered("", "struct S{k}{{", n) + "int m;" + numbered("", "}}m;", n - 1) + "}s=" + "{" + ".m={" * (n - 1) + "0" + "}" * n + ";",
}
