"""Small programs, and what fshell order must tell of each by C11: the classes, or nothing.

g is 1 and h sets it to 5, in most; k is the entry. Each is also run by all orders: where a class is told there are several
outcomes, and else one (`TWO_OUTCOMES_AT` are the arguments that are tried).
"""

TWO_OUTCOMES_AT = ((0, 0), (0, 1), (1, 0), (1, 2), (62, 0))
G = "int g = 1; int h(void) { g = 5; return 1; } "
A = "int a[2] = { 1, 2 }; "
W = "int w(int q[2]) { q[0] = 9; return 1; } "
K = "int k(int x, int y) "
ROWS = [
    ("read call", "value", G + K + "{ return g + h(); }"),
    ("op assign", "value", G + K + "{ g += h(); return g; }"),
    ("op assign element", "value", A + "int h(void) { a[0] = 5; return 1; } " + K + "{ a[0] += h(); return a[0]; }"),
    (
        "index store",
        "value",
        "int g = 0; " + A + "int h(void) { g = 1; return 7; } " + K + "{ a[g] = h(); return a[0]; }",
    ),
    ("index read", "", A + "int h(void) { a[0] = 9; return 0; } " + K + "{ return a[h()]; }"),
    ("assign same", "", G + K + "{ g = h(); return g; }"),
    ("step index", "", A + "int h(void) { a[0] = 9; return 0; } " + K + "{ a[h()]++; return a[0]; }"),
    (
        "write write",
        "value",
        "int g = 1; int h(void) { g = 5; return 0; } int i(void) { g = 7; return 0; } "
        + K
        + "{ return h() + i() + 0 * x; }",
    ),
    (
        "arguments",
        "value",
        "int g = 1; int h(void) { g = g * 3; return g; } int i(int p, int q) { return p - q; } "
        + K
        + "{ return i(h(), g); }",
    ),
    ("through", "value", G + "int m(void) { return h(); } " + K + "{ return g + m(); }"),
    ("and part", "value", G + K + "{ return g + (x == x && h()); }"),
    ("and only", "", G + K + "{ return g == 1 && h() && g == 5; }"),
    ("cond only", "", G + K + "{ return g ? h() : g; }"),
    ("lent twice", "value", A + W + "int m(int p[2], int q[2]) { return p[0] + w(q); } " + K + "{ return m(a, a); }"),
    (
        "lent global",
        "value",
        A + "int w(void) { a[0] = 9; return 1; } int m(int p[2]) { return p[0] + w(); } " + K + "{ return m(a); }",
    ),
    ("lent local", "value", W + K + "{ int b[2] = { 1, 2 }; return b[0] + w(b); }"),
    ("list", "value", G + K + "{ int b[2] = { g, h() }; return b[0]; }"),
    ("list own", "value", W + K + "{ int b[2] = { 3, w(b) }; return b[0] * 100 + b[1]; }"),
    ("declarators", "", G + K + "{ int b = g, c = h(); return b + c; }"),
    ("answers", "answers", "int in(void); " + K + "{ return 2 * in() - in(); }"),
    ("answers through", "answers", "int in(void); int h(void) { return in() + 1; } " + K + "{ return h() - in(); }"),
    ("trap blocked", "end", "int h(int x) { assume(x != 0); return 1; } " + K + "{ return 1 / x + h(x); }"),
    ("trap endless", "end", "int h(int x) { while (x == 0) { } return 1; } " + K + "{ return 1 / x + h(x); }"),
    ("trap effect", "", G + K + "{ return 1 / x + h(); }"),
    ("trap trap", "", "int h(int x) { assert(x != 0); return 1; } " + K + "{ return 1 / x + h(x); }"),
    ("deep", "end", "int r(int n) { if (n > 0) { return r(n - 1); } return 1; } " + K + "{ return 1 / x + r(99); }"),
    ("deep argument", "end", "int r(int n, int m) { return r(n - 1, 1 / n); } " + K + "{ return r(x, 0); }"),
    ("blocked blocked", "", "int h(int x) { assume(x != 0); return 1; } " + K + "{ return h(x) + h(y); }"),
    (
        "assume assert",
        "end",
        "int h(int x) { assume(x != 0); return 1; } int i(int x) { assert(x != 0); return 1; } "
        + K
        + "{ return h(x) + i(x); }",
    ),
    ("pure", "", "int g = 1; int h(int x) { return g + x; } " + K + "{ return g + h(x) * h(y); }"),
    (
        "disjoint",
        "",
        "int g = 1; int e = 2; int h(void) { g = 5; return 1; } int i(void) { e = 5; return 1; } "
        + K
        + "{ return h() + i(); }",
    ),
    # forms that the profile has beside these
    ("in a macro", "value", "#define BOTH g + h()\n" + G + K + "{ return BOTH; }"),
    (
        "behind a label",
        "value",
        G + K + "{ switch (x) { case 1: int b = g + h(); return b; default: ; } return g + h(); }",
    ),
    ("a step of an index", "", A + "int h(void) { a[0] = 9; return 1; } " + K + "{ a[h()]--; return a[1]; }"),
    ("an operation on an index", "value", G + A + K + "{ a[g == 1] ^= h(); return a[1]; }"),
    ("in a for", "value", G + K + "{ int s = 0; for (int i = g + h(); i < 9; i++) { s++; } return s; }"),
    ("in a condition of a do", "value", G + K + "{ int s = 0; do { s++; } while (s < 2 && g + h() == 2); return s; }"),
    ("a function that isn't reached", "", G + "int m(void) { return g + h(); } " + K + "{ return g + x; }"),
    ("a sum of three", "value", G + K + "{ return x + g + h(); }"),
    ("a chosen call", "value", G + K + "{ return g - (x ? h() : y ? h() : 2); }"),
    ("a call in brackets", "value", G + K + "{ return ((g)) + (int)(h()); }"),
    (
        "a const enumeration",
        "",
        "enum { TWO = 2 }; int h(int v) { assert(v); return 1; } " + K + "{ return x / TWO + h(x); }",
    ),
    ("a shift", "end", "int h(int v) { assume(v); return 1; } " + K + "{ return (1 << x) + h(y); }"),
    ("a shift that fits", "", "int h(int v) { assume(v); return 1; } " + K + "{ return (1 << 3) + h(y) + (x >> 31); }"),
    ("an index within", "", A + "int h(int v) { assume(v); return 1; } " + K + "{ return a[x & 1] + h(y); }"),
    ("an index beyond", "end", A + "int h(int v) { assume(v); return 1; } " + K + "{ return a[x & 3] + h(y); }"),
    (
        "a loop that ends",
        "",
        "int h(void) { int s = 0; for (int i = 0; i < 3; i++) { s += i; } return s; } " + K + "{ return 1 / x + h(); }",
    ),
]
