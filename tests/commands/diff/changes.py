"""Changes of C source, each with the verdict on it, written down by hand: what test_diff.py has fmtcanon-diff
judge.

A change is a line with its kind, the old and the new source of a function's body, and the verdicts: nothing if no place
is to be judged, otherwise the kind of each finding in order. What is printed differently is compiled, with the values
that are declared in FRONT. Sources in bytes are whole files.
"""

FRONT = """\
#include <inttypes.h>
#include <stddef.h>
#include <stdio.h>
#include <stdlib.h>
#include <string.h>
static const char *name = "abcdef";
static int n = -1, count = 3;
static unsigned u = 300;
static long l = -1;
static size_t size = 5;
static double d = 1.5;
static uint64_t big = 7;
static ptrdiff_t gap = 2;
#define _(text) text
#define ngettext(one, many, n) ((n) == 1 ? (one) : (many))
"""

SAME, DIFFERENT, WORDS, TYPES, UNJUDGED = ["same"], ["different"], ["words"], ["types"], ["unjudged"]
DIRECTIVES, REJECTED = ["directives"], ["rejected"]
CHANGES = [
    # Respelled.
    ("%i for %d", 'printf("%i\\n", n);', 'printf("%d\\n", n);', SAME),
    ("a flag that does nothing", 'printf("%-d\\n", n);', 'printf("%d\\n", n);', SAME),
    ("padding as words", 'printf("%5c|\\n", 65);', 'printf("    %c|\\n", 65);', SAME),
    ("a prefix as a word", 'printf("%#o\\n", u);', 'printf("0%.0o\\n", u);', SAME),
    ("a precision of 1", 'printf("%.1d\\n", n);', 'printf("%d\\n", n);', SAME),
    ("an escape by number", 'printf("\\x25i\\x0a", n);', 'printf("%d\\n", n);', SAME),
    ("an escape in octal", 'printf("\\45d\\t", n);', 'printf("%d\\11", n);', SAME),
    ("a precision for a zero flag, of no sign", 'printf("%05u|\\n", u);', 'printf("%.5u|\\n", u);', SAME),
    ("two flags in another order", 'printf("%-+5d|\\n", n);', 'printf("%+-5d|\\n", n);', SAME),
    # Widths, precisions and flags.
    ("a zero flag for a precision", 'printf("%05d\\n", n);', 'printf("%.5d\\n", n);', DIFFERENT),
    ("a width", 'printf("%5d|\\n", n);', 'printf("%6d|\\n", n);', DIFFERENT),
    ("a width that went", 'printf("%8s|\\n", name);', 'printf("%s|\\n", name);', DIFFERENT),
    ("a precision of a string", 'printf("%.3s\\n", name);', 'printf("%.4s\\n", name);', DIFFERENT),
    ("the flag -", 'printf("%-9s|\\n", name);', 'printf("%9s|\\n", name);', DIFFERENT),
    ("the flag +", 'printf("%+d\\n", count);', 'printf("%d\\n", count);', DIFFERENT),
    ("the flag #", 'printf("%#x\\n", u);', 'printf("%x\\n", u);', DIFFERENT),
    ("a space", 'printf("% d\\n", count);', 'printf("%d\\n", count);', DIFFERENT),
    # Conversions and length modifiers that take the same type.
    ("%x for %u", 'printf("%u\\n", u);', 'printf("%x\\n", u);', DIFFERENT),
    ("%X for %x", 'printf("%x\\n", u);', 'printf("%X\\n", u);', DIFFERENT),
    ("%hhu for %d", 'printf("%d\\n", 300);', 'printf("%hhu\\n", 300);', DIFFERENT),
    ("%c for %d", 'printf("%d\\n", 65);', 'printf("%c\\n", 65);', DIFFERENT),
    # Types.
    ("%ld for %d", 'printf("%d\\n", n);', 'printf("%ld\\n", l);', TYPES),
    ("%u for %d", 'printf("%d\\n", count);', 'printf("%u\\n", count);', TYPES),
    ("%s for %d", 'printf("%d\\n", n);', 'printf("%s\\n", name);', TYPES),
    ("a specification more", 'printf("%s\\n", name);', 'printf("%s: %d\\n", name, n);', TYPES),
    ("a specification less", 'printf("%s: %d\\n", name, n);', 'printf("%s:\\n", name);', TYPES),
    ("another order", 'printf("%s %d\\n", name, n);', 'printf("%d %s\\n", n, name);', TYPES),
    ("%lu for %zu", 'printf("%zu\\n", size);', 'printf("%lu\\n", (unsigned long)size);', TYPES),
    ("%ld for %td", 'printf("%td\\n", gap);', 'printf("%ld\\n", (long)gap);', TYPES),
    ("%s for %f", 'printf("%f\\n", d);', 'printf("%s\\n", name);', TYPES),
    # Directives that the profile lacks.
    ("%i next to %f", 'printf("%i: %.2f\\n", n, d);', 'printf("%d: %.2f\\n", n, d);', SAME),
    ("a precision of 6", 'printf("%.6f\\n", d);', 'printf("%lf\\n", d);', SAME),
    ("a precision of %f", 'printf("%.2f\\n", d);', 'printf("%.3f\\n", d);', DIRECTIVES),
    ("%e for %f", 'printf("%d %f\\n", n, d);', 'printf("%d %e\\n", n, d);', DIRECTIVES),
    ("a width next to %p", 'printf("%5d %p\\n", n, (void *)0);', 'printf("%6d %p\\n", n, (void *)0);', DIFFERENT),
    ("words next to %f", 'printf("%f km\\n", d);', 'printf("%f miles\\n", d);', WORDS),
    (
        "a default precision next to other spellings",
        'printf("%i %.6f|%05u\\n", n, d, u);',
        'printf("%d %f|%.5u\\n", n, d, u);',
        SAME,
    ),
    (
        "padding as words next to %p",
        'printf("%5c %p\\n", 65, (void *)0);',
        'printf("    %c %p\\n", 65, (void *)0);',
        SAME,
    ),
    ("%S for %ls", 'printf("%S\\n", L"ab");', 'printf("%ls\\n", L"ab");', SAME),
    ("two specifications for one with *", 'printf("%*d\\n", 5, n);', 'printf("%d%d\\n", 5, n);', DIRECTIVES),
    ("the flag 0 of %f", 'printf("%08.2f\\n", d);', 'printf("%8.2f\\n", d);', DIRECTIVES),
    (
        "a precision of %e in a macro of the file",
        '\n#define DIGITS ".3"\nprintf("%" DIGITS "e\\n", d);',
        '\n#define DIGITS ".4"\nprintf("%" DIGITS "e\\n", d);',
        DIRECTIVES,
    ),
    (
        "a whole %e in a macro of the file",
        '\n#define METRES "%.3e m"\nprintf(METRES "\\n", d);',
        '\n#define METRES "%.4e m"\nprintf(METRES "\\n", d);',
        DIRECTIVES * 2,
    ),
    (
        "a zero flag for a precision next to %f",
        'printf("%.6lf %05d\\n", d, n);',
        'printf("%f %.5d\\n", d, n);',
        DIFFERENT,
    ),
    (
        "a precision of a string next to %f",
        'printf("%.6lf %s|\\n", d, "ten letters");',
        'printf("%f %.10s|\\n", d, "ten letters");',
        DIFFERENT,
    ),
    ("a directive among other words", 'printf("%f of %d\\n", d, n);', 'printf("of %f %d\\n", d, n);', WORDS),
    ("%Lf for %f", 'printf("%f\\n", d);', 'printf("%Lf\\n", (long double)d);', TYPES),
    ("%ln for %jn", 'intmax_t at; printf("a%jn\\n", &at);', 'long at; printf("a%ln\\n", &at);', TYPES),
    ("numbered arguments", 'printf("%2$s %1$d\\n", n, name);', 'printf("%2$s: %1$d\\n", n, name);', UNJUDGED),
    # Macros.
    ("PRIu64 for %lu", 'printf("%lu\\n", (unsigned long)big);', 'printf("%" PRIu64 "\\n", big);', TYPES),
    ("PRIu32 for %u", 'printf("%u\\n", u);', 'printf("%" PRIu32 "\\n", u);', SAME),
    ("PRIx64 for PRIX64", 'printf("%" PRIX64 "\\n", big + 3);', 'printf("%" PRIx64 "\\n", big + 3);', DIFFERENT),
    ("PRIdPTR for %zd", 'printf("%zd\\n", (ptrdiff_t)1);', 'printf("%" PRIdPTR "\\n", (intptr_t)1);', SAME),
    (
        "a macro of the file",
        '\n#define SIZE "zu"\nprintf("%" SIZE "\\n", size + 5);',
        '\n#define SIZE "zx"\nprintf("%" SIZE "\\n", size + 5);',
        DIFFERENT,
    ),
    ("a format moved into a macro", 'printf("%d\\n", n);', '\n#define FORMAT "%d\\n"\nprintf(FORMAT, n);', SAME),
    (
        "a format moved into a macro, and changed",
        'printf("%5d\\n", n);',
        '\n#define FORMAT "%d\\n"\nprintf(FORMAT, n);',
        DIFFERENT,
    ),
    ("a macro that isn't known", 'printf("%d" SUFFIX, n);', 'printf("%i" SUFFIX, n);', UNJUDGED),
    # The shape of literals.
    (
        "a literal that is split",
        'printf("%d of %d\\n", n, count);',
        'printf("%d of "\n       "%d\\n", n, count);',
        SAME,
    ),
    (
        "a literal that is split, and changed",
        'printf("%d of %d\\n", n, count);',
        'printf("%d of "\n       "%3d\\n", n, count);',
        DIFFERENT,
    ),
    ("literals that are joined", 'printf("a" "%d" "\\n", n);', 'printf("a%d\\n", n);', SAME),
    ("a line that is spliced", 'printf("%d\\n", n);', 'printf("%\\\nd\\n", n);', []),
    # What is around a place.
    (
        "a line that moved",
        'count++;\nprintf("%d moved\\n", n);\nn--;\nl++;',
        'printf("%d moved\\n", n);\ncount++;\nn--;\nl++;',
        [],
    ),
    (
        "a line that moved, and changed",
        'count++;\nprintf("%d moved\\n", n);\nn--;\nl++;',
        'printf("%4d moved\\n", n);\ncount++;\nn--;\nl++;',
        DIFFERENT,
    ),
    ("a variable by another name", 'int a = 5;\nprintf("%d\\n", a);', 'int total = 5;\nprintf("%d\\n", total);', []),
    (
        "a variable by another name, and a respelled format",
        'int a = 5;\nprintf("%d\\n", a);',
        'int total = 5;\nprintf("%i\\n", total);',
        SAME,
    ),
    ("a new call", 'printf("%d\\n", n);', 'printf("%d\\n", n);\nprintf("%s is new\\n", name);', []),
    ("a call that went", 'printf("%s went\\n", name);\nprintf("%d\\n", n);', 'printf("%d\\n", n);', []),
    ("a comment", 'printf("%d\\n", n); /* "%s" */', 'printf("%d\\n", n); /* "%x" */', []),
    ("only white space", 'if (n)\n  printf("%d\\n", n);', 'if (n) {\n\tprintf( "%d\\n" , n );\n}', []),
    ("puts", 'puts("100%d");', 'puts("100%s");', []),
    ("a message", 'printf(_("%d files\\n"), count);', 'printf(_("%3d files\\n"), count);', DIFFERENT),
    (
        "a plural form",
        'printf(ngettext("%d file\\n", "%d files\\n", count), count);',
        'printf(ngettext("%d file\\n", "%i files\\n", count), count);',
        SAME,
    ),
    # Words.
    ("other words", 'printf("%d files\\n", count);', 'printf("%d file names\\n", count);', WORDS),
    ("%% that went", 'printf("%d%%\\n", count);', 'printf("%d\\n", count);', WORDS),
    ("% for %%", 'printf("%d%% of\\n", count);', 'printf("%d% of\\n", count);', TYPES),
    ("% for %% at the end", 'printf("%d%%", count);', 'printf("%d%", count);', REJECTED),
    ("a word without a specification", 'printf("files\\n");', 'printf("names\\n");', []),
    # A format that becomes none.
    ("a conversion that there isn't", 'printf("%d\\n", n);', 'printf("%y\\n", n);', REJECTED),
    ("one percent sign for two", 'log_it("100%%\\n");', 'log_it("100%\\n");', REJECTED),
    ("a percent sign that came, in printf", 'printf("half\\n");', 'printf("50%\\n");', REJECTED),
    ("a percent sign that came, in a text", 'label("half");', 'label("50%");', UNJUDGED),
    ("a format that isn't one any longer, in one that never was", 'printf("%y");', 'printf("%w");', UNJUDGED),
    # Functions whose formats have another meaning.
    ("%i for %d in sscanf", 'sscanf("010", "%d", &n);', 'sscanf("010", "%i", &n);', []),
    ("%s for %d in scanf", 'scanf("%d", &n);', 'scanf("%s", text);', []),
    ("%i for %d in strftime", 'strftime(text, 9, "%d", now);', 'strftime(text, 9, "%i", now);', []),
    # Formats that change places.
    (
        "formats swapped between two functions of a line",
        b'void f(int v) { printf("%d", v); }\nvoid g(long v) { printf("%ld", v); }\n',
        b'void f(int v) { printf("%ld", v); }\nvoid g(long v) { printf("%d", v); }\n',
        TYPES * 2,
    ),
    (
        "formats swapped between two functions",
        b'void f(int v)\n{\n  printf("%d", v);\n}\n\nvoid g(long v)\n{\n  printf("%ld", v);\n}\n',
        b'void f(int v)\n{\n  printf("%ld", v);\n}\n\nvoid g(long v)\n{\n  printf("%d", v);\n}\n',
        TYPES * 2,
    ),
    (
        "formats swapped, and a line that came",
        b'void f(int v) { printf("%d", v); }\nvoid g(long v) { printf("%ld", v); }\n',
        b'void f(int v) { printf("%ld", v); }\nint more;\nvoid g(long v) { printf("%d", v); }\n',
        TYPES * 2,
    ),
    (
        "two functions that change places",
        b'void f(int v)\n{\n  printf("%d", v);\n}\n\nvoid g(long v)\n{\n  printf("%ld", v);\n}\n',
        b'void g(long v)\n{\n  printf("%ld", v);\n}\n\nvoid f(int v)\n{\n  printf("%d", v);\n}\n',
        [],
    ),
    # More digits than Python makes a number of.
    (
        "a width of many digits",
        'printf("%0' + "0" * 4301 + 'd\\n", n);',
        'printf("%0' + "0" * 4301 + '5d\\n", n);',
        DIFFERENT,
    ),
    # Files of other kinds.
    ("a raw string", 'printf(R"(%d\n)", n);', 'printf(R"(%4d\n)", n);', DIFFERENT),
    ("a wide string", 'wprintf(L"%d", n);', 'wprintf(L"%u", n);', UNJUDGED),
    (
        "the ends of lines",
        b'void f(void) {\r\n printf("%d\\n", n);\r\n}\r\n',
        b'void f(void) {\n printf("%d\\n", n);\n}\n',
        [],
    ),
    (
        "the ends of lines, and a format",
        b'void f(void) {\r\n printf("%d" \\\r\n"\\n", n);\r\n}\r\n',
        b'void f(void) {\n printf("%i\\n", n);\n}\n',
        SAME,
    ),
    (
        "Latin-1",
        b'/* \xe9 */ void f(void) { printf("\xe9t\xe9 %d", n); }',
        b'/* \xe9 */ void f(void) { printf("\xe9t\xe9 %i", n); }',
        SAME,
    ),
    (
        "Latin-1 and UTF-8",
        b'void f(void) { printf("\xe9 %d", n); }',
        'void f(void) { printf("é %d", n); }'.encode(),
        WORDS,
    ),
]
