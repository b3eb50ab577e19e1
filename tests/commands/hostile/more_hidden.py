"""Tries that --git, --cached and a baseline hide no new error.

It needs git, libclang, gcc and clang.
"""

from tests.commands.hostile.hostile import HEAD, Folder, held
from tests.frame.cases import tests_of


LOG = '#include <stdio.h>\n#define LOG(f, ...) printf("x: " f, __VA_ARGS__)\nvoid f(int n, size_t z) {\n'


def found_in_change(old, new):
    """What --git, --cached and a run without these find after an edit of a committed file."""
    folder = Folder()
    folder.committed(a_c=old)
    folder.put("a.c", new)
    work = folder.run("check", "--git", "a.c")
    folder.git("add", ".")
    return work, folder.run("check", "--git", "--cached", "a.c"), folder.run("check", "a.c")


def all_found(pairs):
    bad = []
    for label, (old, new) in pairs.items():
        work, cached, whole = found_in_change(old, new)
        if not (work[0] == cached[0] == whole[0] == 1):
            bad.append((label, work[0], cached[0], whole[0], work[2]))
    return not bad or str(bad)


@held
def test_arguments_of_a_macro_over_several_lines():
    """An argument changes in a call by a macro that goes over several lines."""
    call = LOG + 'NAME("%d %s\\n",\nn,\n"a"); (void) z; }\n'
    last = LOG + '(void) z; LOG("%d %s %d\\n",\n1,\n"a",\nn);\n}\n'
    before_header = (
        LOG
        + '(void) z; }\nvoid g(int n, size_t z) {\n(void) z; LOG("%d %s %d\\n",\n1,\n"a",\nn); }\n#include <string.h>\n'
    )
    end = LOG + '(void) z; LOG("%d %s %d\\n",\n1,\n"a",\nn); }'
    return all_found(
        {
            "a macro": (call.replace("NAME", "LOG"), call.replace("NAME", "LOG").replace("\nn,\n", "\nz,\n")),
            "the last argument": (last, last.replace("\nn);", "\nz);")),
            "before a header": (before_header, before_header.replace("\nn); }", "\nz); }")),
            "at the end": (end, end.replace("\nn); }", "\nz); }")),
            "plain": (call.replace("NAME", "printf"), call.replace("NAME", "printf").replace("\nn,\n", "\nz,\n")),
        }
    )


@held
def test_no_more_than_changed():
    """A change in other lines, after the next token, reports no old error."""
    old = LOG + 'LOG("%d\\n",\nz);\nn++;\n\n\n}\nint other;\n'
    work, cached, _ = found_in_change(old, old.replace("int other", "long other"))
    return (work[0], cached[0]) == (0, 0) or f"{work} {cached}"


@held
def test_renumbered_lines():
    """A call after `#line` in the file that changes."""
    old = '#include <stdio.h>\n#line 1 "gram.y"\nvoid f(int n, size_t z) {\nprintf("%d\\n",\nn); (void) z; }\n'
    return all_found({"#line": (old, old.replace("\nn);", "\nz);"))})


@held
def test_formats_in_headers():
    """A format in a constant array of a header that changes."""
    folder = Folder()
    folder.committed(
        h_h='static const char f[] = "%d\\n";\n',
        a_c='#include <stdio.h>\n#include "h.h"\nvoid g(int n) { printf(f, n); }\n',
    )
    folder.put("h.h", 'static const char f[] = "%s\\n";\n')
    folder.database("cc")
    done = folder.run("check", "-p", ".", "--git")
    return done[0] == 1 or str(done)


@held
def test_an_included_file_that_is_staged_in_part():
    """With --cached, an included file of any ending that isn't judged as it is staged is named, and no other file."""
    table = 'void f(size_t n) { printf("%zu\\n", n); }\n'
    folder = Folder()
    folder.committed(a_c=HEAD + '#include "m.tbl"\n')
    folder.put("m.tbl", table)
    folder.put("notes.tbl", table)
    folder.database("cc")
    for text in (table.replace("%zu", "%d"), table):
        folder.put("m.tbl", text)
        folder.put("notes.tbl", text)
        if text != table:
            folder.git("add", "m.tbl", "notes.tbl")
    done = folder.run("check", "-p", ".", "--git", "--cached")
    is_said = "m.tbl:1: warning: not judged: a header has changes that aren't staged" in done[1]
    return (done[0] == 2 and is_said and "notes.tbl" not in done[1]) or str(done)


@held
def test_baseline_of_platforms():
    """A call known as wrong on one platform breaks on another."""
    folder = Folder()
    text = '#include <stdio.h>\ntypedef {} u_t;\nvoid f(u_t z) {{ printf("%lu\\n", z); }}\n'
    folder.put("b.c", text.format("size_t"))
    folder.run("check", "--baseline", "known.json", "b.c")
    known = folder.run("check", "--baseline", "known.json", "b.c")
    folder.put("b.c", text.format("unsigned"))
    new = folder.run("check", "--baseline", "known.json", "b.c")
    return (known[0], new[0]) == (0, 1) or f"{known} {new}"


def hidden(before, after, words=("--git", "HEAD", "."), all_words=("--no-cache", "."), database=None, extra=()):
    """True if --git tells an error that check without it tells."""
    folder = Folder()
    for name, text in before.items():
        folder.put(name, text)
    if database:
        folder.database(*database)
        words, all_words = ("-p", ".", "--git"), ("-p", ".", "--no-cache")
    folder.committed()
    for name, text in after.items():
        folder.put(name, text)
    true, git = folder.run("check", *all_words, *extra), folder.run("check", "--no-cache", *words, *extra)
    if true[0] != 1:
        return f"no error at all: {true}"
    return git[0] != 0 or f"status 0, {git[1:]}; without --git: {true[1]}"


@held
def test_the_word_id_of_rcs():
    """What is between $Id: and $ is the file's own without the attribute `ident`."""
    text = HEAD + 'void f(size_t z) { printf("$Id: %zu$\\n", z); }\n'
    return hidden({"a.c": text}, {"a.c": text.replace("%zu", "%d")})


@held
def test_an_attribute_of_the_same_change():
    """A line `*.c filter=x` in .gitattributes, also by the same change, turns nothing off."""
    return hidden(
        {"a.c": HEAD}, {"a.c": HEAD + 'void f(size_t z) { printf("%d\\n", z); }\n', ".gitattributes": "*.c filter=x\n"}
    )


@held
def test_a_header_with_line_directives():
    """A changed header with #line: its lines have other numbers, also under the name of the source that includes it."""
    header = '#line 1 "gram.y"\nstatic inline void f(int n, size_t z) { printf("%d\\n",\nn\n); }\n'
    for text in (header, header.replace("gram.y", "a.c"), header.replace("1", "500").replace(' "gram.y"', "")):
        before = {"a.c": HEAD + '#include "gram.h"\n', "gram.h": text}
        said = hidden(before, {"gram.h": text.replace("\nn\n", "\nz\n")})
        if said is not True:
            return f"{text!r}: {said}"
    return True


@held
def test_other_spellings_of_line_directives():
    """A source with one of these before: /**/#line, %:line, #/**/line, #line\\LF, # 500 and others."""
    listed = (
        "/**/#line 500",
        "%:line 500",
        "#/**/line 500",
        "#line\\\n 500",
        "# 500",
        "/*\n*/ # line 500",
        "#li\\\nne 500",
    )
    for directive in (
        *listed,
        "\t#\tline 500",
        "#/*\n*/line 500",
        "#\\\n\\\nline 500",
        "%:/**/line 500",
        "#line __LINE__",
    ):
        text = HEAD + directive + '\nvoid f(int n, size_t z) { printf("%d\\n",\nn\n); }\n'
        said = hidden({"a.c": text}, {"a.c": text.replace("\nn\n", "\nz\n")})
        if said is not True:
            return f"{directive!r}: {said}"
    return True


@held
def test_an_included_file_with_another_ending():
    """What a unit includes is looked at, whatever its name, also if it can't be read as text."""
    for name in ("m.def", "m.tpp", "m.tbl", "m", "README.md"):
        text = 'printf("%zu\\n", z);\n'
        said = hidden(
            {"a.c": HEAD + f'void f(size_t z) {{\n#include "{name}"\n}}\n', name: text},
            {name: text.replace("%zu", "%d")},
        )
        if said is not True:
            return f"{name}: {said}"
    return True


@held
def test_a_system_header_of_the_project():
    """A format in a macro of a header that -isystem finds, or that has #pragma GCC system_header."""
    source = HEAD + "#include <m.h>\nvoid f(size_t z) {\nP(z);\n}\n"
    plain = '#define P(z) printf("%zu\\n", z)\n'
    long = '#define Q(z) \\\n  printf("a" \\\n  "%zu\\n", z)\n#define P(z) Q(z)\n'
    for text in (plain, long, "#pragma GCC system_header\n" + plain):
        option = "-I" if "#pragma" in text else "-isystem"
        after = {"sys/m.h": text.replace("%zu", "%d")}
        said = hidden({"a.c": source, "sys/m.h": text}, after, extra=(f"--flag={option}", "--flag=sys"))
        if said is not True:
            return f"{text!r}: {said}"
    return True


@held
def test_a_name_that_is_not_ascii_by_clang():
    """clang writes é as \\303\\251 in line markers."""
    text = '#define P(z) printf("%zu\\n", z)\n'
    source = HEAD + '#include "x.h"\nvoid f(size_t z) {\nP(z);\n}\n'
    return hidden(
        {"a.c": source, "é/x.h": text},
        {"é/x.h": text.replace("%zu", "%d")},
        database=["clang", "-IWORK/é"],
    )


@held
def test_a_comment_in_such_a_file():
    """The same: `fmtcanon: ok` in such a header."""
    folder = Folder()
    folder.put("é/x.h", '#define P(z) printf("%d\\n", z) // fmtcanon: ok\n')
    folder.put("a.c", HEAD + '#include "x.h"\nvoid f(size_t z) {\nP(z);\n}\n')
    folder.database("clang", "-Ié")
    said = folder.run("check", "-p", ".", "--no-cache")
    return said[0] == 0 or said[1]


@held
def test_a_surplus_argument_in_the_baseline():
    """An entry of kind surplus has the format: another call of printf with another format isn't known."""
    folder = Folder()
    folder.put("a.c", HEAD + 'void f(int n) { printf("%d\\n", n, n); }\n')
    folder.run("check", "--no-cache", "--baseline", "known", "a.c")
    folder.put(
        "a.c",
        HEAD + 'void f(int n) { printf("%d\\n", n); }\nvoid g(const char *s, int n) { printf("user %s\\n", s, n); }\n',
    )
    said = folder.run("check", "--no-cache", "--baseline", "known", "a.c")
    return "surplus]" in said[1] or said[2]


Tests = tests_of(globals())
