"""Tries that nothing runs that a repository names, that nothing is fetched, and that git has its limits.

It needs git, strace, libclang and gcc.
"""

import os
import time

from tests.commands.hostile.hostile import RIGHT, WRONG, Folder, held, limit_of
from tests.frame.cases import tests_of


OTHER = RIGHT.replace("%d", "%u")
# Gives git two seconds for an answer.
IN_TWO_SECONDS = """
import sys
from fmtcanon.compiling import git
from fmtcanon.diff.command import main
git.SECONDS = 2
sys.argv[1:] = ["--git"]
sys.exit(main())
"""
KNOWN = {"git", "python3", "python3.11", "python"}


def runs_only_git(folder, marks=(), where=".", extra=KNOWN):
    """Whether the commands start nothing but git and compilers, and git no other git than the ones asked for."""
    for command, words in (
        ("diff", ["--git"]),
        ("diff", ["--git", "--cached"]),
        ("diff", ["--git", "HEAD"]),
        ("check", ["--git"]),
        ("check", ["--git", "--cached"]),
    ):
        found, done = folder.programs(command, *words, where=where)
        bad = {
            it
            for it in found
            if it[0]
            not in {*extra, "cc", "cc1", "gcc", "as", "collect2", "uname", "sh", "ldconfig", "ldconfig.real", "dash"}
        }
        # git starts itself again to fetch, to look into submodules and to run a hook.
        bad |= {
            it
            for it in found
            if it[0] == "git"
            and any(word in it[1] for word in ('"fetch"', '"status"', '"--porcelain', '"hook"', '"submodule'))
        }
        bad |= {it for it in found if it[0] in ("sh", "dash") and "ldconfig" not in it[1] and "ld.so" not in it[1]}
        if bad or any(os.path.exists(it) for it in marks):
            return f"{command} {words}: {sorted(bad)} {[it for it in marks if os.path.exists(it)]}"
    return True


@held
def test_filter_of_a_submodule():
    """`git config filter.evil.clean` in a submodule."""
    folder, mark = Folder(), "pwned"
    folder.committed("inner", x_c=RIGHT)
    folder.put("inner/.gitattributes", "*.c filter=evil\n")
    folder.git("add", ".", where="inner")
    folder.git("commit", "-qm", "second", where="inner")
    folder.committed("top", a_c=RIGHT)
    folder.git("-c", "protocol.file.allow=always", "submodule", "--quiet", "add", "../inner", "sub", where="top")
    folder.git("commit", "-qm", "second", where="top")
    mark = folder.work / "pwned"
    folder.git("config", "filter.evil.clean", f"touch {mark}; cat", where="top/sub")
    os.utime(folder.work / "top/sub/x.c", (1, 1))
    return runs_only_git(folder, [mark], "top")


@held
def test_programs_of_a_repository():
    """Filters, fsmonitor, hooks, textconv, external diff, pagers, aliases, in the configuration and an included file.
    """
    folder = Folder()
    folder.committed(a_c=RIGHT, b_c=RIGHT)
    mark = folder.work / "ran"
    ran = f"touch {mark}; cat"
    folder.put(".gitattributes", "*.c filter=mine diff=mine merge=mine\n")
    names = [
        "filter.mine.clean",
        "filter.mine.smudge",
        "filter.mine.process",
        "diff.mine.textconv",
        "diff.mine.command",
        "diff.external",
        "core.fsmonitor",
        "core.pager",
        "core.editor",
        "core.sshCommand",
        "core.askPass",
        "core.gitProxy",
        "gpg.program",
        "alias.ls-files",
        "alias.cat-file",
        "alias.diff-index",
        "sequence.editor",
        "credential.helper",
        "pager.diff-index",
        "core.alternateRefsCommand",
    ]
    for name in names:
        folder.git("config", name, f"!{ran}" if name.startswith(("alias", "credential")) else ran)
    folder.git("config", "filter.mine.required", "true")
    folder.put(
        "more", f'[filter "more"]\n clean = {ran}\n[core]\n fsmonitor = {ran}\n hooksPath = {folder.work}/hooks\n'
    )
    folder.git("config", "include.path", str(folder.work / "more"))
    folder.put("b.c", RIGHT + "\n")
    (folder.work / ".git/info/attributes").write_text("b.c filter=more\n")
    for where in (".git/hooks", "hooks"):
        for hook in (
            "post-index-change",
            "pre-commit",
            "fsmonitor-watchman",
            "post-checkout",
            "reference-transaction",
            "pre-auto-gc",
        ):
            folder.put(f"{where}/{hook}", f"#!/bin/sh\n{ran}\n", 0o755)
    folder.put("a.c", OTHER)
    os.utime(folder.work / "b.c", (1, 1))
    mark.unlink(missing_ok=True)
    return runs_only_git(folder, [mark])


@held
def test_promised_objects_are_not_fetched():
    """A partial clone whose objects are missing, by three kinds of addresses."""
    for url in ("ssh://x/y", "ext::touch MARK", "file:///nowhere"):
        folder = Folder()
        mark = folder.work / "ran"
        folder.committed(a_c=RIGHT, b_c=RIGHT)
        for name in sorted((folder.work / ".git/objects").glob("??/*")):
            kind = (
                os.popen(f"cd {folder.work} && git cat-file -t {name.parent.name}{name.name} 2>/dev/null")
                .read()
                .strip()
            )
            if kind == "blob":
                name.unlink()
        for name, value in [
            ("core.repositoryformatversion", "1"),
            ("extensions.partialClone", "o"),
            ("remote.o.promisor", "true"),
            ("remote.o.url", url.replace("MARK", str(mark))),
            ("core.sshCommand", f"touch {mark}; false"),
            ("protocol.ext.allow", "always"),
        ]:
            folder.git("config", name, value)
        folder.put("a.c", OTHER)
        said = runs_only_git(folder, [mark])
        if said is not True:
            return f"{url}: {said}"
    return True


@held
def test_other_shapes_of_repositories():
    """A linked work tree, alternates, replace refs, grafts, another's folder: nothing runs, and the answer is git's."""
    folder = Folder()
    folder.committed("top", a_c=RIGHT)
    folder.git("worktree", "add", "-q", "../linked", where="top")
    folder.put("linked/a.c", OTHER)
    folder.git("clone", "-q", "--shared", "top", "shared")
    folder.put("shared/a.c", OTHER)
    for where in ("linked", "shared"):
        said = runs_only_git(folder, where=where)
        status, output, _ = folder.run("diff", "--git", where=where)
        if said is not True or status != 1 or "a.c:2:" not in output:
            return f"{where}: {said} {status} {output}"
    folder.git("commit", "-qam", "second", where="shared")
    folder.git("replace", "HEAD~1", "HEAD", where="shared")
    (folder.work / "shared/.git/info").mkdir(exist_ok=True)
    (folder.work / "shared/.git/info/grafts").write_text("0" * 40 + "\n")
    said = runs_only_git(folder, where="shared")
    if said is not True:
        return f"replaced: {said}"
    os.chown(folder.work / "top", 65534, 65534)
    os.chown(folder.work / "top/.git", 65534, 65534)
    folder.put("top/a.c", OTHER)
    status, output, fault = folder.run("diff", "--git", where="top")
    return (status == 2 and "dubious ownership" in fault) or f"another's: {status} {output} {fault}"


@held
def test_line_ends_filters_links():
    """Other ends of lines change no format; a file under a filter is judged; a link or a FIFO isn't read."""
    folder = Folder()
    folder.committed(a_c=RIGHT, b_c=RIGHT, c_c=RIGHT, d_c=RIGHT)
    folder.put("a.c", RIGHT.replace("\n", "\r\n"))
    folder.put(".gitattributes", "b.c filter=mine\n")
    folder.put("b.c", OTHER)
    for name in ("c.c", "d.c"):
        (folder.work / name).unlink()
    os.mkfifo(folder.work / "c.c")
    (folder.work / "d.c").symlink_to("/etc/passwd")
    status, output, fault = folder.run("diff", "--git", seconds=20)
    told = [it.split(":")[0] for it in output.splitlines() if "types differ" in it]
    return told == ["b.c"] or f"{status} {output} {fault}"


@held
def test_what_git_changes_by_itself():
    """Other ends of lines, or a word $Id$, aren't a change only where an attribute, or the configuration, says so."""
    ends, word = RIGHT.replace("\n", "\r\n"), WRONG + "/* $Id$ */\n"
    listed = (
        ("a.c", WRONG, WRONG.replace("\n", "\r\n"), "", False),
        ("a.c", WRONG, WRONG.replace("\n", "\r\n"), "*.c text\n", True),
        ("a.c", WRONG, WRONG.replace("\n", "\r\n"), "*.c eol=crlf\n", True),
        ("a.c", WRONG, WRONG.replace("\n", "\r\n"), "*.c -text\n", False),
        ("a.c", word, word.replace("$Id$", "$Id: 1 $"), "*.c ident\n", True),
        ("a.c", WRONG.replace("%d", "$Id$%d"), WRONG.replace("%d", "$Id: 1$%d"), "", False),
    )
    for name, before, after, attributes, is_same in listed:
        folder = Folder()
        folder.committed(a_c=before)
        folder.put(".gitattributes", attributes)
        folder.put(name, after)
        status, output, fault = folder.run("check", "--no-cache", "--git", "HEAD", ".")
        if (status == 0) != is_same:
            return f"{attributes!r} {after!r}: {status} {output} {fault}"
    folder = Folder()
    folder.committed(a_c=RIGHT)
    folder.git("config", "core.autocrlf", "true")
    folder.put("a.c", ends)
    return "0 files" in folder.run("check", "--no-cache", "--git")[2] or "core.autocrlf is not seen"


@held
def test_memory_of_git():
    """git has a limit of memory: as for attributes or alternates that are /dev/zero."""
    folder = Folder()
    folder.put("a.c", WRONG)
    folder.committed()
    folder.put("a.c", WRONG.replace("%d", "%i"))
    found = limit_of(folder, "git", folder.command("diff", "--git"))
    return (found and "unlimited" not in found) or f"the limits of git: {found}"


@held
def test_a_submodule_that_waits():
    """A FIFO as HEAD of each submodule: the first that takes all of its time ends the command. It isn't "no commit"."""
    folder = Folder()
    folder.put("a.c", WRONG)
    folder.git("init", "-q")
    folder.git("add", "a.c")
    for number in range(4):
        folder.git("init", "-q", f"s{number}")
        folder.git("commit", "-qm", "x", "--allow-empty", where=f"s{number}")
        folder.git("add", f"s{number}")
    folder.git("commit", "-qm", "x")
    for number in range(4):
        head = folder.work / f"s{number}/.git/HEAD"
        head.unlink()
        os.mkfifo(head)
    began = time.monotonic()
    status, _, fault = folder.run_python(IN_TWO_SECONDS)
    took = time.monotonic() - began
    return (took < 6 and status == 2 and "git took more than 2 seconds" in fault) or f"{took:.0f} s, {status} {fault}"


Tests = tests_of(globals())
