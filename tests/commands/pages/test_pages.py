"""Tries the manual page and the completions against the program's help."""

import importlib
import re
import subprocess

from tests.frame.cases import tests_of
from tests.frame.harness import TIMEOUT, TOP, run
from tests.packages import test_installing as installing


def help_of(program, words):
    """The parts of a help text: the lines of usage, commands, arguments, options, examples and statuses."""
    text = run(program, [*words, "--help"])[2].decode()
    parts = {"Usage": re.findall(r"^Usage: (.*)$", text, flags=re.MULTILINE)}
    for part in ["Commands", "Arguments", "Options", "Example", "Exit status"]:
        block = re.search(rf"^{part}:\n((?:  .*\n)+)", text, flags=re.MULTILINE)
        # A line far to the right goes on with the one before.
        lines = re.sub(r"\n {20,}", " ", block.group(1)).splitlines() if block else []
        parts[part] = [tuple(re.split(r"  +", line.strip(), maxsplit=1)) for line in lines]
        if part == "Example":
            parts[part] = [line.strip() for line in lines]
    return parts


def page_tags(page, name):
    """The tags of a section of the manual page, without the marks of roff."""
    body = re.search(rf"^\.SH {name}\n(.*?)(?=^\.SH |\Z)", page, flags=re.DOTALL | re.MULTILINE).group(1)
    for tag in re.findall(r"^\.TP\n\.\w+ (.*)$", body, flags=re.MULTILINE):
        yield " ".join(re.sub(r'\\f[RP]|"', "", tag).replace("\\-", "-").split()).replace(" ,", ",")


def synopsis_lines(page):
    """The lines of the synopsis."""
    body = re.search(r"^\.SH SYNOPSIS\n(.*?)(?=^\.SH )", page, flags=re.DOTALL | re.MULTILINE).group(1)
    for line in re.sub(r"\n\.(I|RI) ", " ", body).replace("\\-", "-").splitlines():
        line = re.sub(r"^\.B ", "", line)
        if not line.startswith("."):
            yield re.sub(r" (\[) (\w+) (\])", r" \1\2\3", line)


def model_values(program, command):
    """The values of the option --model of a command, as it lists them for another one."""
    text = run(program, [command, "--model", "none"])[2].decode()
    return re.search(r"possible values: (.*?)\]", text).group(1).split(", ")


def test_page(program, trials):
    """The manual page has the commands, arguments, options with their values, statuses and kinds that the program
    has.
    """
    page = (TOP / "man/fmtcanon.1").read_text(encoding="utf-8")
    top = help_of(program, [])
    commands = [name for name, _ in top["Commands"]]
    helps = {name: help_of(program, [name]) for name in commands}
    usages = [usage.replace("<", "").replace(">", "") for name in commands for usage in helps[name]["Usage"]]
    trials.expect("commands in the manual page", [f"fmtcanon {tag}" for tag in page_tags(page, "COMMANDS")], usages)
    synopsis = [line for line in synopsis_lines(page) if "--" not in line and "COMMAND" not in line]
    trials.expect("the synopsis", synopsis, usages)
    given = {re.sub("[<>]", "", name) for one in [top, *helps.values()] for name, _ in one["Options"]}
    trials.expect("options of the manual page", sorted(page_tags(page, "OPTIONS")), sorted(given))
    trials.expect("values that same and fits take", model_values(program, "fits"), model_values(program, "same"))
    section = page[page.index(".SH OPTIONS") : page.index(".SH EXIT STATUS")]
    for value in model_values(program, "same"):
        trials.expect(
            f"--model {value} in the manual page",
            re.search(rf"^\.BR? {value}\b", section, flags=re.MULTILINE) is not None,
            True,
        )
    options = re.split(r"^\.TP\n", section, flags=re.MULTILINE)
    for option in ["fewer", "literal", "null", "whole"]:
        found = {
            name
            for name in commands
            if re.search(
                rf"\b{name}\b", next(it for it in options if f"\\-\\-{option}" in it.splitlines()[0]).split(":\n")[0]
            )
        }
        trials.expect(
            f"commands with --{option} in the manual page",
            found,
            {name for name in commands if any(f"--{option}" in it for it, _ in helps[name]["Options"])},
        )
    trials.expect(
        "statuses of the manual page",
        list(page_tags(page, "EXIT STATUS")),
        [status for status, _ in top["Exit status"]],
    )
    kinds = re.findall(
        r"^ +FMTCANON_(\w+) = (\d+),? ",
        (TOP / "include/fmtcanon.h").read_text(encoding="utf-8").split("enum fmtcanon_kind {")[1].split("}")[0],
        flags=re.MULTILINE,
    )
    names = [f"{number} {name.title().replace('_', '')}" for name, number in kinds]
    trials.expect("kinds of the manual page", list(page_tags(page, "REFUSALS")), names)
    version = re.search(r'^\.TH .* "(fmtcanon \S+)"', page, flags=re.MULTILINE).group(1)
    trials.expect("the version of the manual page", version, run(program, ["--version"])[2].decode().strip())


def completed(words):
    """What bash completes after these words, the last one unfinished."""
    script = 'source "$0"; COMP_WORDS=("$@"); COMP_CWORD=$(($# - 1)); _fmtcanon; printf "%s\\n" "${COMPREPLY[@]}"'
    file = TOP / "completions/fmtcanon.bash"
    done = subprocess.run(
        ["bash", "-c", script, file, "fmtcanon", *words], stdout=subprocess.PIPE, timeout=TIMEOUT, check=True
    )
    return done.stdout.decode().split()


def completed_command(name, words):
    """What bash completes after a command that is written in Python and these words."""
    script = (
        'source "$0"; name=$1; COMP_WORDS=("$@"); COMP_CWORD=$(($# - 1)); _fmtcanon_commands "$name"; printf "%s\\n'
        '" "${COMPREPLY[@]}"'
    )
    words = ["bash", "-c", script, TOP / "completions/fmtcanon-commands.bash", name, *words]
    return subprocess.run(words, stdout=subprocess.PIPE, timeout=TIMEOUT, check=True).stdout.decode().split()


def test_kinds(module, trials):
    """The manual pages and the completions have each kind of a finding that a command has."""
    for command, of_command, entry in [
        ("check", "fitting.reporting", r"^\.B {}$"),
        ("diff", "diff.diff_reports", r"\b{}\b"),
    ]:
        rules = importlib.import_module(f"{module.__name__}.{of_command}").RULES
        page = (TOP / f"man/fmtcanon-{command}.1").read_text(encoding="utf-8")
        missing = [it for it in rules if not re.search(entry.format(it), page, re.MULTILINE)]
        trials.expect(f"kinds of fmtcanon-{command}(1)", missing, [])
        for file, pattern in [
            ("_fmtcanon-commands", r"values -s , kind ([\w ]*)"),
            ("fmtcanon-commands.fish", rf"fmtcanon-{command} -l fail-on -x -a '([^']*)'"),
        ]:
            text = (TOP / "completions" / file).read_text(encoding="utf-8")
            listed = [set(it.split()) for it in re.findall(pattern, text)]
            trials.expect(f"kinds of {command} in {file}", any(set(rules) <= it for it in listed), True)


def test_command_completions(trials):
    """The completions of the commands that are written in Python have the options of their help."""
    zsh, fish = (
        (TOP / f"completions/{name}").read_text(encoding="utf-8")
        for name in ["_fmtcanon-commands", "fmtcanon-commands.fish"]
    )
    for name in installing.COMMANDS:
        options = [one.split()[0] for one in installing.options_of(name)]
        listed = sorted({"-h", *(["-j"] if "--jobs" in options else []), *options})
        command = f"fmtcanon-{name}"
        trials.expect(f"bash: {command} -", sorted(completed_command(command, ["-"])), listed)
        models, forms = ["lp64", "ilp32", "llp64"], []
        if name == "lsp":
            models = []
        elif name != "explain":
            models, forms = [*models, "both", "all"], ["sarif"]
        trials.expect(f"bash: {command} --model", completed_command(command, ["--model", ""]), models)
        trials.expect(f"bash: {command} --output=s", completed_command(command, ["--output", "=", "s"]), forms)
        trials.expect(
            f"bash: {command} --color=n", completed_command(command, ["--color", "=", "n"]), ["never"] * bool(models)
        )
        trials.expect(
            f"bash: {command} --output=j in one word",
            completed_command(command, ["--output=j"]),
            ["--output=json"] * bool(models),
        )
        trials.expect(f"bash: {command} --", completed_command(command, ["--", "-"]), [])
        case = re.search(rf"^    {command}\)\n(.*?);;$", zsh, flags=re.DOTALL | re.MULTILINE).group(1)
        common = zsh[: zsh.index("case $service")] if "options+=" in case else ""
        found = re.findall(r"(?<![\w-])(--?[a-z][a-z-]*)(?=[+=]|\[|,|})", common + case)
        trials.expect(f"zsh: {command}", sorted(set(found)), listed)
        found = set()
        for block, commands in [
            (it[1], it[0].split())
            for it in re.findall(r"^for command in (.*?)\n(.*?)^end$", fish, flags=re.DOTALL | re.MULTILINE)
        ]:
            found |= set(fish_options(block, r"\$command")) if command in commands else set()
        trials.expect(f"fish: {command}", sorted(found | set(fish_options(fish, command))), listed)


def fish_options(text, command):
    """The options of a command in a completion of fish."""
    for line in re.findall(rf"complete -c {command}(?= )(.*)", text):
        yield from (f"-{it}" for it in re.findall(r"-s (\w)", line))
        yield from (f"--{it}" for it in re.findall(r"-l ([\w-]+)", line))


def test_completions(program, trials):
    """The completions have the commands and the options of the help."""
    top = help_of(program, [])
    commands = [name for name, _ in top["Commands"]]
    options = [option for names, _ in top["Options"] for option in names.split(", ")]
    trials.expect("bash: the first word", completed([""]), commands + options)
    trials.expect("bash: s", completed(["s"]), [name for name in commands if name.startswith("s")])
    trials.expect("bash: --", completed(["--"]), [option for option in options if option.startswith("--")])
    for name in commands:
        listed = dict(help_of(program, [name])["Options"])
        one = [option.split()[0] for names in listed for option in names.split(", ")]
        models = model_values(program, name)
        trials.expect(f"bash: {name} --model", completed([name, "--model", ""]), models)
        trials.expect(f"bash: {name} --model=", completed([name, "--model", "="]), models)
        trials.expect(f"bash: {name} --model=i", completed([name, "--model", "=", "i"]), ["ilp32"])
        trials.expect(f"bash: {name} --model=i in one word", completed([name, "--model=i"]), ["--model=ilp32"])
        for words in [["--", "-"], ["--", "--model", ""], ["--", "%d", "n"], ["%d", "--", "s"]]:
            trials.expect(f"bash: {name} {words}", completed([name, *words]), [])
        trials.expect(f"bash: {name} -", completed([name, "-"]), one)
        trials.expect(f"bash: {name} and a format", completed([name, ""]), [])
        trials.expect(
            f"bash: {name} and what follows", completed([name, "%d", ""]), ["n:", "s:"] if name == "format" else []
        )
    words = ["bash", "-c", 'source "$0"; complete -p fmtcanon', TOP / "completions/fmtcanon.bash"]
    output = subprocess.run(words, stdout=subprocess.PIPE, timeout=TIMEOUT, check=True).stdout.decode()
    trials.expect("bash: a space follows a command", output, "complete -F _fmtcanon fmtcanon\n")
    zsh = (TOP / "completions/_fmtcanon").read_text(encoding="utf-8")
    trials.expect("zsh: commands", re.findall(r"^        '([a-z]+):(.*)'$", zsh, flags=re.MULTILINE), top["Commands"])
    fish = (TOP / "completions/fmtcanon.fish").read_text(encoding="utf-8")
    trials.expect("fish: commands", re.findall(r"-a (\w+) -d '(.*)'$", fish, flags=re.MULTILINE), top["Commands"])
    trials.expect("fish: the list", re.search(r"set -l commands (.*)", fish).group(1).split(), commands)
    for names, text in top["Options"]:
        short, long = names.replace("-", "").split(", ")
        trials.expect(f"zsh: {names}", f"'(-{short} --{long})'{{-{short},--{long}}}'[{text}]'" in zsh, True)
        trials.expect(f"fish: {names}", f"-s {short} -l {long} -d '{text}'" in fish, True)
    for name in commands:
        for argument, text in help_of(program, [name])["Arguments"]:
            is_there = f":{text}: '" in zsh.replace("\\:", ":")
            trials.expect(f"zsh: {argument} of {name}", is_there, True)


Tests = tests_of(globals())
