"""Times fmtcanon-check over source trees: a first run, a second one, and gcc over the same files.

Usage: bench/checking.py [--before DIR] [--jobs N] [--times N] TREE..

Each TREE has a `compile_commands.json`; nothing there is changed. Times are seconds of a processor, of the command and
of all that it starts: the least of some rounds, in each of which all are run one after another. `gcc` is the command of
each file with `-fsyntax-only -Wformat=2`. DIR is another checkout, whose first run is timed, too. It needs libclang and
the library, as `fmtcanon-check` does.
"""

import argparse
import json
import os
import shlex
import subprocess
import sys
import tempfile
from pathlib import Path

TOP = Path(__file__).resolve().parent.parent


def seconds(words, status=(0, 1), **names):
    """The seconds of a processor that a command takes, with what it starts."""
    before = os.times()
    done = subprocess.run(words, env={**os.environ, **names}, capture_output=True, check=False)
    after = os.times()
    if done.returncode not in status:
        print(done.stderr.decode(errors="replace")[-500:], file=sys.stderr)
    return after.children_user + after.children_system - before.children_user - before.children_system


def checked(checkout, tree, jobs, cache):
    words = [sys.executable, "-m", "fmtcanon.checker", "-j", str(jobs), "-p", str(tree), str(tree)]
    return seconds(words, (0, 1, 2), PYTHONPATH=str(Path(checkout, "python")), XDG_CACHE_HOME=cache)


def compiled(tree):
    """The seconds that the compiler takes for all files."""
    total = 0.0
    for one in json.loads(Path(tree, "compile_commands.json").read_text(encoding="utf-8")):
        words = one.get("arguments") or shlex.split(one["command"])
        kept = [it for at, it in enumerate(words) if it != "-c" and "-o" not in (it, words[at - 1])]
        os.chdir(one["directory"])
        total += seconds([*kept, "-fsyntax-only", "-Wformat=2"])
    os.chdir(TOP)
    return total


def files_in(tree):
    found = json.loads(Path(tree, "compile_commands.json").read_text(encoding="utf-8"))
    return len({os.path.join(it["directory"], it["file"]) for it in found})


def row(tree, options):
    """The least of each of the times."""
    rounds = []
    for _ in range(options.times):
        with tempfile.TemporaryDirectory() as cache, tempfile.TemporaryDirectory() as other:
            times = [compiled(tree), *(checked(TOP, tree, options.jobs, cache) for _ in ("cold", "warm"))]
            rounds.append([*times, *(checked(it, tree, options.jobs, other) for it in options.before)])
    gcc, cold, warm, *before = map(min, zip(*rounds))
    return [gcc, cold, warm, warm / gcc, *(it for one in before for it in (one, cold / one))]


def main():
    parser = argparse.ArgumentParser(usage=__doc__)
    parser.add_argument("--before", action="append", default=[])
    parser.add_argument("--jobs", type=int, default=2)
    parser.add_argument("--times", type=int, default=3)
    parser.add_argument("trees", nargs="+")
    options = parser.parse_args()
    names = ["Program", "Files", "gcc", "Cold", "Warm", "Warm to gcc"]
    names += ["Cold before", "Cold to before"] * len(options.before)
    print(f"| {' | '.join(names)} |\n|{'---|' * len(names)}")
    for tree in map(os.path.realpath, options.trees):
        found = " | ".join(f"{it:.2f}" for it in row(tree, options))
        print(f"| {os.path.basename(tree)} | {files_in(tree)} | {found} |", flush=True)


if __name__ == "__main__":
    main()
