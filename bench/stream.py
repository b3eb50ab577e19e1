#!/usr/bin/env python3
"""Rates and memory of `fmtcanon stream` beside a C loop over the same bytes, `tr` and `sed`.

Usage: bench/stream.py PROGRAM [MEGABYTES]
       bench/stream.py PROGRAM instructions

The C loop keeps one state, reads blocks of 64 KiB and writes them as they are. With the word instructions it counts, by
callgrind, the instructions of `fmtcanon stream` and of the C loop for each byte, without start and end of the process.
It needs gcc, and valgrind for that.
"""

import os
import re
import subprocess
import sys
import tempfile
import time

LOOP = r"""
#include <unistd.h>
static unsigned char block[65536];
int main(void) {
    unsigned state = 0;
    ssize_t len;
    while ((len = read(0, block, sizeof block)) > 0) {
        for (ssize_t i = 0; i < len; i++)
            state = block[i] == '%' ? 1 : block[i] == 'd' ? 0 : state ? state + 1 : 0;
        for (ssize_t at = 0; at < len;) {
            ssize_t put = write(1, block + at, len - at);
            if (put <= 0) return 2;
            at += put;
        }
    }
    return state > 2;
}
"""

TEXTS = {
    "literal bytes": b"The quick brown fox jumps over the lazy dog.\n",
    "`%d`": b"%d",
    "`%d` and 8 literal bytes": b"%d items ",
    "`%-20d`": b"%-20d",
}


def rate(command, text, size):
    """Megabytes of input a second, the best of three runs."""
    best = 0.0
    for _ in range(3):
        with open(text, "rb") as source, open(os.devnull, "wb") as sink:
            start = time.perf_counter()
            subprocess.run(command, stdin=source, stdout=sink, check=False)
            best = max(best, size / 1e6 / (time.perf_counter() - start))
    return best


def resident(program, text):
    """The greatest resident size in kilobytes that was seen."""
    most = 0
    with open(text, "rb") as source, open(os.devnull, "wb") as sink:
        with subprocess.Popen([program, "stream"], stdin=source, stdout=sink) as child:
            while child.poll() is None:
                with open(f"/proc/{child.pid}/status", encoding="ascii") as status:
                    sizes = [int(line.split()[1]) for line in status if line.startswith("VmHWM")]
                    most = max([most, *sizes])
                time.sleep(0.002)
    return most


def counted(command, text):
    """The instructions of a run over these bytes."""
    words = ["valgrind", "--tool=callgrind", "--callgrind-out-file=/dev/null", *command]
    ran = subprocess.run(words, input=text, stdout=subprocess.DEVNULL, stderr=subprocess.PIPE, check=True)
    return int(re.search(rb"Collected : (\d+)", ran.stderr).group(1))


def instructions(program, loop):
    """Prints the instructions a byte of texts of a megabyte more than another."""
    print("| Text | `stream`, instructions a byte | C loop |\n|---|---|---|")
    for name, part in TEXTS.items():
        block = part * (1_000_000 // len(part))
        each = [
            (counted(command, 2 * block) - counted(command, block)) / len(block)
            for command in ([program, "stream"], [loop])
        ]
        print(f"| {name} | " + " | ".join(f"{one:.1f}" for one in each) + " |")


def rates(program, loop, size, folder):
    """Prints the rates over texts of this size, and the memory of the program."""
    print("| Text | `stream`, MB/s | C loop | `tr` | `sed` | Resident, kB |\n|---|---|---|---|---|---|")
    for name, part in TEXTS.items():
        text = os.path.join(folder, "text")
        block = part * (1_000_000 // len(part))
        with open(text, "wb") as out:
            for _ in range(size // len(block)):
                out.write(block)
        commands = [[program, "stream"], [loop], ["tr", "x", "y"], ["sed", "s/x/y/"]]
        found = [rate(command, text, size) for command in commands]
        print(f"| {name} | " + " | ".join(f"{one:,.0f}" for one in found) + f" | {resident(program, text):,} |")


def main():
    if len(sys.argv) < 2:
        sys.exit(__doc__)
    program = os.path.abspath(sys.argv[1])
    words = sys.argv[2:]
    with tempfile.TemporaryDirectory() as folder:
        loop = os.path.join(folder, "loop")
        source = os.path.join(folder, "loop.c")
        with open(source, "w", encoding="ascii") as out:
            out.write(LOOP)
        subprocess.run(["gcc", "-O2", "-o", loop, source], check=True)
        if words == ["instructions"]:
            instructions(program, loop)
        else:
            rates(program, loop, int(words[0] if words else "100") * 1_000_000, folder)


if __name__ == "__main__":
    main()
