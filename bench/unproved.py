"""Compiles the crates without their contracts, as Rust: for counts of code that isn't proved.

The kit compiles only what it has proved. `kit.rs` has what the crates use of the kit's libraries.
"""

import os
import re
import subprocess
import sys
from pathlib import Path

BENCH = Path(__file__).resolve().parent
ROOT = BENCH.parent
sys.path.append(str(ROOT))

from cargo.strip import replaced, stripped  # noqa: E402
from tests.mutants.rattle_functions import blanked  # noqa: E402

# The libraries, and the names of the kit's libraries that they use. All become modules of one crate, since the kit,
# too, gives LLVM the whole program as one module.
CRATES = """
    pf_values pf_text pf_render pf_bounds pf_reduce pf_probes pf_canon pf_compare pf_literals pf_posix pf_whole
    fmtcanon_c
""".split()
OF_KIT = "arrayvec itoa memchr smallvec".split()
PATHS = re.compile(rf"(?<![\w:])(?:{'|'.join(CRATES)})(?=::)")
# What of thiserror and of the devices is left out. No call that is counted needs them.
WORDS = [
    (r"^[ \t]*#\[error\(.*\)\]\n|^use thiserror::Error;\n", ""),
    (r"(?<=[(, ])Error(?=[,)].*\]$)", ""),
    (r"(?:, )+(?=\)\]$)", ""),
    (r"^(?:pub )?(?:mod|use) devices\b[^;]*;\n", ""),
]
# The processors are those for which `rt lib` compiles.
FLAGS = "--edition 2024 -A warnings -C opt-level=3 -C codegen-units=1 -C panic=abort -C target-cpu=x86-64-v2"
FEATURES = "portable_simd, allocator_api"
GCC = ["gcc", "-std=gnu11", "-Wall", "-Wextra", "-O2", f"-I{ROOT / 'include'}"]


def as_rust(text, name):
    """A source file of a crate as Rust."""
    text = replaced(stripped(text), WORDS)
    text = PATHS.sub(r"crate::\g<0>", re.sub(r"\bcrate::", f"crate::{name}::", text))
    text = re.sub(rf"^use (?={'|'.join(OF_KIT)})\w+::", "use crate::kit::", text, flags=re.MULTILINE)
    # The vector of the kit returns that memory is refused, and Rust's isn't able to.
    if re.search(r"\bVec\b", blanked(text)):
        text = re.sub(r"\A((?://!.*\n)*)", r"\1use crate::kit::Vec;\n", text)
    return text


def output(words):
    """What a command prints. The crates need features of rustc that are not stable."""
    done = subprocess.run(words, env={**os.environ, "RUSTC_BOOTSTRAP": "1"}, capture_output=True, text=True)
    if done.returncode != 0:
        raise ValueError(f"{' '.join(map(str, words))} failed:\n{done.stderr}")
    return done.stdout


def write_crates(folder, texts):
    """Writes all crates as modules of one, with these texts for the files that have one."""
    for name in CRATES:
        source = ROOT / "crates" / name / "src"
        for path in sorted(source.rglob("*.rt")):
            text = texts.get(str(path.relative_to(ROOT))) or path.read_text(encoding="utf-8")
            file = folder / name / path.relative_to(source).with_suffix(".rs")
            file.parent.mkdir(parents=True, exist_ok=True)
            file.write_text(as_rust(text, name), encoding="utf-8")
        (folder / name / "lib.rs").rename(folder / name / "mod.rs")
    (folder / "kit.rs").write_text((BENCH / "kit.rs").read_text(encoding="utf-8"), encoding="utf-8")
    (folder / "calls.rs").write_text(
        as_rust((BENCH / "calls.rattle").read_text(encoding="utf-8"), "calls"), encoding="utf-8"
    )
    modules = "\n".join(f"mod {name};" for name in [*CRATES, "kit", "calls"])
    (folder / "lib.rs").write_text(f"#![feature({FEATURES})]\n{modules}\n", encoding="utf-8")


def build(folder, texts=None):
    """Makes the programs `driver` and `library` in a folder, with these texts for the files that have one."""
    folder.mkdir(parents=True, exist_ok=True)
    write_crates(folder, texts or {})
    library = folder / "libunproved.a"
    output(
        [
            "rustc",
            *FLAGS.split(),
            "--crate-type",
            "staticlib",
            "--crate-name",
            "unproved",
            folder / "lib.rs",
            "-o",
            library,
        ]
    )
    for program in ("driver", "library"):
        output([*GCC, BENCH / f"{program}.c", library, "-Wl,-z,now", "-o", folder / program])
