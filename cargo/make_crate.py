"""Writes the program and its libraries as a package of Cargo, out of the proved sources.

    make_crate.py FOLDER

The libraries become modules of one library, below `proved`, which `lib.rs` hands out a part of; the program becomes
its binary. Contracts are left out (`strip.py`), and so is the allocator that calls of the kit's libraries pass: there
is one. Nothing in the folder is to be edited or kept.
"""

import re
import shutil
import subprocess
import sys
from pathlib import Path

CARGO = Path(__file__).resolve().parent
ROOT = CARGO.parent
sys.path.append(str(ROOT))

from cargo.strip import replaced, stripped  # noqa: E402
from tests.mutants.rattle_functions import NO_CODE  # noqa: E402

# The libraries, lowest first, without their `pf_`, and the paths of the modules that the crates become.
LIBRARIES = "values text render bounds reduce probes canon compare literals posix whole".split()
C = "fmtcanon_c"
MODULES = {**{f"pf_{name}": f"proved::{name}" for name in LIBRARIES}, C: "c"}
PATHS = re.compile(rf"(?<![\w:])pf_(?:{'|'.join(LIBRARIES)})(?=::)")

# The allocator, which is no parameter here.
ALLOCATOR = [
    (r"\balloc: (?:Global|A)\b(?:,\s*|(?=\)))", ""),
    (r"\balloc\b(?:,\s*|(?=\)))(?!::)", ""),
    (r"<A: Allocator(?: \+ Copy)?>", ""),
    (r"(?<=\w), A>", ">"),
    (r"^use std::alloc::(?:\{[^}]*\bAllocError\b[^}]*\}|AllocError);\n", "use crate::support::AllocError;\n"),
    (r"^use std::(?:alloc::[^;]*|marker);\n", ""),
    (r"format!\(in alloc; ([^()]*)\)", r"Ok::<_, AllocError>(format!(\1))"),
]
# The kit's libraries that differ from those of Rust, and vectors of both, whose calls have names of their own if they
# return that memory is refused.
KIT = [
    (r"\bSmallVec<(\w+), (\w+)>", r"SmallVec<[\1; \2]>"),
    (r"\bVec::(with_capacity|from_elem|from_slice)\(", r"crate::support::vec_\1("),
    (r"\bCounted::new\((Vec::new\(\)|bytes)\)", r"Counted::new(crate::support::Grown(\1))"),
    (r"\bwriter\.into_inner\(\)", "writer.into_inner().0"),
    (r"^use std::borrow::CowSlice;\n", "use std::borrow::Cow;\n"),
    (r"\bCowSlice<('a), u8>", r"Cow<\1, [u8]>"),
    (r"\bCowSlice::", "Cow::"),
    (r"\b(\w*bytes)\.as_slice\(\)", r"&\1[..]"),
    (r"^use std::simd::prelude::\*;\n", "use crate::support::simd::*;\n"),
    (r"\bSimd::<u8, N>", "Simd::<N>"),
    (r"\bu8x(\d+)\b", r"Simd::<\1>"),
    (r"^use itoa::write_digits;\n", "use crate::support::write_digits;\n"),
    (r"^(?:pub )?(?:mod|use) devices\b[^;]*;\n", ""),
]
# Calls that grow a vector get `try_`, except statements: they can't fail. `self.push` is a call of a type's own.
GROUP = r"\((?:[^()]|\((?:[^()]|\([^()]*\))*\))*\)"
GROWS = r"(?:(?<!\bself\.)push|extend_from_slice|reserve|reserve_exact)"
FALLIBLE = rf"^([ \t]*[\w.]+\.{GROWS}{GROUP};)|(?<=\.){GROWS}(?=\()"
GROWING = [(FALLIBLE, lambda found: found[1] or f"try_{found[0]}")]
# Rust's clap returns no error where it builds a command, and takes texts that are there for the life of the process.
COMMANDS = [
    (r"Result<Command<'a>, AllocError>", "Command"),
    (r"\bOk\(command\)", "command"),
    (r"\?", ""),
    (r"<'a>", ""),
    (r"&'a ", "&'static "),
]
CLAP = [
    (r"^use clap::\{?ArgMatches\b.*\n", r"use crate::command_line::Values;\n\g<0>"),
    (r"&ArgMatches<'\w+>", "&'static ArgMatches"),
    (r"\bOk\(matches\) => matches,", "Ok(matches) => &*Box::leak(Box::new(matches)),"),
    (r"\blet Ok\(command\) = definition\(\) else \{[^}]*\};", "let command = definition();"),
    (r"\bif error\.kind\(\) == ErrorKind::OutOfMemory \{[^}]*\}", ""),
    (r"\.value_parser\(row\.models\)", ".value_parser(row.models.to_vec())"),
]


def in_code(text, rules):
    """The text after these rules in its code: comments and literals stay as they are."""
    kept = []

    def keep(found):
        kept.append(found[0])
        return f"\0{len(kept) - 1}\0"

    code = replaced(NO_CODE.sub(keep, text), rules)
    return re.sub(r"\0(\d+)\0", lambda found: kept[int(found[1])], code)


def as_rust(text):
    """A source file as Rust."""
    text = in_code(stripped(text), [*ALLOCATOR, *KIT])
    # A vector of the stack alone stays as it is.
    if not re.search(r"\bArrayVec\b", text) or re.search(r"\b(?:Vec|AllocError)\b", text):
        text = in_code(text, GROWING)
    if ".try_" in text:
        text = re.sub(r"\A((?://!.*\n)*\n?)", r"\1use crate::support::{TryExtend, TryPush};\n", text)
    return text


# The calls of the C library, whose parameters are slices and places.
C_CALL = r"(?<=#\[unsafe\(no_mangle\)\]\n)pub extern \"C\" fn (\w+)\(([^)]*)\)( -> \w+)\s*\{"
C_STRING = [
    (r"\bstring: &'a \[u8\]", "string: crate::support::c_slices::Bytes<'a>"),
    (r"\bself\.string\b", "self.string.get()"),
]


def c_parameter(name, kind):
    """How C passes a parameter, and the line that makes of it what the body takes."""
    if of := re.match(r"&(mut )?\[(.*)\]$", kind):
        pointer, call = ("*mut", "slice_mut") if of[1] else ("*const", "slice")
        made = f"let {name} = unsafe {{ crate::support::c_slices::{call}({name}, {name}_len) }};\n"
        return f"{name}: {pointer} {of[2]}, {name}_len: usize", made
    if place := re.match(r"&mut (.*)", kind):
        made = f"let mut no_{name} = unsafe {{ std::mem::zeroed() }};\n"
        made += f"let {name} = unsafe {{ {name}.as_mut() }}.unwrap_or(&mut no_{name});\n"
        return f"{name}: *mut {place[1]}", made
    return f"{name}: {kind}", ""


def as_c_calls(found):
    """A call of the C library, up to its body, as C calls it."""
    name, listed, result = found.groups()
    parameters = [c_parameter(*it.strip().split(": ", 1)) for it in listed.split(",") if it.strip()]
    passed = ", ".join(it for it, _ in parameters)
    return f'pub unsafe extern "C" fn {name}({passed}){result} {{\n{"".join(it for _, it in parameters)}'


def of_library(text, name):
    """A source file of a library as Rust."""
    text = as_rust(in_code(text, C_STRING) if name == C else text)
    text = re.sub(r"\bcrate::(?!support)", f"crate::{MODULES[name]}::", text)
    text = PATHS.sub(lambda found: f"crate::{MODULES[found[0]]}", re.sub(C_CALL, as_c_calls, text))
    return re.sub(rf"\bpf_(?=(?:{'|'.join(LIBRARIES)})\b)", "", text)


def of_program(text):
    """A source file of the program as Rust."""
    text = in_code(as_rust(text), CLAP).replace("crate::support", "fmtcanon::support")
    if "Result<Command<'a>" in text:
        text = in_code(text, COMMANDS)
    text = re.sub(r'\.version\("([^"]*)"\)', r'.version("\1 (built by cargo, not proved)")', text)
    text = re.sub(r"\bcrate::(?!command_line)", "crate::program::", text)
    return PATHS.sub(lambda found: f"fmtcanon::{MODULES[found[0]]}", text)


def sources(name):
    """The files of a crate below its `src`, without laws, whose bodies are empty, tests, and devices for them."""
    folder = ROOT / "crates" / name / "src"
    for path in sorted(folder.rglob("*.rt")):
        place = path.relative_to(folder)
        if path.stem not in ("laws", "tests", "main") and place.parts[0] not in ("devices", "devices.rt"):
            yield place.with_suffix(".rs"), path.read_text(encoding="utf-8")


def write(path, text):
    path.parent.mkdir(parents=True, exist_ok=True)
    path.write_text(text, encoding="utf-8")


def make(folder):
    shutil.rmtree(folder / "src", ignore_errors=True)
    for name, path in MODULES.items():
        for place, text in sources(name):
            place = "mod.rs" if str(place) == "lib.rs" else place
            write(folder / "src" / path.replace("::", "/") / place, of_library(text, name))
    modules = "//! The libraries, whose sources are proved with their contracts.\n\n"
    write(folder / "src/proved/mod.rs", modules + "".join(f"pub mod {name};\n" for name in LIBRARIES))
    commands = dict(sources("fmtcanon"))
    for place, text in commands.items():
        write(folder / "src/program" / place, of_program(text))
    modules = "//! The commands.\n\n" + "".join(f"pub mod {place.stem};\n" for place in commands)
    write(folder / "src/program/mod.rs", modules)
    copy_own(folder)
    subprocess.run(["cargo", "fmt"], cwd=folder, check=True)


def copy_own(folder):
    """Writes the files that are not made."""
    version = (ROOT / "VERSION").read_text(encoding="utf-8").strip()
    write(folder / "Cargo.toml", (CARGO / "Cargo.toml.in").read_text(encoding="utf-8").replace("@VERSION@", version))
    for file in [*CARGO.glob("*.rs"), *CARGO.glob("support/*.rs")]:
        write(folder / "src" / file.relative_to(CARGO), file.read_text(encoding="utf-8"))
    for file in (CARGO / "README.md", ROOT / "LICENSE", ROOT / "include/fmtcanon.h"):
        shutil.copy(file, folder / file.name)


if __name__ == "__main__":
    make(Path(sys.argv[1]))
