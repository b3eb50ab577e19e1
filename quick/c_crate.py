"""Makes a crate of the C library's functions with a `main` that calls each, since `rt try` compiles what a program
reaches.

Usage: c_crate.py FOLDER, at the top of the repository. The crate is FOLDER/crates/quick_c, and the others are links.
"""

import re
import sys
from pathlib import Path

TOP = Path(__file__).resolve().parents[1]
C = TOP / "crates/fmtcanon_c"
CALL = re.compile(r'pub extern "C" fn (\w+)\(([^)]*)\)')
STRUCT = re.compile(r"pub struct (\w+)(?:<[^>]*>)? \{(.*?)\n\}", re.DOTALL)
END = "fn main(rt: HostRuntime) -> ExitCode {\n    calls(rt.alloc());\n    ExitCode::from(0)\n}\n"


def values_of_structs():
    """Returns a value of each struct of the library, as an expression, by its name."""
    found = {}
    for file in sorted((C / "src").glob("*.rt")):
        for name, inside in STRUCT.findall(file.read_text(encoding="utf-8")):
            fields = re.findall(r"pub (\w+): ([^,]+),", inside)
            values = ", ".join(f'{field}: {"b" + chr(34) * 2 if "[u8]" in kind else 0}' for field, kind in fields)
            found[name] = f"{file.stem}::{name} {{ {values} }}"
    return {**found, "u8": "0u8"}


def argument(kind, number, structs):
    """Returns the lines before a call that an argument of this type needs, and the argument."""
    if kind == "Global":
        return [], "alloc"
    if kind == "&[u8]":
        return [], 'b""'
    reference = re.fullmatch(r"&(mut )?(\[)?(\w+)(?:<'_>)?\]?", kind)
    if not reference:
        return [], "0"
    mutable, is_slice, name = reference.groups()
    value = f"[{structs[name]}]" if is_slice else structs[name]
    return [f"let {mutable or ''}v{number} = {value};"], f"&{mutable or ''}v{number}"


def calls():
    """Returns the lines that call each function of the library once."""
    structs, lines, number = values_of_structs(), [], 0
    for file in sorted((C / "src").glob("*.rt")):
        for name, parameters in CALL.findall(file.read_text(encoding="utf-8")):
            arguments = []
            for parameter in filter(None, (it.strip() for it in parameters.split(","))):
                number += 1
                before, word = argument(parameter.partition(":")[2].strip(), number, structs)
                lines += before
                arguments.append(word)
            lines.append(f"let _ = {file.stem}::{name}({', '.join(arguments)});")
    return lines


def main():
    folder = Path(sys.argv[1])
    crate = folder / "crates/quick_c"
    (crate / "src").mkdir(parents=True, exist_ok=True)
    for it in sorted((TOP / "crates").iterdir()):
        (folder / "crates" / it.name).mkdir(parents=True, exist_ok=True)
        if not (folder / "crates" / it.name / "src").is_symlink():
            (folder / "crates" / it.name / "src").symlink_to(it / "src")
    for file in (C / "src").glob("*.rt"):
        name = "main.rt" if file.name == "lib.rt" else file.name
        text = file.read_text(encoding="utf-8")
        if name == "main.rt":
            inside = "".join(f"    {it}\n" for it in calls())
            text += (
                f"\nuse std::alloc::Global;\nuse std::process::ExitCode;\n\nfn calls(alloc: Global) {{\n{inside}}}\n\n"
                f"{END}"
            )
        (crate / "src" / name).write_text(text, encoding="utf-8")
    lines = (TOP / "crates.txt").read_text(encoding="utf-8")
    [needs] = re.findall(r"^fmtcanon_c staticlib(:.*)$", lines, re.MULTILINE)
    (folder / "crates.txt").write_text(f"{lines}quick_c{needs}\n", encoding="utf-8")


main()
