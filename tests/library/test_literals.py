"""Holds string literals of C source to a C compiler: the bytes of sources, and that what is encoded is compiled to just
the text.

It needs gcc.
"""

import os
import random
import re
import subprocess

from tests.frame.cases import tests_of
from tests.frame.harness import TIMEOUT, run
from tests.program.test_rows import rows_of

COUNT = 2000
SEED = 20
# With the first of these a compiler replaces no trigraphs, and with the second it does.
STANDARDS = ["-std=gnu11", "-std=c11"]
STRICT = ["-std=c11", "-Wall", "-Wextra", "-pedantic", "-Werror"]
SIMPLE = b"\"\\'?abtnvfr"
OCTAL = b"01234567"
WHITE = [b"", b" ", b"\t", b"\n", b"\n  ", b" \v\f ", b"\r\n"]
# Bytes that a literal may have as they are.
PLAIN = bytes(byte for byte in range(1, 256) if byte not in b'"\\\n\r')
THIRDS = b"=/'()!<>-"


def element(rng):
    """One element: plain, simple, octal or hexadecimal."""
    kind = rng.randrange(8)
    if kind < 3:
        return bytes([rng.choice(PLAIN)])
    if kind == 3:
        return bytes([rng.choice(b"0123456789abcdefABCDEF%dsiux?")])
    if kind == 4:
        return b"\\" + bytes([rng.choice(SIMPLE)])
    number = rng.randrange(1, 256)
    if kind < 7:
        return f"\\{number:0{rng.randrange(1, 4)}o}".encode()
    digits = f"{number:0{rng.randrange(1, 6)}x}"
    return ("\\x" + (digits.upper() if rng.randrange(2) else digits)).encode()


def is_one(literal):
    """Whether a literal has no trigraph, and no digit goes on with an escape to a number above 255."""
    if any(b"??" + bytes([third]) in literal for third in THIRDS):
        return False
    return all(number <= 255 for number in numbers_of(literal))


def numbers_of(literal):
    """The numbers of the numeric escapes of a literal, each with all the digits that follow it."""
    for escape in re.findall(rb"\\([0-7]{1,3}|x[0-9A-Fa-f]+|.)", literal, flags=re.DOTALL):
        if escape[0] in OCTAL:
            yield int(escape, 8)
        elif escape[:1] == b"x":
            yield int(escape[1:], 16)


def sources():
    """Sources that every compiler takes, and each of the 255 bytes by each of its notations."""
    for byte in range(1, 256):
        yield f'"\\{byte:o}" "\\{byte:03o}7" "\\x{byte:x}"'.encode()
        if byte in PLAIN:
            yield b'"' + bytes([byte]) + b'"'
    for letter in SIMPLE:
        yield b'"\\' + bytes([letter]) + b'"'
    yield from [
        b'""',
        b'"" ""',
        b' "\\x4" "1" ',
        b'"\\1" "1"',
        b'"\\3777"',
        b'"?" "?="',
        b'"\\?\\?="',
        b'"?\\?="',
        b'"\\001"',
    ]
    rng, found = random.Random(SEED), 0
    while found < COUNT:
        literals = [
            b'"' + b"".join(element(rng) for _ in range(rng.randrange(12))) + b'"' for _ in range(rng.randrange(1, 4))
        ]
        if all(map(is_one, literals)):
            found += 1
            parts = [rng.choice(WHITE) + literal for literal in literals]
            yield b"".join(parts) + rng.choice(WHITE)


def texts():
    """Texts without NUL, with all bytes and what is hard to write."""
    for byte in range(1, 256):
        yield bytes([byte])
        yield bytes([byte]) + b"7f"
    yield bytes(range(1, 256))
    rng = random.Random(SEED + 1)
    for _ in range(COUNT):
        some = rng.choice([bytes(range(1, 256)), b"?=/'()!<>-?", b'\\"\n\t\r01789abf', b"%d s\x01\x7f\x80\xff"])
        yield bytes(rng.choice(some) for _ in range(rng.randrange(40)))


def compiled(compiler, sources, work):
    """What a compiler makes of each of some sources, and what it says.

    A text in UTF-8 or not is taken byte for byte.
    """
    lines = ["#include <stdio.h>", "#define ONE(s) fwrite(s, 1, sizeof(s), stdout)", "int main(void)", "{"]
    program = "\n".join(lines).encode() + b"\n"
    for source in sources:
        # The length of each comes before it, since a text may hold anything.
        program += b'    printf("%zu ", sizeof(\n' + source + b"\n));\n    ONE(\n" + source + b"\n);\n"
    file = work / "literals.c"
    file.write_bytes(program + b"    return 0;\n}\n")
    made = work / "literals"
    done = subprocess.run(
        [*compiler, file, "-o", made],
        timeout=TIMEOUT,
        check=False,
        capture_output=True,
        env={**os.environ, "LC_ALL": "C"},
    )
    if done.returncode:
        return None, done.stderr.decode("utf-8", "replace")
    printed = subprocess.run([made], timeout=TIMEOUT, check=True, stdout=subprocess.PIPE).stdout
    found = []
    while printed:
        size, _, rest = printed.partition(b" ")
        found.append(rest[: int(size) - 1])
        printed = rest[int(size) :]
    return found, done.stderr.decode("utf-8", "replace")


def compiler():
    return ["gcc"]


def test_decoded(module, compiler, trials, work):
    """The compiler and the library take a source for the same bytes, whether or not the compiler replaces trigraphs."""
    listed = list(sources())
    for standard in STANDARDS:
        found, said = compiled([*compiler, standard, "-w"], listed, work)
        trials.expect(f"{compiler} {standard}: sources are compiled", (found is not None, said), (True, ""))
        trials.expect(f"{compiler} {standard}: sources", len(found or []), len(listed))
        for source, bytes_found in zip(listed, found or []):
            trials.expect(f"decode_literal of {source!r}, {standard}", module.decode_literal(source), bytes_found)


def test_trigraphs(module, compiler, trials, work):
    """A source with a trigraph, also after a backslash, is rejected at its first `?`: compilers read it in two ways."""
    listed = [
        (b'"a' + front + b"??" + bytes([third]) + b'n"', 2 + len(front))
        for front in [b"", b"\\", b"?", b"\\?"]
        for third in THIRDS
    ]
    both = [compiled([*compiler, standard, "-w"], [source for source, _ in listed], work)[0] for standard in STANDARDS]
    for (source, place), *found in zip(listed, *both):
        trials.expect(f"{source!r} is read in two ways", found[0] != found[1], True)
        trials.expect(f"{source!r} is refused", decoded(module, source), [6, place])


def test_encoded(module, compiler, trials, work):
    """The literal of a text is compiled without a word, and to just the text."""
    listed = list(texts())
    literals = [module.encode_literal(text) for text in listed]
    # Many sources have bytes that are not UTF-8 in comments and literals; gcc takes them as they are.
    found, said = compiled([*compiler, *STRICT], literals, work)
    trials.expect(f"{compiler}: literals are compiled without a warning", (found is not None, said), (True, ""))
    for text, bytes_found in zip(listed, found or []):
        trials.expect(f"the literal of {text!r}", bytes_found, text)


def test_lengths(module, trials):
    """No bytes are longer than their source, and no literal than four times its text and two quotes, as the header
    says.
    """
    longer = [it for it in sources() if len(module.decode_literal(it)) > len(it)]
    trials.expect("sources with more bytes", longer, [])
    every = [*texts(), b"\x01" * 50]
    trials.expect("longer literals", [it for it in every if len(module.encode_literal(it)) > 4 * len(it) + 2], [])
    trials.expect("the longest literal of 50 bytes", len(module.encode_literal(every[-1])), 202)


def test_places(module, trials):
    """Each byte of a source comes from where an element begins: the front before it is the source of fewer bytes."""
    for source in list(sources())[::9]:
        text = module.decode_literal(source)
        for index in range(len(text) + 1):
            place = module.source_offset(source, index)
            front = source[:place] + b'"'
            trials.expect(f"the front of {source!r} before byte {index}", module.decode_literal(front), text[:index])
        trials.expect(f"past {source!r}", module.source_offset(source, len(text) + 1), None)


def test_program(program, module, trials):
    """The program writes the literal of the canonical text of the bytes."""
    for source in list(sources())[::40]:
        try:
            source.decode()
            wanted = (0, module.encode_literal(module.canonical(module.decode_literal(source))) + b"\n", b"")
        except UnicodeDecodeError:
            continue
        except module.Refused as refusal:
            place = module.source_offset(source, refusal.byte)
            wanted = (2, b"", f"refused {int(refusal.kind)} {refusal.name} at byte {place}\n".encode())
        trials.expect(f"canon --literal {source!r}", run(program, ["canon", "--literal", "--", source]), wanted)


def decoded(module, source):
    """The bytes of a source, or the kind and the place of its fault."""
    try:
        return module.decode_literal(source)
    except module.BadLiteral as fault:
        return [int(fault.kind) - 200, fault.byte]


def test_sources(module, trials):
    """Sources, literals and places are as their rows say, and what is encoded is read back."""
    for row in rows_of("sources.jsonl"):
        if "literal" in row:
            literal = module.encode_literal(row["text"].encode())
            trials.expect(f"the literal of {row['text']!r}", literal, row["literal"].encode())
        elif "index" in row:
            place = module.source_offset(row["source"].encode(), row["index"])
            trials.expect(f"byte {row['index']} of {row['source']!r}", place, row["place"])
        else:
            wanted = row["refused"] if "refused" in row else row["text"].encode()
            trials.expect(f"the bytes of {row['source']!r}", decoded(module, row["source"].encode()), wanted)
    # Each byte but zero after another, so that all runs and escapes come next to one another.
    text = bytes(byte for step in [1, 3, 7, 63, 64, 97] for at in range(255) if (byte := (1 + at * step) % 256))
    trials.expect("a literal of all bytes is read back", decoded(module, module.encode_literal(text)), text)


Tests = tests_of(globals())
