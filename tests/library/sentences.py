"""Reads the sentences of fmtcanon-explain: what a directive prints by its sentence alone.

The reader knows phrases of English, and nothing of formats. So where a sentence says too little, or something wrong,
other bytes are expected than a C library prints.
"""

import math
import re

# Integer types, with their bits and whether they are signed.
TYPES = {"signed char": (8, True), "unsigned char": (8, False), "short": (16, True), "unsigned short": (16, False)}
TYPES.update({"int": (32, True), "unsigned int": (32, False), "long": (64, True), "unsigned long": (64, False)})
TYPES.update({"long long": (64, True), "unsigned long long": (64, False)})
BASES = {
    "decimal": "d", "octal": "o", "binary": "b", "hexadecimal with `a` to `f`": "x", "hexadecimal with `A` to `F`": "X"
}

# Phrases about the numbers of arguments.
AS_MANY = re.compile(
    r"as many (?P<what>[a-z ]+?) as argument (?P<at>\d+) says"
    r" \((?P<less>\d+) if it is negative(?:, (?P<none>\d+) if it is 0)?\)"
)
AT_MOST = re.compile(
    r", (?P<most>at most )?as many (?P<what>[a-z ]+?) as argument (?P<at>\d+) says \((?:all|as many as are needed)"
    r" if it is negative\)"
)
FIELD = re.compile(
    r"(?P<how>left-justified in|right-justified in|padded with zeros to) at least as many bytes as argument "
    r"(?P<at>\d+) says"
    r"(?P<spaces> \(infinity and NaN with spaces\))?(?: \(without its sign\)| \(left-justified if it is negative(?:, "
    r"otherwise"
    r" (?P<zeros>padded with zeros) if argument (?P<precision>\d+) is negative)?\)|, or left-justified with spaces if "
    r"it is"
    r" negative)$"
)
ZEROS = re.compile(
    r"right-justified in (at least \d+ bytes) \(padded with zeros if argument (?P<precision>\d+) is negative\)$"
)
# What the phrases of a sentence are, in their order, once they have numbers.
PHRASES = [
    r"(?:the value as an? (?P<converted>[a-z ]+), in )?(?P<base>" + "|".join(BASES) + r")(?! and)",
    r"(?P<point>\d+) digits? after the decimal point|(?P<whole>a whole number, rounded)",
    r"one digit(?:, (?P<places>\d+) digits? after the decimal point,)? and an exponent after `(?P<exponent>[eE])`",
    r"(?P<upto>up to )?(?P<significant>\d+) significant digits?, in the style of `(?P<style>[fF])` or `[eE]`",
    r"(?P<hex>hexadecimal) with `[aA]` to `[fF]` and an exponent after `(?P<power>[pP])`",
    r"(?P<string>the (?:wide )?string)",
    r"(?P<character>the (?:wide character|character with this number))",
    r"(?P<pointer>the pointer, as the C library writes it)(?:, with the flag (?P<flag>`\+`|space))?",
    r"(?P<nothing>nothing): the number of bytes printed so far is stored",
    r"at least (?P<digits>\d+) digits?",
    r"(?P<empty>no digit for 0|for 0 the leading `0` alone)",
    r"(?P<after>\d+|no) digits? after the point",
    r"at most (?P<bytes>\d+) bytes? of it|(?P<none>no bytes of it)",
    r"with a leading `(?P<leading>0)`|with `(?P<prefix>0\w)` before a number other than 0",
    r"(?P<always>always with a decimal point)",
    r"(?P<capitals>`INF` and `NAN` in capitals)",
    r"(?P<sign>always with a sign|with a space where there is no sign)",
    r"(?P<side>right-justified|left-justified) in at least (?P<width>\d+) bytes?",
    r"padded with zeros to at least (?P<zeros>\d+) bytes?(?: \((?P<but>infinity and NaN with spaces)\))?",
]
# What may be said of one that is printed as the first of each of these, besides its field.
MORE = {
    "base": "converted digits empty leading prefix sign",
    "point": "always capitals sign",
    "whole": "always capitals sign",
    "exponent": "places always sign",
    "style": "upto significant always sign",
    "power": "hex after always sign",
    "string": "bytes none",
    "character": "",
    "pointer": "flag",
    "nothing": "",
}
SENTENCE = re.compile("".join(f"(?:(?:^|, )(?:{it}))?" for it in PHRASES) + "$")


class Unread(Exception):
    """A sentence has a phrase that the reader doesn't know."""


def with_numbers(sentence, arguments):
    """A sentence in which numbers replace what it says of them; `arguments` are those of width and precision, by
    number.
    """

    def as_many(found):
        number = arguments[int(found["at"])]
        number = found["less"] if number < 0 else found["none"] or 0 if number == 0 else number
        return f"{number} {found['what'].replace('after', 'digits after', not found['what'].startswith('digits'))}"

    def at_most(found):
        number = arguments[int(found["at"])]
        return "" if number < 0 else f", {found['most'] or ''}{number} {found['what']}"

    def field(found):
        number, how = arguments[int(found["at"])], found["how"]
        if number < 0 and "left-justified" in found[0]:
            how = "left-justified in"
        elif found["zeros"] and arguments[int(found["precision"])] < 0:
            how = f"{found['zeros']} to"
        return f"{how} at least {abs(number)} bytes{found['spaces'] or '' if how.startswith('padded') else ''}"

    def zeros(found):
        is_padded = arguments[int(found["precision"])] < 0
        return f"{'padded with zeros to' if is_padded else 'right-justified in'} {found[1]}"

    for pattern, replace in ((FIELD, field), (ZEROS, zeros), (AT_MOST, at_most), (AS_MANY, as_many)):
        sentence = pattern.sub(replace, sentence)
    return sentence


def read(sentence, arguments):
    """The phrases of a sentence for these arguments of width and precision, by number."""
    found = SENTENCE.match(with_numbers(sentence, arguments))
    known = {name for name, it in found.groupdict().items() if it is not None} if found else set()
    kinds = known & MORE.keys()
    more = known - kinds - {"side", "width", "zeros", "but"}
    if len(kinds) != 1 or not more <= set(MORE[min(kinds)].split()):
        raise Unread(sentence)
    return found


def printed_by(found, type, value):
    """What is printed for a value of a type by the phrases of a sentence; a pointer's is its text, by the phrase on
    flags.
    """
    if found["nothing"]:
        return b""
    if found["pointer"]:
        return in_field(found, "", value[found["flag"]]).encode()
    if found["string"] or found["character"]:
        text = value if found["string"] else chr(value)
        text = "" if found["none"] else text if found["bytes"] is None else text[: int(found["bytes"])]
        return in_field(found, "", text).encode()
    front, text = number_of(found, type, value) if found["base"] else float_of(found, value)
    is_negative = front == "-"
    sign = {"a": "" if is_negative else "+", "w": "" if is_negative else " "}[found["sign"][0]] if found["sign"] else ""
    return in_field(found, front + sign, text).encode()


def number_of(found, type, value):
    """The sign of an integer, if it is negative, and its digits with their prefix."""
    bits, is_signed = TYPES[found["converted"] or type]
    value %= 1 << bits
    if is_signed and value >> bits - 1:
        value -= 1 << bits
    least = 0 if found["empty"] else 1 if found["digits"] is None else int(found["digits"])
    text = format(abs(value), BASES[found["base"]]) if value else ""
    text = text.rjust(least, "0")
    if found["leading"] and text[:1] != "0":
        text = "0" + text
    return "-" if value < 0 else "", (found["prefix"] if found["prefix"] and value else "") + text


def float_of(found, value):
    """The sign of a floating number, if it is negative, and its text without the sign."""
    sign, size = "-" if math.copysign(1, value) < 0 else "", abs(value)
    if not math.isfinite(value):
        text = str(size)
    elif found["hex"]:
        text = hexadecimal(size, found["after"])
    elif found["exponent"]:
        text = format(size, f".{found['places'] or 0}e")
    elif found["significant"]:
        text = format(size, f"{'' if found['upto'] else '#'}.{found['significant']}g")
    else:
        text = format(size, f".{found['point'] or 0}f")
    if math.isfinite(value):
        # Otherwise a point is only there if a digit comes after it.
        front, power = re.fullmatch(r"(.*?)\.?([ep].*|)", text).groups()
        text = front + ("." if found["always"] and "." not in front else "") + power
    is_upper = found["capitals"] or "F" == found["style"] or found["exponent"] == "E" or found["power"] == "P"
    return sign, text.upper() if is_upper else text


def hexadecimal(size, after):
    """A number that has one hexadecimal digit after the point at most, none of them lost."""
    front, _, power = size.hex().partition("p")
    digits = front[2:].partition(".")[2].rstrip("0")
    digits = digits.ljust(0 if after in (None, "no") else int(after), "0")
    return f"{front[:3]}.{digits}p{power}"


def in_field(found, sign, text):
    """A text with its sign in its field."""
    if found["width"]:
        whole, width = sign + text, int(found["width"])
        return whole.ljust(width) if found["side"] == "left-justified" else whole.rjust(width)
    if not found["zeros"]:
        return sign + text
    if found["but"] and text.lower() in ("inf", "nan"):
        return (sign + text).rjust(int(found["zeros"]))
    prefix = re.match(r"0[xXbB]|", text)[0]
    return sign + prefix + text[len(prefix) :].rjust(int(found["zeros"]) - len(sign + prefix), "0")
