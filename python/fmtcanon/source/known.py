"""The functions of the C library that take a printf format, and the headers that declare them."""

import re
from dataclasses import dataclass
from typing import Dict, NamedTuple, Optional, Pattern

STDIO = r"stdio\.h|bits/stdio(?:2|2-decl|-ldbl)?\.h"
ERR = r"err\.h|bits/err-ldbl\.h"
ERROR = r"error\.h|bits/error(?:-ldbl)?\.h"
SYSLOG = r"(?:sys/)?syslog\.h|bits/syslog(?:-ldbl)?\.h"


class Shape(NamedTuple):
    """The index of a function's format, and that of the first argument that it converts; None for a `va_list`."""

    format: int
    first: Optional[int]


@dataclass(frozen=True)
class Known:
    """A function: the index of its format, how many parameters it has, whether more arguments follow, and its
    headers.
    """

    index: int
    parameters: int
    is_variadic: bool
    header: Pattern[str]

    @property
    def first(self) -> Optional[int]:
        """The index of the first argument that it converts; None for a `va_list`."""
        return self.parameters if self.is_variadic else None


# The index of the format, and the number of parameters.
PLAIN = [
    (STDIO, "printf", 0, 1),
    (STDIO, "vprintf", 0, 2),
    (STDIO, "fprintf", 1, 2),
    (STDIO, "vfprintf", 1, 3),
    (STDIO, "dprintf", 1, 2),
    (STDIO, "vdprintf", 1, 3),
    (STDIO, "sprintf", 1, 2),
    (STDIO, "vsprintf", 1, 3),
    (STDIO, "snprintf", 2, 3),
    (STDIO, "vsnprintf", 2, 4),
    (STDIO, "asprintf", 1, 2),
    (STDIO, "vasprintf", 1, 3),
    (ERR, "warn", 0, 1),
    (ERR, "warnx", 0, 1),
    (ERR, "vwarn", 0, 2),
    (ERR, "vwarnx", 0, 2),
    (ERR, "err", 1, 2),
    (ERR, "errx", 1, 2),
    (ERR, "verr", 1, 3),
    (ERR, "verrx", 1, 3),
    (ERROR, "error", 2, 3),
    (ERROR, "error_at_line", 4, 5),
    (SYSLOG, "syslog", 1, 2),
    (SYSLOG, "vsyslog", 1, 3),
]
# With _FORTIFY_SOURCE clang's calls go to functions with these names, which have a flag before the format, and those
# that write to a buffer its size as well.
TO_A_BUFFER = {"sprintf", "vsprintf", "snprintf", "vsnprintf"}


def known_functions() -> Dict[str, Known]:
    """Returns the functions by their names."""
    found = {}
    for header, name, index, parameters in PLAIN:
        more = 2 if name in TO_A_BUFFER else 1
        pattern, is_variadic = re.compile(header), not name.startswith("v")
        found[name] = Known(index, parameters, is_variadic, pattern)
        found[f"__{name}_chk"] = Known(index + more, parameters + more, is_variadic, pattern)
    return found


KNOWN = known_functions()
# Those that compilers know by their names, whatever header declares them with their prototypes.
BUILT_IN = ("printf", "fprintf", "sprintf", "snprintf")
BUILT_IN_PREFIX = "__builtin_"
# Functions that return the message for a key: what they are given is a key, and not a format.
GETTEXT = re.compile(r"_|N_|(?:libintl_|rpl_)?d?c?n?p?gettext(?:_expr|_aux)?")
