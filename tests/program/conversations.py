"""Each command that replies to records, with what is sent in turn and the reply to it, worked out by hand.

What is sent is a record, or two for `same` and `fits`, each terminated by NUL, and so is the reply. The status of a run
over all of them comes last, and is the highest of theirs.
"""

NO_ESCAPE = b"2 literal 3 BadEscape at byte 1\0"
UNEXPECTED = b"2 refused 3 Unexpected at byte 1\0"
CANON = [(b"%5c\0", b"0     %c\0"), (b"%*d\0", b"2 refused 5 Star at byte 1\0"), (b"%i\0", b"0 %d\0")]
CONVERSATIONS = [
    (["canon", "-z"], CANON, 2),
    (["canon", "-z", "--model", "llp64"], [(b"%zi\0", b"0 %lld\0"), (b"%y\0", UNEXPECTED), (b"\0", b"0 \0")], 2),
    (
        ["canon", "-z", "--literal"],
        [
            (b'"\\x25" "i\\t"\0', b'0 "%d\\t"\0'),
            (b'"\\q"\0', NO_ESCAPE),
            (b'"a" "%y"\0', b"2 refused 3 Unexpected at byte 6\0"),
        ],
        2,
    ),
    (["types", "-z"], [(b"%d%s\0", b"0 int\nstring\0"), (b"%y\0", UNEXPECTED), (b"\0", b"0 \0")], 2),
    (
        ["types", "-z", "--literal"],
        [(b'"%d" "%s"\0', b"0 int\nstring\0"), (b'"\\q"\0', NO_ESCAPE), (b'""\0', b"0 \0")],
        2,
    ),
    (
        ["types", "-z", "--whole"],
        [
            (b"%2$s of %1$*3$.2f\0", b"0 double\nstring\nint\0"),
            (b"%5n\0", b"2 refused 19 CountUndefined at byte 2\0"),
            (b"%d%d%*.*f\0", b"0 int\nint\nint\nint\ndouble\0"),
            (b"%d%d%2$d\0", b"2 refused 20 Mixed at byte 6\0"),
        ],
        2,
    ),
    (
        ["types", "-z", "--whole", "--literal"],
        [(b'"%Lf" "%ls"\0', b"0 long double\nwide string\0"), (b'"\\q"\0', NO_ESCAPE)],
        2,
    ),
    (
        ["canon", "-z", "--whole"],
        [
            (b"%i: %-08.6lf\0", b"0 %d: %-8f\0"),
            (b"%1$d\0", b"2 refused 6 Numbered at byte 2\0"),
            (b"%5c\0", b"0     %c\0"),
        ],
        2,
    ),
    (["canon", "-z", "--whole", "--literal"], [(b'"\\x25" "i%.6f"\0', b'0 "%d%f"\0'), (b'"\\q"\0', NO_ESCAPE)], 2),
    (
        ["same", "-z", "--whole"],
        [
            (b"%.6f%i\0%f%d\0", b"0 same\0"),
            (b"%f%05d%p\0%f%.5d%p\0", b"1 different\nany\nn:-1\nany\0"),
            (b"%d%f\0%d%e\0", b"1 directives differ at argument 1\0"),
            (b"%f\0%d\0", b"1 types differ at argument 0\0"),
            (b"%y\0%f\0", b"2 first: refused 3 Unexpected at byte 1\0"),
            (b"%f\0%1$d\0", b"2 second: refused 6 Numbered at byte 2\0"),
        ],
        2,
    ),
    (
        ["same", "-z", "--whole", "--literal"],
        [(b'"%f"\0"\\x25" "lf"\0', b"0 same\0"), (b'"%f"\0"\\q"\0', b"2 second: literal 3 BadEscape at byte 1\0")],
        2,
    ),
    (["show", "-z"], [(b"x%i%%\0", b"0 text 1\ndirective %i: int: 0 0 %d 0\npercent\0"), (b"%y\0", UNEXPECTED)], 2),
    (["show", "-z", "--literal"], [(b'"x" "%%"\0', b"0 text 1\npercent\0"), (b'"\\q"\0', NO_ESCAPE)], 2),
    (
        ["same", "-z"],
        [
            (b"%05d\0%.5d\0", b"1 different\nn:-1\0"),
            (b"%i\0%d\0", b"0 same\0"),
            (b"%d\0%s\0", b"1 types differ at argument 0\0"),
            (b"%d\0%y\0", b"2 second: refused 3 Unexpected at byte 1\0"),
            (b"%y\0%d\0", b"2 first: refused 3 Unexpected at byte 1\0"),
        ],
        2,
    ),
    (
        ["same", "-z", "--model", "all"],
        [
            (b"%zu\0%lu\0", b"1 lp64\nsame\nilp32\ntypes differ at argument 0\nllp64\ntypes differ at argument 0\0"),
            (b"%i\0%d\0", b"0 lp64\nsame\nilp32\nsame\nllp64\nsame\0"),
            (b"%d\0%05d\0", b"1 lp64\ndifferent\nn:0\nilp32\ndifferent\nn:0\nllp64\ndifferent\nn:0\0"),
        ],
        1,
    ),
    (
        ["same", "-z", "--literal"],
        [(b'"%d"\0"\\x25" "i"\0', b"0 same\0"), (b'"%d"\0"\\q"\0', b"2 second: literal 3 BadEscape at byte 1\0")],
        2,
    ),
    (
        ["fits", "-z"],
        [
            (b"%s of %d\0%2$d/%1$s\0", b"0 fits\0"),
            (b"%d\0%s\0", b"1 types differ at argument 0\0"),
            (b"%5n\0%d\0", b"2 first: refused 19 CountUndefined at byte 2\0"),
            (b"%d\0%y\0", b"2 second: refused 3 Unexpected at byte 1\0"),
        ],
        2,
    ),
    (
        ["fits", "-z", "--fewer"],
        [
            (b"%d files in %s\0one file\0", b"0 fits\0"),
            (b"%d\0%d%s\0", b"1 types differ at argument 1\0"),
            (b"%y\0%d\0", b"2 first: refused 3 Unexpected at byte 1\0"),
        ],
        2,
    ),
    (
        ["bounds", "-z"],
        [(b"%d|%.3s\0", b"0 2 15\0"), (b"id=%s\0", b"0 3 unbounded\0"), (b"%y\0", UNEXPECTED)],
        2,
    ),
    (["bounds", "-z", "--literal"], [(b'"\\x25" "d"\0', b"0 1 11\0"), (b'"\\q"\0', NO_ESCAPE)], 2),
    (
        ["fits", "-z", "--literal"],
        [(b'"%d"\0"\\x25" "i"\0', b"0 fits\0"), (b'"\\q"\0"%d"\0', b"2 first: literal 3 BadEscape at byte 1\0")],
        2,
    ),
]


def sent_of(turns):
    """All that is sent."""
    return b"".join(sent for sent, _ in turns)


def fronts_of(turns):
    """The replies to the first of them, for each number of turns from none."""
    return [b"".join(reply for _, reply in turns[:count]) for count in range(len(turns) + 1)]


def name_of(words):
    return " ".join(words)
