"""The platforms that a unit is judged for: a data model, a target of clang, and what the C library's names mean there.

The GNU C library defines its types by `typedef WORDS NAME;`, so preprocessed text can be changed to another platform's
by these names.
"""

import re
from typing import Dict, Mapping, NamedTuple, Tuple

from ..models import Model
from ..source.macros import expansion


class Platform(NamedTuple):
    """A platform. `types` are the types of typedefs by their names, `modifiers` the length modifiers of PRI macros by
    the ends of their names, and `constants` the values of macros of the C library and the compiler. `members` are the
    types of members by their struct, and `wider` the types that its headers use instead of typedefs.
    """

    name: str
    model: Model
    target: str
    types: Dict[str, str]
    modifiers: Dict[str, str]
    constants: Dict[str, str]
    members: Mapping[str, Mapping[str, str]]
    wider: Mapping[str, str]


# Headers of POSIX and Linux that the C library of 64-bit Windows lacks, and what a source says that is for Windows,
# too.
NOT_OF_WINDOWS = re.compile(
    r".*/(?:(?:linux|asm|scsi|net|netinet|arpa|rpc)/.*|(?:aio|argp|byteswap|dlfcn|elf|endian|err|error|execinfo"
    r"|fnmatch|fts|ftw|glob|grp|ifaddrs|langinfo|link|mntent|mqueue|netdb|poll|pty|pwd|regex|resolv|shadow|spawn"
    r"|sysexits|syslog|termios?|ucontext|utmpx?|wordexp"
    r"|sys/(?:epoll|inotify|ioctl|ipc|mman|mount|msg|poll|prctl|ptrace|reboot|resource|select|sem|shm"
    r"|socket|statfs|statvfs|syscall|sysinfo|sysmacros|times|uio|un|utsname|vfs|wait|xattr))\.h)"
)
FOR_WINDOWS = re.compile(rb"_?WIN(?:32|64)\b|__MINGW|_MSC_VER|__CYGWIN__|windows\.h")


class Choice(NamedTuple):
    """The signed types that a platform has for `size_t`, for 64 bits, for times and files, and for fast integers; and
    how many bits `long` has.
    """

    size: str
    int64: str
    wide: str
    fast16: str
    fast32: str
    long: int


# The length modifier of each type, and the suffix of its constants; and its bits, if these are the same everywhere.
MODIFIERS = {"short": "", "int": "", "long": "l", "long long": "ll"}
BITS = {"short": 16, "int": 32, "long long": 64}
# Typedefs by what a platform chooses their type by.
SIGNED = {
    "size": "ssize_t __ssize_t ptrdiff_t intptr_t __intptr_t __fsword_t __kernel_ssize_t __kernel_ptrdiff_t __jmp_buf",
    "int64": "int64_t __int64_t int_least64_t __int_least64_t int_fast64_t intmax_t __intmax_t __quad_t __off64_t "
    "off64_t __loff_t loff_t __blkcnt64_t blkcnt64_t __suseconds64_t",
    "fast16": "int_fast16_t",
    "fast32": "int_fast32_t",
    "wide": "time_t __time_t off_t __off_t blkcnt_t __blkcnt_t",
    "int": "__int32_t int32_t int_least32_t",
}
UNSIGNED = {
    "size": "size_t uintptr_t __size_t __kernel_size_t",
    "int64": "uint64_t __uint64_t uint_least64_t __uint_least64_t uint_fast64_t uintmax_t __uintmax_t __u_quad_t "
    "__ino64_t __dev_t dev_t __rlim64_t __fsblkcnt64_t fsblkcnt64_t __fsfilcnt64_t fsfilcnt64_t",
    "fast16": "uint_fast16_t",
    "fast32": "uint_fast32_t",
    "wide": "ino_t __ino_t rlim_t __rlim_t fsblkcnt_t __fsblkcnt_t fsfilcnt_t __fsfilcnt_t",
    "int": "__uint32_t uint32_t uint_least32_t",
}
# Typedefs with types of their own in LP64, ILP32 and LLP64.
OTHERS = {
    "wchar_t": ("int", "long", "unsigned short"),
    "wint_t": ("unsigned int", "unsigned int", "unsigned short"),
    "wctype_t": ("unsigned long", "unsigned long", "unsigned short"),
    "wctrans_t": ("const int *", "const int *", "unsigned short"),
    "suseconds_t __suseconds_t": ("long", "long", "long"),
    "nlink_t __nlink_t": ("unsigned long", "unsigned int", "unsigned int"),
    "greg_t": ("long long", "int", "long long"),
    "elf_greg_t": ("unsigned long long", "unsigned long", "unsigned long long"),
    "__kernel_old_dev_t": ("unsigned long", "unsigned short", "unsigned short"),
    "__kernel_mode_t __kernel_uid_t __kernel_gid_t __pr_uid_t __pr_gid_t": (
        "unsigned int",
        "unsigned short",
        "unsigned int",
    ),
}
# What headers use instead of these if files have 64 bits, and if times have; and what their typedefs are then.
OF_FILES = {
    **dict.fromkeys("__off_t __blkcnt_t".split(), "long long"),
    **dict.fromkeys("__ino_t __rlim_t __fsblkcnt_t __fsfilcnt_t".split(), "unsigned long long"),
}
OF_TIMES = dict.fromkeys("__time_t __suseconds_t".split(), "long long")
FILE_TYPES = {**{name[2:]: type for name, type in OF_FILES.items()}, "fpos_t": "__fpos64_t"}
TIME_TYPES = {**FILE_TYPES, "time_t": "long long"}
# The ends of the names of PRI macros.
ENDS = [*(how + size for how in ("", "LEAST", "FAST") for size in ("8", "16", "32", "64")), "MAX", "PTR"]
# The beginnings of the names of constants, by the same choice; and those whose unsigned counterpart has another name.
CONSTANTS = {
    "int64": "INT64 INT_LEAST64 INT_FAST64 INTMAX",
    "size": "INTPTR PTRDIFF SSIZE",
    "fast16": "INT_FAST16",
    "fast32": "INT_FAST32",
    "long": "LONG",
}
UNSIGNED_NAMES = {"PTRDIFF": "SIZE", "SSIZE": ""}
# Constants of other kinds, in LP64, ILP32 and LLP64.
OTHER_CONSTANTS = {
    "__WCHAR_MAX__": ("2147483647", "2147483647L", "65535"),
    "WCHAR_MAX": ("2147483647", "2147483647L", "65535U"),
    "WCHAR_MIN": ("-2147483647 - 1", "-2147483647L - 1", "0U"),
    "WEOF": ("4294967295U", "4294967295U", "65535"),
    "CLOCKS_PER_SEC": ("1000000L", "1000000L", "1000"),
}
# Members of structs of 32-bit x86 whose types follow from no typedef.
OF_X86: Dict[str, Dict[str, str]] = {
    "stat64": {"st_size": "long long"},
    "r_debug": dict.fromkeys(("r_brk", "r_ldbase"), "unsigned int"),
    "link_map": {"l_addr": "unsigned int"},
    "dl_phdr_info": {"dlpi_addr": "unsigned int"},
    "__pthread_rwlock_arch_t": dict.fromkeys(("__pad2", "__flags"), "unsigned char"),
    "imaxdiv_t": {"quot": "long long", "rem": "long long"},
    "ucontext_t": {"__ssp": "unsigned long"},
    "sigcontext": dict.fromkeys("eflags err trapno oldmask cr2".split(), "unsigned long"),
    "user_regs_struct": {"eflags": "long"},
    "user_fpregs_struct": dict.fromkeys("cwd swd st_space".split(), "long"),
    "user": {
        **dict.fromkeys("u_tsize u_dsize u_ssize start_code start_stack magic".split(), "unsigned long"),
        "signal": "long",
        "u_debugreg": "int",
    },
}
# With a 64-bit time_t some are wider, and some aren't, though others with the same typedef are.
TIMEX = (
    "offset freq maxerror esterror constant precision tolerance tick ppsfreq jitter stabil jitcnt calcnt errcnt stbcnt"
)
WITH_TIMES = {
    "timex": dict.fromkeys(TIMEX.split(), "long long"),
    "_IO_FILE": {"_old_offset": "long"},
    "_G_fpos_t": {"__pos": "long"},
}
OF_WINDOWS = {
    "timeval": {"tv_sec": "long", "tv_usec": "long"},
    "dirent": {"d_ino": "long"},
    "imaxdiv_t": {"quot": "long long", "rem": "long long"},
}


def signed_of(choice: Choice) -> Dict[str, str]:
    """Returns the signed types by what they are chosen by."""
    return {**{key: type for key, type in choice._asdict().items() if key != "long"}, "int": "int", "long": "long"}


def types_of(choice: Choice) -> Dict[str, str]:
    chosen = signed_of(choice)
    found = {name: chosen[key] for key, names in SIGNED.items() for name in names.split()}
    found.update({name: f"unsigned {chosen[key]}" for key, names in UNSIGNED.items() for name in names.split()})
    return found


def modifiers_of(model: Model) -> Dict[str, str]:
    """Returns the length modifiers of PRI macros by the ends of their names."""
    return {end: (expansion(f"PRId{end}".encode(), model) or b"d")[:-1].decode() for end in ENDS}


def constants_of(choice: Choice) -> Dict[str, str]:
    """Returns the values of constants, each of its type, and the suffix of `INT64_C` and its kind."""
    found, chosen = {}, signed_of(choice)
    for key, names in CONSTANTS.items():
        type = chosen[key]
        bits, suffix = BITS.get(type, choice.long), MODIFIERS[type].upper()
        for name in names.split():
            largest = f"{2 ** (bits - 1) - 1}{suffix}"
            found.update({f"{name}_MAX": largest, f"{name}_MIN": f"-{largest} - 1"})
            unsigned = UNSIGNED_NAMES.get(name, f"U{name}")
            if unsigned:
                found[f"{unsigned}_MAX"] = f"{2 ** bits - 1}{'' if type == 'short' else 'U'}{suffix}"
    suffix = MODIFIERS[choice.int64].upper()
    return {**found, "INT64_C": suffix, "INTMAX_C": suffix, "UINT64_C": f"U{suffix}", "UINTMAX_C": f"U{suffix}"}


def platform(
    name: str, model: Model, target: str, choice: Choice, members: Mapping[str, Mapping[str, str]]
) -> Platform:
    column = (Model.LP64, Model.ILP32, Model.LLP64).index(model)
    types = {name: types[column] for names, types in OTHERS.items() for name in names.split()}
    constants = {name: values[column] for name, values in OTHER_CONSTANTS.items()}
    types, constants = {**types_of(choice), **types}, {**constants_of(choice), **constants}
    return Platform(name, model, target, types, modifiers_of(model), constants, members, {})


# clang's own target for 32-bit Linux has another `wchar_t` than gcc; this one has all types as gcc has them there.
LINUX, LINUX32, WINDOWS = "x86_64-linux-gnu", "i686-pc-solaris2.11", "x86_64-w64-windows-gnu"
LP64 = platform("LP64", Model.LP64, LINUX, Choice("long", "long", "long", "long", "long", 64), {})
ILP32 = platform("ILP32", Model.ILP32, LINUX32, Choice("int", "long long", "long", "int", "int", 32), OF_X86)
LLP64 = platform(
    "LLP64", Model.LLP64, WINDOWS, Choice("long long", "long long", "long long", "short", "int", 32), OF_WINDOWS
)
WIDE_TIME = ILP32._replace(
    name="ILP32 with 64-bit time_t",
    types={**ILP32.types, **TIME_TYPES},
    members={**OF_X86, **WITH_TIMES},
    wider={**OF_FILES, **OF_TIMES},
)
PLATFORMS: Tuple[Platform, ...] = (LP64, ILP32, WIDE_TIME, LLP64)
COMPILED = LP64
