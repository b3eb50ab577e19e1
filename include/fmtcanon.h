/* fmtcanon: canonical texts of printf formats, and whether two are interchangeable.
 *
 * A format is `len` bytes at `text`. No byte after them is read, so it needs no NUL at its end, and a
 * NUL inside it is rejected. What a call returns and writes, as its comment says, is proved, but not that
 * memory suffices. When a call allocates, which lengths it may return "at most", and the C code of this
 * header, which is FMTCANON_NATIVE and fmtcanon_fmtcheck(), are tested. docs/C.md explains that, and has
 * examples.
 *
 * The profile and the whole language. fmtcanon_arguments(), fmtcanon_directives(),
 * fmtcanon_specifications(), and the calls whose names begin with fmtcanon_fits or fmtcanon_whole accept
 * the whole language of POSIX `fprintf`: numbered arguments, `*`, floating and wide conversions, `%p` and
 * `%n`; and the `%m` of `syslog`, which takes no argument. The others accept the profile: the conversions
 * `d i u o x X b c s`. In both, widths and precisions are at most 4095.
 *
 * The data model. The meaning of a format depends on it: `%zu` is `%lu` in LP64, `%u` in ILP32 and
 * `%llu` in LLP64. `model` is an enum fmtcanon_model, for the machine on which the format is used,
 * wherever the library runs. Which formats of the profile are accepted is the same in all. In the whole
 * language, a numbered argument can have two types in one data model and one type in another.
 *
 * Results. A negative result is an error. -1 to -22: a format is rejected. -201 to -206: a text is not
 * string literals. For both, `*error` says why, where, and which of two formats it is. For
 * FMTCANON_ERROR_COUNT and FMTCANON_ERROR_TYPE, of fmtcanon_render(), it has a number. The others are
 * FMTCANON_ERROR_NOMEMORY; FMTCANON_ERROR_MODEL, the only result for an invalid `model`; and
 * FMTCANON_ERROR_NOPLACE, of fmtcanon_source_offset(). They leave `*error` as it was.
 *
 * Buffers. `out` is written only if the whole answer fits into its `cap` bytes. Otherwise it is left as
 * it was, and so is every byte after an answer. The result is the same either way, so a call with `cap`
 * 0 asks for the size.
 *
 * Preconditions. `error` may be NULL; then only the result shows a rejection. `comparison` and `bounds`
 * must not be NULL. All three are aligned. `text` and `out` may be NULL if their length is 0; otherwise
 * they must point to at least `len` (`cap`) bytes, fewer than 2^63. So must `args`, to `count` aligned
 * arguments, and `string` in each. `out`, `comparison`, `bounds` and `error` must not overlap anything
 * else that is passed. No other thread may write the texts during the call, nor access what is written.
 *
 * Threads and memory. Calls have no state, keep no pointer, print nothing and never end the process, so
 * any number of threads may make them. A call that allocates says so; it uses `malloc`, `realloc` and
 * `free`, and frees everything before it returns.
 */
#ifndef FMTCANON_H
#define FMTCANON_H

#include <limits.h>
#include <stddef.h>
#include <stdint.h>
#include <string.h>

#ifdef __cplusplus
extern "C" {
#endif

/* The version of this header. fmtcanon_version() returns the version of the library. */
#define FMTCANON_VERSION_MAJOR 1
#define FMTCANON_VERSION_MINOR 1
#define FMTCANON_VERSION_PATCH 0

/* Out of memory, or no memory could hold the answer. */
#define FMTCANON_ERROR_NOMEMORY (-100)

/* `model` is not an enum fmtcanon_model. */
#define FMTCANON_ERROR_MODEL (-101)

/* There is no such byte, or the text is not string literals. */
#define FMTCANON_ERROR_NOPLACE (-102)

/* fmtcanon_render(): the format takes a different number of arguments, which `error->at` is. */
#define FMTCANON_ERROR_COUNT (-103)

/* fmtcanon_render(): the argument with the index `error->at` is the first one that is not of the type that
 * the format takes there. */
#define FMTCANON_ERROR_TYPE (-104)

/* How many bits the integer types have, and which types the length modifiers name. */
enum fmtcanon_model {
    FMTCANON_LP64 = 0, /* `long` has 64 bits; `z`, `t` and `j` mean `l`: 64-bit Unix */
    FMTCANON_ILP32 = 1, /* `long` has 32 bits; `z` and `t` mean no modifier, `j` means `ll` */
    FMTCANON_LLP64 = 2 /* `long` has 32 bits; `z`, `t` and `j` mean `ll`: 64-bit Windows */
};

/* FMTCANON_NATIVE is the data model of the program that includes this header, by the sizes of its types.
 * It is an enum fmtcanon_model, which `#if` can't compare. It isn't defined if the sizes are those of no
 * data model: then only what uses it doesn't compile, and `#ifdef FMTCANON_NATIVE` asks. */
#if INT_MAX == INT32_MAX && INTMAX_MAX == INT64_MAX
#if LONG_MAX == INT64_MAX && SIZE_MAX == UINT64_MAX && PTRDIFF_MAX == INT64_MAX
#define FMTCANON_NATIVE FMTCANON_LP64
#elif LONG_MAX == INT32_MAX && SIZE_MAX == UINT32_MAX && PTRDIFF_MAX == INT32_MAX
#define FMTCANON_NATIVE FMTCANON_ILP32
#elif LONG_MAX == INT32_MAX && SIZE_MAX == UINT64_MAX && PTRDIFF_MAX == INT64_MAX
#define FMTCANON_NATIVE FMTCANON_LLP64
#endif
#endif

/* A set of data models: a bit mask. */
enum fmtcanon_models {
    FMTCANON_IN_NEITHER = 0, /* in no data model */
    FMTCANON_IN_LP64 = 1,
    FMTCANON_IN_ILP32 = 2,
    FMTCANON_IN_BOTH = 3, /* in LP64 and in ILP32 */
    FMTCANON_IN_LLP64 = 4,
    FMTCANON_IN_ALL = 7 /* in all three */
};

/* Why a format is rejected. The result is minus the kind. fmtcanon_kind_name() returns the names that
 * the program prints. The profile never yields 19 to 22, and the whole language never 5 and 9 to 12. Of its
 * calls, only the fmtcanon_whole_*() calls yield 6. */
enum fmtcanon_kind {
    FMTCANON_NUL_BYTE = 1,             /* a NUL, which a C string can't contain */
    FMTCANON_TRUNCATED = 2,            /* the text ends inside a conversion specification */
    FMTCANON_UNEXPECTED = 3,           /* a byte that can't continue, for no other reason */
    FMTCANON_BAD_PERCENT = 4,          /* `%` inside a specification */
    FMTCANON_STAR = 5,                 /* `*` for a width or a precision */
    FMTCANON_NUMBERED = 6,             /* a numbered argument, `%1$d` */
    FMTCANON_WIDTH_TOO_LARGE = 7,      /* a width above 4095, or a number of an argument */
    FMTCANON_PRECISION_TOO_LARGE = 8,  /* a precision above 4095 */
    FMTCANON_FLOAT = 9,                /* a floating conversion, or `L` */
    FMTCANON_POINTER = 10,             /* `%p` */
    FMTCANON_COUNT = 11,               /* `%n` */
    FMTCANON_WIDE = 12,                /* `%C`, `%S`, `%lc`, `%ls` */
    FMTCANON_ALT_UNDEFINED = 13,       /* `#` with a conversion other than `o x X b` or a floating one */
    FMTCANON_ZERO_UNDEFINED = 14,      /* `0` with a conversion that prints no number */
    FMTCANON_GROUP_UNDEFINED = 15,     /* `'` with a conversion other than `d i u`, or `f F g G` */
    FMTCANON_PRECISION_UNDEFINED = 16, /* a precision with `c`, `C`, `lc`, `p` or `n` */
    FMTCANON_LENGTH_UNDEFINED = 17,    /* a length modifier that the conversion doesn't take */
    FMTCANON_TOO_LONG = 18,            /* more than 2^62 bytes */
    FMTCANON_COUNT_UNDEFINED = 19,     /* `%n` with `-`, `+`, a space or a width */
    FMTCANON_MIXED = 20,               /* numbered arguments and others in one format */
    FMTCANON_MISSING_ARGUMENT = 21,    /* a numbered argument isn't used, and a later one is */
    FMTCANON_TWO_TYPES = 22            /* one argument with two types */
};

/* Why a text is not string literals. */
enum fmtcanon_literal_kind {
    FMTCANON_NO_LITERAL = 201,       /* a byte outside of literals, or no literal at all */
    FMTCANON_UNTERMINATED = 202,     /* a line, or the text, ends in a literal */
    FMTCANON_BAD_ESCAPE = 203,       /* a backslash that begins no escape sequence */
    FMTCANON_ESCAPE_TOO_LARGE = 204, /* a number above 255 */
    FMTCANON_ZERO_BYTE = 205,        /* a NUL, as such or by its number: a C string would end */
    FMTCANON_TRIGRAPH = 206          /* `??` and a third byte, which compilers read in two ways */
};

/* The type of an argument after the default promotions. */
enum fmtcanon_type {
    FMTCANON_INT = 1,
    FMTCANON_UINT = 2,
    FMTCANON_LONG = 3,
    FMTCANON_ULONG = 4,
    FMTCANON_LONG_LONG = 5,
    FMTCANON_ULONG_LONG = 6,
    FMTCANON_STRING = 7,
    /* Only in the whole language: */
    FMTCANON_DOUBLE = 8,
    FMTCANON_LONG_DOUBLE = 9,
    FMTCANON_WIDE_CHAR = 10,
    FMTCANON_WIDE_STRING = 11,
    FMTCANON_POINTER_TO_VOID = 12,
    FMTCANON_POINTER_TO_SCHAR = 13,
    FMTCANON_POINTER_TO_SHORT = 14,
    FMTCANON_POINTER_TO_INT = 15,
    FMTCANON_POINTER_TO_LONG = 16,
    FMTCANON_POINTER_TO_LONG_LONG = 17
};

/* In place of the index of an argument that a specification doesn't take. */
#define FMTCANON_NO_ARGUMENT UINT64_MAX

/* A conversion specification of a format. Arguments count from 0. */
typedef struct fmtcanon_directive {
    uint64_t begin;              /* the offset of its `%` */
    uint64_t end;                /* the offset after its conversion */
    uint64_t argument;           /* the argument that it converts */
    uint64_t width_argument;     /* the argument of a `*` width, or FMTCANON_NO_ARGUMENT */
    uint64_t precision_argument; /* the argument of a `*` precision, or FMTCANON_NO_ARGUMENT */
    uint64_t kind;               /* the type of the argument that it converts, an enum fmtcanon_type */
} fmtcanon_directive;

/* A part that a conversion specification can be without. A set of parts is a bit mask. */
enum fmtcanon_part {
    FMTCANON_PART_MINUS = 1,       /* the flag `-` */
    FMTCANON_PART_PLUS = 2,        /* the flag `+` */
    FMTCANON_PART_SPACE = 4,       /* the flag space */
    FMTCANON_PART_ALT = 8,         /* the flag `#` */
    FMTCANON_PART_ZERO = 16,       /* the flag `0` */
    FMTCANON_PART_GROUP = 32,      /* the flag `'` */
    FMTCANON_PART_WIDTH = 64,      /* the width: a number, or `*` with the number of its argument */
    FMTCANON_PART_PRECISION = 128, /* the precision, with its point */
    FMTCANON_PART_MODIFIER = 256   /* the length modifier */
};

/* In place of a number or an offset that a specification doesn't have. */
#define FMTCANON_NONE UINT64_MAX

/* A conversion specification of a format, with its parts. The offsets ascend, and each part is the bytes from
 * its offset up to the next one: none if the specification doesn't have it. Arguments count from 0.
 *
 * A specification without a flag is its bytes without each `-`, say, among its flags. Without another part, it
 * is its bytes without those of the part. Alone, it is a format of its own, without `n$`, and with `*` for
 * `*n$`. */
typedef struct fmtcanon_specification {
    uint64_t begin;              /* the offset of its `%` */
    uint64_t flags_at;           /* of its flags: after `%`, or after the `$` of its argument's number */
    uint64_t width_at;           /* of its width */
    uint64_t precision_at;       /* of the `.` of its precision */
    uint64_t modifier_at;        /* of its length modifier; the conversion is the byte before `end` */
    uint64_t end;                /* the offset after its conversion */
    uint64_t argument;           /* the argument that it converts */
    uint64_t width_argument;     /* the argument of a `*` width, or FMTCANON_NO_ARGUMENT */
    uint64_t precision_argument; /* the argument of a `*` precision, or FMTCANON_NO_ARGUMENT */
    uint64_t width;              /* the width, or FMTCANON_NONE: none, or `*` */
    uint64_t precision;          /* the precision, 0 for `.` alone, or FMTCANON_NONE: none, or `*` */
    uint32_t kind;               /* the type of the argument that it converts, an enum fmtcanon_type */
    uint32_t parts;              /* the parts that it has, a set of enum fmtcanon_part */
    uint32_t needless;           /* those that have no effect, and no others: fmtcanon_whole_same() is 1 for
                                    the specification alone, and it without this one part */
    uint32_t together;           /* those of these without which it is 1 together, too: in the order of enum
                                    fmtcanon_part, each that has no effect together with those before it. Of
                                    `%02.2u`, neither the width nor the precision has an effect, but without
                                    both fewer digits are printed, so of the two only the width is in this set */
} fmtcanon_specification;

/* In place of the largest number of bytes that a format prints, if there is no largest. */
#define FMTCANON_UNBOUNDED UINT64_MAX

/* How many bytes a format prints. A number above UINT64_MAX - 1 is given as UINT64_MAX - 1. */
struct fmtcanon_bounds {
    uint64_t least;    /* the smallest number */
    uint64_t greatest; /* the largest number, or FMTCANON_UNBOUNDED */
};

/* An argument of a format of the profile, for fmtcanon_render(). `{FMTCANON_INT, 5, NULL, 0}` is an int, and
 * `{FMTCANON_STRING, 0, name, strlen(name)}` a string. Any number may be assigned to `number`: C adds 2^64
 * to one below 0, and the type says whether it did. */
typedef struct fmtcanon_argument {
    uint32_t kind;      /* its type, an enum fmtcanon_type from FMTCANON_INT to FMTCANON_STRING */
    uint64_t number;    /* the number; 0 for a string */
    const char *string; /* the bytes of the string; NULL for a number */
    size_t len;         /* how many bytes it has, without a NUL; 0 for a number */
} fmtcanon_argument;

/* How two formats compare. */
enum fmtcanon_verdict {
    FMTCANON_SAME = 1,     /* equal types, and equal bytes for all arguments */
    FMTCANON_TYPES = 2,    /* the types of their arguments differ */
    FMTCANON_DIFFERENT = 3, /* equal types, and arguments that they print differently */
    FMTCANON_DIRECTIVES = 4 /* fmtcanon_whole_compare() only: equal types, and other directives */
};

/* Why and where a format is rejected. */
typedef struct fmtcanon_error {
    uint64_t at;   /* the offset; the length of a text that ends too early */
    uint32_t kind; /* an enum fmtcanon_kind, or an enum fmtcanon_literal_kind; 103 or 104 */
    uint32_t side; /* which format: 0 for the first or only one, 1 for the second */
} fmtcanon_error;

/* What fmtcanon_compare() and fmtcanon_whole_compare() return besides the arguments. */
typedef struct fmtcanon_comparison {
    uint64_t number;     /* TYPES: the first argument whose types differ, counted from 0; the smaller
                            number of arguments if they differ only in that. DIRECTIVES: the first
                            argument at which the directives differ. DIFFERENT: the number of
                            arguments. SAME: 0. */
    uint32_t verdict;    /* an enum fmtcanon_verdict */
    uint32_t renderings; /* DIFFERENT of fmtcanon_compare(): how many values of the one argument that
                            isn't 0 or empty were considered, from 1 to 17; 1 if all are 0 or empty.
                            Otherwise 0. */
} fmtcanon_comparison;

/* Returns 0 if the format is accepted. Allocates nothing. */
int64_t fmtcanon_check(const char *text, size_t len, fmtcanon_error *error);

/* Returns 1 if the format is its own canonical text, 0 otherwise. Allocates nothing. */
int64_t fmtcanon_is_canonical(int model, const char *text, size_t len, fmtcanon_error *error);

/* Returns the length of the canonical text, without a NUL. fmtcanon_canonical() needs room for one byte
 * more. FMTCANON_ERROR_NOMEMORY if the length is 2^63 or more. Allocates nothing. */
int64_t fmtcanon_canonical_length(int model, const char *text, size_t len, fmtcanon_error *error);

/* Returns the length of the canonical text, and writes it into `out` with a NUL after it. It fits if the
 * length is below `cap`. Allocates that length, and only if the format or its canonical text has more
 * than 128 bytes. */
int64_t fmtcanon_canonical(int model, const char *text, size_t len, char *out, size_t cap,
                           fmtcanon_error *error);

/* Returns the number of arguments, and writes the type of each, an enum fmtcanon_type in one byte, into
 * `out`. Allocates only for more than 32, or if the format is rejected after more than eight. */
int64_t fmtcanon_types(int model, const char *text, size_t len, unsigned char *out, size_t cap,
                       fmtcanon_error *error);

/* Returns 0, and writes the smallest and the largest number of bytes that the format prints, over all
 * arguments of its types, into `*bounds`. Some arguments reach each of them. There is no largest if a `%s`
 * has no precision. A buffer for `sprintf` needs one byte more than the largest, for a NUL. If the call
 * fails, `*bounds` is left as it was. Allocates nothing. */
int64_t fmtcanon_bounds(int model, const char *text, size_t len, struct fmtcanon_bounds *bounds,
                        fmtcanon_error *error);

/* Returns the number of bytes that the format prints for the arguments, and writes them into `out` with a
 * NUL after them. They fit if the number is below `cap`. The bytes are those of `snprintf` in the data
 * model `model`, and those that docs/DECISIONS.md chooses where the C standard leaves room. But no
 * argument is read that isn't there: FMTCANON_ERROR_COUNT if there are more or fewer arguments than the
 * format takes, and FMTCANON_ERROR_TYPE if one has a different type, is a number out of the range of
 * its type, or a string with a NUL. FMTCANON_ERROR_NOMEMORY if the number is 2^63 or more. Allocates
 * nothing. */
int64_t fmtcanon_render(int model, const char *text, size_t len, const fmtcanon_argument *args,
                        size_t count, char *out, size_t cap, fmtcanon_error *error);

/* Returns 1 if both formats take arguments of the same types and print the same bytes for all of them, 0
 * otherwise. They have the same canonical text if and only if it is 1. Allocates nothing. */
int64_t fmtcanon_same(int model, const char *first, size_t first_len, const char *second,
                      size_t second_len, fmtcanon_error *error);

/* Returns the set of data models in which fmtcanon_same() is 1, a bit mask of enum fmtcanon_models. Before a
 * rewrite of source that is built everywhere, it must be FMTCANON_IN_ALL. Allocates nothing. */
int64_t fmtcanon_same_models(const char *first, size_t first_len, const char *second,
                             size_t second_len, fmtcanon_error *error);

/* Compares two formats, and writes how they compare into `*comparison`. For FMTCANON_DIFFERENT, it writes
 * arguments for which they print different bytes into `out`, each with a NUL after it: `n:` and a
 * decimal number, or `s:` and the bytes of a string, as `fmtcanon format` accepts them. Returns how many
 * bytes these are, 0 if there are no arguments. If it fails, `*comparison` is left as it was. Allocates
 * only for FMTCANON_DIFFERENT. */
int64_t fmtcanon_compare(int model, const char *first, size_t first_len, const char *second,
                         size_t second_len, char *out, size_t cap,
                         fmtcanon_comparison *comparison, fmtcanon_error *error);

/* Returns the number of arguments of a format of the whole language, and writes the type of each, an enum
 * fmtcanon_type in one byte, into `out`. A `*` takes an int. Allocates one byte per
 * argument, and only for more than 32. */
int64_t fmtcanon_arguments(int model, const char *text, size_t len, unsigned char *out, size_t cap,
                           fmtcanon_error *error);

/* Returns 1 if the second of two formats of the whole language takes arguments of exactly the types of the
 * first, 0 otherwise. For translations. Allocates nothing. */
int64_t fmtcanon_fits(int model, const char *first, size_t first_len, const char *second,
                      size_t second_len, fmtcanon_error *error);

/* Returns the set of data models in which fmtcanon_fits() is 1, a bit mask of enum fmtcanon_models. If a format
 * is rejected in one of them, the result is the error in the first such data model. Allocates nothing. */
int64_t fmtcanon_fits_models(const char *first, size_t first_len, const char *second,
                             size_t second_len, fmtcanon_error *error);

/* Returns 1 if the types of the second of two formats of the whole language are those of the first, or a
 * prefix of them, 0 otherwise. Then the second may be used with the arguments of the first: `printf` ignores
 * arguments that are left over (C11 7.21.6.1p2). But `%m`, which takes none, is undefined in C libraries that
 * don't have it. For untrusted formats. Allocates nothing. */
int64_t fmtcanon_fits_fewer(int model, const char *first, size_t first_len, const char *second,
                            size_t second_len, fmtcanon_error *error);

/* Returns the set of data models in which fmtcanon_fits_fewer() is 1, a bit mask of enum fmtcanon_models. If a
 * format is rejected in one of them, the result is the error in the first such data model. Allocates
 * nothing. */
int64_t fmtcanon_fits_fewer_models(const char *first, size_t first_len, const char *second,
                                   size_t second_len, fmtcanon_error *error);

/* Returns the length of the canonical text of a format of the whole language without numbered arguments:
 * `$` is rejected. Each part before, between and after the directives that fmtcanon_canonical() rejects is
 * replaced by its own canonical text, and each of these directives by its normal spelling: `%-08.6lf` by
 * `%-8f`. If fmtcanon_canonical() accepts the format, both canonical texts are equal.
 * FMTCANON_ERROR_NOMEMORY if the length is 2^63 or more. Allocates nothing. */
int64_t fmtcanon_whole_canonical_length(int model, const char *text, size_t len, fmtcanon_error *error);

/* Returns the length of the canonical text of fmtcanon_whole_canonical_length(), and writes it into `out`
 * with a NUL after it. It fits if the length is below `cap`. Allocates as fmtcanon_canonical() does. */
int64_t fmtcanon_whole_canonical(int model, const char *text, size_t len, char *out, size_t cap,
                                 fmtcanon_error *error);

/* Returns 1 if two formats of the whole language without numbered arguments are interchangeable, 0
 * otherwise. They are if they take arguments of the same types, and for all of them print the same bytes and
 * make the same calls in the same places: a directive that fmtcanon_same() rejects calls the C library with
 * its normal spelling and its arguments, and `%m` without any. They have the same canonical text if and only
 * if it is 1. For formats that fmtcanon_same() accepts, both answers are equal. Directives that differ, as
 * `%1f` and `%f`, may print the same with some C library. Allocates nothing. */
int64_t fmtcanon_whole_same(int model, const char *first, size_t first_len, const char *second,
                            size_t second_len, fmtcanon_error *error);

/* Returns the data models in which fmtcanon_whole_same() is 1, as an enum fmtcanon_models. Which formats are
 * accepted is the same in all of them. Allocates nothing. */
int64_t fmtcanon_whole_same_models(const char *first, size_t first_len, const char *second,
                                   size_t second_len, fmtcanon_error *error);

/* Compares two formats of the whole language without numbered arguments, as fmtcanon_compare() does those
 * that it accepts. FMTCANON_DIRECTIVES: the types are equal, and this is the place at which their calls differ
 * first: the smaller index of the first arguments of two calls. FMTCANON_DIFFERENT: the calls are equal, too; `any` is written for each
 * argument of a call, since the formats differ whatever it is. Allocates only for FMTCANON_DIFFERENT. */
int64_t fmtcanon_whole_compare(int model, const char *first, size_t first_len, const char *second,
                               size_t second_len, char *out, size_t cap,
                               fmtcanon_comparison *comparison, fmtcanon_error *error);

/* Returns the number of conversion specifications of a format of the whole language, without `%%` and `%m`, and
 * writes a record of each, in the order of the text, into `out`, which has room for `cap` records. The type
 * in a record is the one that fmtcanon_arguments() writes at that index. Allocates only for more than 16, in
 * proportion to their number. */
int64_t fmtcanon_directives(int model, const char *text, size_t len, fmtcanon_directive *out,
                            size_t cap, fmtcanon_error *error);

/* Returns the number of conversion specifications of a format of the whole language, and writes a record of
 * each with its parts, as fmtcanon_directives() does without them. Allocates nothing. */
int64_t fmtcanon_specifications(int model, const char *text, size_t len, fmtcanon_specification *out,
                                size_t cap, fmtcanon_error *error);

/* Returns the number of bytes of a source, and writes them into `out` with a NUL after them. A source is
 * one or more string literals of C with white space around them or none, as `"Total:\t%i" "\n"`, with
 * their quotes (C11 6.4.5). They fit if the number is below `cap`; it is at most `len`. Allocates the
 * length of the source. */
int64_t fmtcanon_decode_literal(const char *source, size_t len, char *out, size_t cap,
                                fmtcanon_error *error);

/* Returns the length of the string literal of some bytes, with its quotes, and writes it into `out` with a
 * NUL after it. It fits if the length is below `cap`; it is at most 4 `len` + 2. A NUL is written as
 * `\000`, which fmtcanon_decode_literal() rejects. Allocates that length. */
int64_t fmtcanon_encode_literal(const char *text, size_t len, char *out, size_t cap);

/* Returns the offset in a source where the character or the escape sequence begins that gives the byte of
 * this index. If the index is the number of bytes, it is the offset of the last closing quote. So a format
 * that is rejected at `error.at` is rejected in its source at fmtcanon_source_offset(source, len,
 * error.at). FMTCANON_ERROR_NOPLACE if there is no such byte, or if the text is not a source. Allocates
 * nothing. */
int64_t fmtcanon_source_offset(const char *source, size_t len, uint64_t index);

/* Returns the length of the name of a kind, as `Star`, and writes it into `out` with a NUL after it.
 * Returns 0 if no kind has this number. It is at most 18. Allocates nothing. */
uint64_t fmtcanon_kind_name(uint32_t kind, char *out, size_t cap);

/* Returns the version of the library: 65536 times the major one, 256 times the minor one, plus the
 * patch. */
uint32_t fmtcanon_version(void);

/* Returns `suspect`, a format from outside of the program, if it may be used with the arguments of
 * `fallback`: if it isn't NULL, and fmtcanon_fits_fewer() is 1. Otherwise it returns `fallback`, which must
 * not be NULL. The compiler checks arguments against `fallback`:
 *
 *     printf(fmtcanon_fmtcheck(suspect, "%d of %s\n"), number, name);
 *
 * It is C code: two lengths, a choice of pointers, and the call of fmtcanon_fits_fewer(), which decides
 * and is proved. It is the call `fmtcheck` of BSD for the whole language. Only types are compared. So
 * `suspect` may print more, and `snprintf` should print it into a buffer; and it may read strings up to
 * their NUL where `fallback` has a precision. Allocates nothing. C89 doesn't have it. */
#if defined(FMTCANON_NATIVE) && (defined(__STDC_VERSION__) || defined(__cplusplus))
#ifdef __GNUC__
__attribute__((__format_arg__(2)))
#endif
static inline const char *fmtcanon_fmtcheck(const char *suspect, const char *fallback)
{
    fmtcanon_error error;
    if (suspect
        && fmtcanon_fits_fewer(FMTCANON_NATIVE, fallback, strlen(fallback), suspect, strlen(suspect), &error) == 1)
        return suspect;
    return fallback;
}
#endif

#ifdef __cplusplus
}
#endif
#endif
