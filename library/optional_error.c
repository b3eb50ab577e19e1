/* The calls as the header declares them: `error` may be NULL, and then the reason of a refusal is dropped.
 *
 * The proved calls need a place for it. In the library their names begin with proved_, and only this
 * file sees and calls them.
 */
#include "fmtcanon.h"

/* Declares a proved call, and defines the one that passes a place if the caller passed none. */
#define WITH_OPTIONAL_ERROR(name, parameters, arguments)                                           \
    int64_t proved_##name parameters;                                                              \
    int64_t name parameters                                                                        \
    {                                                                                              \
        fmtcanon_error unread;                                                                     \
        if (error == NULL)                                                                         \
            error = &unread;                                                                       \
        return proved_##name arguments;                                                            \
    }

WITH_OPTIONAL_ERROR(fmtcanon_check, (const char *text, size_t len, fmtcanon_error *error),
                    (text, len, error))

WITH_OPTIONAL_ERROR(fmtcanon_is_canonical,
                    (int model, const char *text, size_t len, fmtcanon_error *error),
                    (model, text, len, error))

WITH_OPTIONAL_ERROR(fmtcanon_canonical_length,
                    (int model, const char *text, size_t len, fmtcanon_error *error),
                    (model, text, len, error))

WITH_OPTIONAL_ERROR(fmtcanon_canonical,
                    (int model, const char *text, size_t len, char *out, size_t cap,
                     fmtcanon_error *error),
                    (model, text, len, out, cap, error))

WITH_OPTIONAL_ERROR(fmtcanon_types,
                    (int model, const char *text, size_t len, unsigned char *out, size_t cap,
                     fmtcanon_error *error),
                    (model, text, len, out, cap, error))

WITH_OPTIONAL_ERROR(fmtcanon_bounds,
                    (int model, const char *text, size_t len, struct fmtcanon_bounds *bounds,
                     fmtcanon_error *error),
                    (model, text, len, bounds, error))

WITH_OPTIONAL_ERROR(fmtcanon_render,
                    (int model, const char *text, size_t len, const fmtcanon_argument *args,
                     size_t count, char *out, size_t cap, fmtcanon_error *error),
                    (model, text, len, args, count, out, cap, error))

WITH_OPTIONAL_ERROR(fmtcanon_same,
                    (int model, const char *first, size_t first_len, const char *second,
                     size_t second_len, fmtcanon_error *error),
                    (model, first, first_len, second, second_len, error))

WITH_OPTIONAL_ERROR(fmtcanon_same_models,
                    (const char *first, size_t first_len, const char *second, size_t second_len,
                     fmtcanon_error *error),
                    (first, first_len, second, second_len, error))

WITH_OPTIONAL_ERROR(fmtcanon_arguments,
                    (int model, const char *text, size_t len, unsigned char *out, size_t cap,
                     fmtcanon_error *error),
                    (model, text, len, out, cap, error))

WITH_OPTIONAL_ERROR(fmtcanon_fits,
                    (int model, const char *first, size_t first_len, const char *second,
                     size_t second_len, fmtcanon_error *error),
                    (model, first, first_len, second, second_len, error))

WITH_OPTIONAL_ERROR(fmtcanon_fits_models,
                    (const char *first, size_t first_len, const char *second, size_t second_len,
                     fmtcanon_error *error),
                    (first, first_len, second, second_len, error))

WITH_OPTIONAL_ERROR(fmtcanon_fits_fewer,
                    (int model, const char *first, size_t first_len, const char *second,
                     size_t second_len, fmtcanon_error *error),
                    (model, first, first_len, second, second_len, error))

WITH_OPTIONAL_ERROR(fmtcanon_fits_fewer_models,
                    (const char *first, size_t first_len, const char *second, size_t second_len,
                     fmtcanon_error *error),
                    (first, first_len, second, second_len, error))

WITH_OPTIONAL_ERROR(fmtcanon_directives,
                    (int model, const char *text, size_t len, fmtcanon_directive *out, size_t cap,
                     fmtcanon_error *error),
                    (model, text, len, out, cap, error))

WITH_OPTIONAL_ERROR(fmtcanon_specifications,
                    (int model, const char *text, size_t len, fmtcanon_specification *out,
                     size_t cap, fmtcanon_error *error),
                    (model, text, len, out, cap, error))

WITH_OPTIONAL_ERROR(fmtcanon_decode_literal,
                    (const char *source, size_t len, char *out, size_t cap, fmtcanon_error *error),
                    (source, len, out, cap, error))

WITH_OPTIONAL_ERROR(fmtcanon_compare,
                    (int model, const char *first, size_t first_len, const char *second,
                     size_t second_len, char *out, size_t cap, fmtcanon_comparison *comparison,
                     fmtcanon_error *error),
                    (model, first, first_len, second, second_len, out, cap, comparison, error))

WITH_OPTIONAL_ERROR(fmtcanon_whole_canonical_length,
                    (int model, const char *text, size_t len, fmtcanon_error *error),
                    (model, text, len, error))

WITH_OPTIONAL_ERROR(fmtcanon_whole_canonical,
                    (int model, const char *text, size_t len, char *out, size_t cap,
                     fmtcanon_error *error),
                    (model, text, len, out, cap, error))

WITH_OPTIONAL_ERROR(fmtcanon_whole_same,
                    (int model, const char *first, size_t first_len, const char *second,
                     size_t second_len, fmtcanon_error *error),
                    (model, first, first_len, second, second_len, error))

WITH_OPTIONAL_ERROR(fmtcanon_whole_same_models,
                    (const char *first, size_t first_len, const char *second, size_t second_len,
                     fmtcanon_error *error),
                    (first, first_len, second, second_len, error))

WITH_OPTIONAL_ERROR(fmtcanon_whole_compare,
                    (int model, const char *first, size_t first_len, const char *second,
                     size_t second_len, char *out, size_t cap, fmtcanon_comparison *comparison,
                     fmtcanon_error *error),
                    (model, first, first_len, second, second_len, out, cap, comparison, error))
