"""The structures and the calls of fmtcanon.h, as ctypes needs them."""

import ctypes


class CError(ctypes.Structure):
    _fields_ = [("at", ctypes.c_uint64), ("kind", ctypes.c_uint32), ("side", ctypes.c_uint32)]


class CComparison(ctypes.Structure):
    _fields_ = [
        ("number", ctypes.c_uint64),
        ("verdict", ctypes.c_uint32),
        ("renderings", ctypes.c_uint32),
    ]


class CBounds(ctypes.Structure):
    _fields_ = [("least", ctypes.c_uint64), ("greatest", ctypes.c_uint64)]


class CDirective(ctypes.Structure):
    _fields_ = [
        ("begin", ctypes.c_uint64),
        ("end", ctypes.c_uint64),
        ("argument", ctypes.c_uint64),
        ("width_argument", ctypes.c_uint64),
        ("precision_argument", ctypes.c_uint64),
        ("kind", ctypes.c_uint64),
    ]


class CSpecification(ctypes.Structure):
    _fields_ = [
        ("begin", ctypes.c_uint64),
        ("flags_at", ctypes.c_uint64),
        ("width_at", ctypes.c_uint64),
        ("precision_at", ctypes.c_uint64),
        ("modifier_at", ctypes.c_uint64),
        ("end", ctypes.c_uint64),
        ("argument", ctypes.c_uint64),
        ("width_argument", ctypes.c_uint64),
        ("precision_argument", ctypes.c_uint64),
        ("width", ctypes.c_uint64),
        ("precision", ctypes.c_uint64),
        ("kind", ctypes.c_uint32),
        ("parts", ctypes.c_uint32),
        ("needless", ctypes.c_uint32),
        ("together", ctypes.c_uint32),
    ]


class CArgument(ctypes.Structure):
    _fields_ = [
        ("kind", ctypes.c_uint32),
        ("number", ctypes.c_uint64),
        ("string", ctypes.c_char_p),
        ("len", ctypes.c_size_t),
    ]


_MODEL = (ctypes.c_int,)
_TEXT = (ctypes.c_char_p, ctypes.c_size_t)
_ERROR = (ctypes.POINTER(CError),)
# The calls without the `fmtcanon_` of their names: the types of the parameters, and that of the result.
CALLS = {
    "check": ((*_TEXT, *_ERROR), ctypes.c_int64),
    "is_canonical": ((*_MODEL, *_TEXT, *_ERROR), ctypes.c_int64),
    "canonical_length": ((*_MODEL, *_TEXT, *_ERROR), ctypes.c_int64),
    "canonical": ((*_MODEL, *_TEXT, *_TEXT, *_ERROR), ctypes.c_int64),
    "types": ((*_MODEL, *_TEXT, *_TEXT, *_ERROR), ctypes.c_int64),
    "bounds": ((*_MODEL, *_TEXT, ctypes.POINTER(CBounds), *_ERROR), ctypes.c_int64),
    "render": (
        (*_MODEL, *_TEXT, ctypes.POINTER(CArgument), ctypes.c_size_t, *_TEXT, *_ERROR),
        ctypes.c_int64,
    ),
    "same": ((*_MODEL, *_TEXT, *_TEXT, *_ERROR), ctypes.c_int64),
    "same_models": ((*_TEXT, *_TEXT, *_ERROR), ctypes.c_int64),
    "compare": (
        (*_MODEL, *_TEXT, *_TEXT, *_TEXT, ctypes.POINTER(CComparison), *_ERROR),
        ctypes.c_int64,
    ),
    "arguments": ((*_MODEL, *_TEXT, *_TEXT, *_ERROR), ctypes.c_int64),
    "fits": ((*_MODEL, *_TEXT, *_TEXT, *_ERROR), ctypes.c_int64),
    "fits_models": ((*_TEXT, *_TEXT, *_ERROR), ctypes.c_int64),
    "fits_fewer": ((*_MODEL, *_TEXT, *_TEXT, *_ERROR), ctypes.c_int64),
    "fits_fewer_models": ((*_TEXT, *_TEXT, *_ERROR), ctypes.c_int64),
    "whole_canonical_length": ((*_MODEL, *_TEXT, *_ERROR), ctypes.c_int64),
    "whole_canonical": ((*_MODEL, *_TEXT, *_TEXT, *_ERROR), ctypes.c_int64),
    "whole_same": ((*_MODEL, *_TEXT, *_TEXT, *_ERROR), ctypes.c_int64),
    "whole_same_models": ((*_TEXT, *_TEXT, *_ERROR), ctypes.c_int64),
    "whole_compare": (
        (*_MODEL, *_TEXT, *_TEXT, *_TEXT, ctypes.POINTER(CComparison), *_ERROR),
        ctypes.c_int64,
    ),
    "directives": (
        (*_MODEL, *_TEXT, ctypes.POINTER(CDirective), ctypes.c_size_t, *_ERROR),
        ctypes.c_int64,
    ),
    "specifications": (
        (*_MODEL, *_TEXT, ctypes.POINTER(CSpecification), ctypes.c_size_t, *_ERROR),
        ctypes.c_int64,
    ),
    "decode_literal": ((*_TEXT, *_TEXT, *_ERROR), ctypes.c_int64),
    "encode_literal": ((*_TEXT, *_TEXT), ctypes.c_int64),
    "source_offset": ((*_TEXT, ctypes.c_uint64), ctypes.c_int64),
    "kind_name": ((ctypes.c_uint32, *_TEXT), ctypes.c_uint64),
    "version": ((), ctypes.c_uint32),
}
