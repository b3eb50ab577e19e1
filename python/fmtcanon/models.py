"""Data models, and how a call names one."""

from __future__ import annotations

import enum
from typing import Union


class Model(enum.IntEnum):
    """A data model: how many bits the integer types have, and which types the length modifiers name.

    In LP64, `long` has 64 bits, and `z`, `t` and `j` mean `l`. In ILP32, `long` has 32 bits, `%zu` means
    `%u`, `%td` means `%d`, and `j` means `ll`. In LLP64, the model of 64-bit Windows, `long` has 32 bits,
    and `z`, `t` and `j` mean `ll`.
    """

    LP64 = 0
    ILP32 = 1
    LLP64 = 2


# A data model, or its name in upper or lower case.
DataModel = Union[Model, str]


def model_of(model: DataModel) -> Model:
    """Returns the data model that an argument names. Raises `ValueError` if it names none."""
    if not isinstance(model, str):
        return Model(model)
    for one in Model:
        if one.name == model.upper():
            return one
    raise ValueError(f"{model!r} is not a data model: use lp64, ilp32 or llp64")
