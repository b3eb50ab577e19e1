"""What a compile command compiles for, by the macros that its compiler defines: the data model, and the standard."""

from typing import Dict, Optional, Sequence, Tuple

from ..models import Model
from .compile_commands import CompileCommand
from .left import Left

# The sizes of int, long, long long, a pointer and size_t in the data models.
SIZES = ("INT", "LONG", "LONG_LONG", "POINTER", "SIZE_T")
MODELS: Dict[Tuple[str, ...], Model] = {
    ("4", "8", "8", "8", "8"): Model.LP64,
    ("4", "4", "8", "4", "4"): Model.ILP32,
    ("4", "4", "8", "8", "8"): Model.LLP64,
}
# The value of __STDC_VERSION__ from which static_assert is a keyword of C.
C23 = 202000


def model_in(macros: Dict[str, str]) -> Optional[Model]:
    """Returns the data model that the sizes say, or None."""
    return MODELS.get(tuple(macros.get(f"__SIZEOF_{it}__", "") for it in SIZES))


def check_model(command: CompileCommand, models: Sequence[Model]) -> None:
    """Raises Left unless the formats were compared in the data model that a file is compiled for."""
    model = model_in(command.macros())
    if model is None:
        raise Left("its compiler has another data model, or doesn't say which")
    if model not in models:
        raise Left(f"it is compiled for {model.name}, which --model leaves out")


def assertions_in(macros: Dict[str, str]) -> Tuple[bytes, ...]:
    """Returns the keywords of static assertions."""
    if "__cplusplus" in macros:
        return (b"static_assert",)
    version = macros.get("__STDC_VERSION__", "").rstrip("L")
    return (b"_Static_assert", b"static_assert") if version.isdigit() and int(version) > C23 else (b"_Static_assert",)
