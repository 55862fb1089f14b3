"""The limits that a call sets on a message: on its size, on the cost of reading it, and on its depth."""
from __future__ import annotations

from dataclasses import dataclass, fields
from operator import index
from typing import Any, Literal

from ._capn import ffi, lib

_TARIFFS = {"strict": lib.CAPN_STRICT, "plain": lib.CAPN_PLAIN}
_RANGES = {
    # c/limits.txt: ranges in python
    "message_words": (1, 1 << 28),
    "budget": (0, 1 << 28),
    "depth": (1, 256),
    # c/limits.txt ends
}


@dataclass(frozen=True)
class Limits:
    # c/limits.txt: fields in python
    """The limits of what a call accepts: the words of a message with a segment table (1 to 2^28), the traversal limit
    in words (0 to 2^28), the nesting limit (1 to 256, the root has depth 1), and the counting rule for costs, "strict"
    or "plain"."""

    message_words: int = 8388608
    budget: int = 8388608
    depth: int = 64
    tariff: Literal["strict", "plain"] = "strict"
    # c/limits.txt ends

    def __post_init__(self) -> None:
        for name, (least, most) in _RANGES.items():
            number = getattr(self, name)
            if isinstance(number, bool):
                raise TypeError(f"{name} is a number, not {number}")
            number = index(number)
            if not least <= number <= most:
                raise ValueError(f"{name} is a number from {least} to {most}, not {number}")
            object.__setattr__(self, name, number)
        if not isinstance(self.tariff, str):
            raise TypeError(f"tariff is a string, not {type(self.tariff).__name__}")
        if self.tariff not in _TARIFFS:
            raise ValueError(f"tariff is 'strict' or 'plain', not {self.tariff!r}")
        numbers = {name: getattr(self, name) for name in _RANGES} | {"tariff": _TARIFFS[self.tariff]}
        object.__setattr__(self, "_laid_out", ffi.new("const capn_limits *", numbers))

    def __reduce__(self) -> tuple[Any, ...]:
        # The structure for the library isn't pickled or copied. The new object makes its own structure.
        return type(self), tuple(getattr(self, one.name) for one in fields(self) if one.init)
