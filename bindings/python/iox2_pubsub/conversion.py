# SPDX-License-Identifier: Apache-2.0 OR MIT
"""What is sent of what a program gives to send_copy: an array with the same values, or bytes as they are."""
from __future__ import annotations

from math import isfinite
from typing import Any

from . import _core

FEW = 60  # letters of a value in a text
RAW = (_core.Sample, _core.Loan, bytearray, memoryview)


def is_raw(message: Any) -> bool:
    """Whether it is the bytes of a message, as another message is, and no numbers."""
    return isinstance(message, RAW) and getattr(message, "format", "B") == "B"


def converted(message: Any, kind: Any) -> Any:
    """An array of a dtype. What numpy would change is refused: None to nan, 1.5 to 1, 300 to a byte, 1e300 to infinity, a text that is cut
    off, a time that is rounded; and a struct whose fields have other names."""
    import numpy as np

    if kind.fields:
        return _struct(message, kind)
    given = np.asarray(message)
    if not isinstance(message, (np.ndarray, np.generic)):
        if given.size == 0:
            return given.astype(kind)
        if kind.kind in "mM":
            given = _times(message, given, kind)
    return np.asarray(given, order="C") if given.dtype == kind else _cast(message, given, kind)


def _times(message: Any, given: Any, kind: Any) -> Any:
    """Texts and objects as numpy reads them, in the unit that they have; and numbers in that of the dtype."""
    import numpy as np

    return np.asarray(message, dtype=kind if given.dtype.kind in "iu" else kind.kind + "8")


def _cast(message: Any, given: Any, kind: Any) -> Any:
    """An array of the type, of one of another type with the same values."""
    import numpy as np

    counts = given.dtype.kind in "biu" and kind.kind in "iu"
    try:
        with np.errstate(over="ignore"):
            array = given.astype(kind, order="C", casting="unsafe" if counts else "same_kind")
    except TypeError as error:
        raise TypeError(f"{message!r:.{FEW}} has no values of {kind}: make them of it, as by numpy's astype") from error
    if _differs(array, given):
        raise ValueError(f"{kind} has no room for {message!r:.{FEW}}: make the domain of a wider type")
    return array


def _differs(array: Any, given: Any) -> bool:
    """Whether a value has become another one. A number may be rounded to the next that there is."""
    import numpy as np

    if array.dtype.kind in "fc":
        return bool((np.isinf(array) & np.isfinite(given)).any())
    if array.dtype.kind in "mM":
        return bool(((array != given) & ~np.isnat(given)).any())
    return not np.array_equal(array, given)


def _struct(message: Any, kind: Any) -> Any:
    """Field by field, from an array of such structs, a tuple, or lists of tuples."""
    import numpy as np

    if isinstance(message, (tuple, list)) and (array := _at_once(message, kind)) is not None:
        return array
    given = _with_fields(message, kind)
    if given.dtype == kind:
        return np.asarray(given, order="C")
    array = np.zeros(given.shape, kind)
    for name in kind.names if given.size else ():
        field, values = kind.fields[name][0], given[name]
        column = converted(values.tolist() if values.dtype == object else values, field.base)
        if column.shape != given.shape + field.shape:
            raise ValueError(f"{name} has the shape {field.shape}, not {column.shape[given.ndim:]}: reshape it")
        array[name] = column
    return array


def _at_once(message: Any, kind: Any) -> Any:
    """Structs of Python's numbers, which take a tenth of the time so; None where they have to be looked at field by field."""
    import numpy as np

    try:
        array = np.array(message, dtype=kind)
    except (TypeError, ValueError, OverflowError, Warning):
        return None
    return array if _is_same(array.tolist(), message) else None


def _is_same(made: Any, given: Any) -> bool:
    """Whether numbers are surely those that were given, but for a rounding of floats."""
    if type(made) in (tuple, list):
        return type(given) is type(made) and len(given) == len(made) and all(map(_is_same, made, given))
    if type(made) is float:
        return isfinite(made) and type(given) in (float, int, bool)
    return type(made) in (int, bytes, str) and made == given and type(given) in (type(made), bool)


def _with_fields(message: Any, kind: Any) -> Any:
    """An array with the fields of a dtype, each of any type."""
    import numpy as np

    fields = ", ".join(kind.names)
    if getattr(message, "dtype", None) is None:
        if not _is_of_tuples(message, kind.names):
            raise TypeError(f"a struct of {fields} is given as a tuple, or by an array of its dtype, not as {message!r:.{FEW}}")
        return np.asarray(message, dtype=[(name, object) for name in kind.names])
    given = np.asarray(message)
    if given.dtype.names != kind.names:
        raise TypeError(f"a struct of {fields} isn't made of {given.dtype}: name its fields so, in this order")
    return given


def _is_of_tuples(message: Any, names: tuple[str, ...]) -> bool:
    """Or of structs with these fields. Numpy would make a struct of a single number, too."""
    if isinstance(message, list):
        return all(_is_of_tuples(one, names) for one in message)
    return isinstance(message, tuple) or getattr(getattr(message, "dtype", None), "names", None) == names
