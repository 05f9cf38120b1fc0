# SPDX-License-Identifier: Apache-2.0 OR MIT
"""What a message's values are: bytes, or what numpy has a dtype for."""
from __future__ import annotations

from hashlib import sha256
from typing import Any, Callable, NamedTuple

from .conversion import converted, is_raw


class Values(NamedTuple):
    """Of one value the bytes and the alignment, and how arrays become bytes and bytes arrays."""

    size: int
    alignment: int
    dtype: Any
    shape: tuple[int, ...] | None
    from_buffer: Any
    encode: Callable[[Any], Any] | None


BYTES = Values(1, 1, None, None, None, None)


def values_of(dtype: Any, is_single: bool) -> Values:
    """Reads a dtype, which numpy knows."""
    if dtype is bytes:
        return BYTES
    import numpy as np

    kind = np.dtype(dtype)
    if kind.hasobject:
        raise TypeError(f"{kind} has objects, which are references: a message holds numbers, structs and arrays of them")
    if kind.itemsize == 0:
        raise ValueError(f"{kind} has no bytes: say a length, as in 'S8'")
    base, inner = kind.base, kind.shape
    shape: tuple[int, ...] | None = inner if is_single else (-1, *inner)
    if not is_single and not inner:
        shape = None  # as numpy.frombuffer makes it

    def encode(message: Any) -> Any:
        if is_raw(message):
            return message
        array = converted(message, base)
        if array.shape != inner if is_single else array.shape[1:] != inner or array.ndim == 0:
            wanted = str(inner) if is_single else f"(n, {', '.join(map(str, inner))})"
            raise ValueError(f"a message of this domain has the shape {wanted}, not {array.shape}: reshape the array")
        return array

    return Values(kind.itemsize, kind.alignment, base, shape, np.frombuffer, encode)


# How Rust and C++ name numbers, by the kinds of numpy.
LETTERS = {"i": "i", "u": "u", "f": "f", "c": "c"}
MOST_BYTES_OF_NAME = 127  # of a type, between processes


def _nested(name: str, shape: tuple[int, ...]) -> str:
    for length in reversed(shape):
        name = f"[{name}; {length}]"
    return name


def _fields_of(kind: Any) -> str:
    """Each field, and where it lies unless that is behind the one before."""
    fields, end = [], 0
    for name in kind.names:
        field, at = kind.fields[name][:2]
        fields.append(f"{name}: {_name_of(field)}" + (f" @ {at}" if at != end else ""))
        end = at + field.itemsize
    return f"{{{', '.join(fields)}}}"


def _name_of(kind: Any) -> str:
    if kind.shape:
        return _nested(_name_of(kind.base), kind.shape)
    if kind.fields:
        return _fields_of(kind)
    if not kind.isnative:
        return f"{'big' if kind.byteorder == '>' else 'little'}-endian {_name_of(kind.newbyteorder('='))}"
    if kind.kind in LETTERS:
        return f"{LETTERS[kind.kind]}{kind.itemsize * 8}"
    if kind.kind in "bmM":
        return str(kind.name)  # with its unit, as in "datetime64[ms]"
    return f"[char; {kind.itemsize // 4}]" if kind.kind == "U" else f"[u8; {kind.itemsize}]"


def _shortened(name: str) -> str:
    """A long name by its beginning and the sum of all of it."""
    encoded = name.encode()
    if len(encoded) <= MOST_BYTES_OF_NAME:
        return name
    digest = sha256(encoded).hexdigest()
    return f"{encoded[: MOST_BYTES_OF_NAME - len(digest) - 1].decode(errors='ignore')} {digest}"


def type_name_of(dtype: Any, is_single: bool) -> str:
    """By which name processes compare a type: as Rust and C++ name numbers and arrays, "u64" and "[u64; 3]"; "[u64]" where a message has
    many values. That of a struct has its fields, and a long one is shortened: `type_name` says the one that a program in Rust or C++ has.

    >>> import numpy as np
    >>> type_name_of("f8", True), type_name_of(("u8", (2, 3)), False), type_name_of(bytes, False)
    ('f64', '[[[u64; 3]; 2]]', '[u8]')
    >>> type_name_of(np.dtype([("id", "u1"), ("at", "f8")], align=True), True)
    '{id: u8, at: f64 @ 8}'
    """
    if dtype is bytes:
        name = "u8"
    else:
        import numpy as np

        name = _name_of(np.dtype(dtype))
    return _shortened(name if is_single else f"[{name}]")
