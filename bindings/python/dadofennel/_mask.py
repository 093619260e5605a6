"""What masks: a star, as a caller may give it."""
from typing import Any, Union

from ._types import lends_bytes, wrong


def star_of(star: Any, text: bool) -> Union[str, int]:
    """What masks: one character for text, and for bytes the number of one byte."""
    if text:
        if not isinstance(star, str):
            raise wrong("star", star, "one character, as the patterns are str")
        if len(star) != 1:
            raise ValueError(f"star is {star!r}, and not one character")
        return star
    if not isinstance(star, int) and not lends_bytes(star):
        raise wrong("star", star, "one byte, or its number, as the patterns are bytes")
    if isinstance(star, int) and not 0 <= star < 256:
        raise ValueError(f"star is {star}, and not the number of a byte")
    raw = bytes([star]) if isinstance(star, int) else bytes(memoryview(star))
    if len(raw) != 1:
        raise ValueError(f"star is {star!r}, and not one byte")
    return raw[0]
