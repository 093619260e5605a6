"""What matches are replaced by: the replacement of each pattern, as a caller may give them."""
from collections.abc import Mapping as AnyMapping, Sequence as AnySequence
from typing import Any, AnyStr, Callable, List, Mapping, Optional, Sequence, Tuple, Union, cast

from ._match import Match
from ._types import fits, of_patterns, wrong

TextPerPattern = Union[Sequence[AnyStr], Mapping[AnyStr, AnyStr], AnyStr]

Replacements = Union[TextPerPattern[AnyStr], Callable[[Match], AnyStr]]


def owned(it: Any) -> bytes:
    """The bytes of what is bytes-like, and a `TypeError` where it isn't."""
    return it if type(it) is bytes else bytes(memoryview(it))


def one_each(patterns: Tuple[Any, ...], of_text: Optional[bool], replacements: TextPerPattern[AnyStr]) -> List[AnyStr]:
    """A replacement for each pattern, of the patterns' type: of a list in the patterns' order, a mapping by pattern, or one for all."""
    is_text = bool(of_text)
    if isinstance(replacements, (str, bytes, bytearray, memoryview)):
        if patterns and not fits(replacements, is_text):
            raise wrong("replacements", replacements, of_patterns(is_text))
        texts: List[Any] = [replacements] * len(patterns)
    elif isinstance(replacements, AnyMapping):
        texts = _by_pattern(patterns, of_text, replacements)
    elif isinstance(replacements, AnySequence):
        texts = list(replacements)
    else:
        raise wrong("replacements", replacements, "a list, a mapping by pattern, one for all patterns or a function")
    if len(texts) != len(patterns):
        raise ValueError(f"there are {len(texts)} replacements for {len(patterns)} patterns")
    for number, text in enumerate(texts):
        if not fits(text, is_text):
            name = f"[{patterns[number]!r}]" if isinstance(replacements, AnyMapping) else f"[{number}]"
            raise wrong(f"replacements{name}", text, of_patterns(is_text))
    return texts if is_text else cast(List[AnyStr], [owned(it) for it in texts])


def _by_pattern(patterns: Tuple[Any, ...], is_text: Optional[bool], replacements: Mapping[Any, Any]) -> List[Any]:
    """The replacement of each pattern, which the mapping must have, or make where it is missed as a `defaultdict` does."""
    keys = list(replacements)
    known = set(patterns)
    for key in keys:
        if patterns and isinstance(key, str) is not is_text:
            raise wrong(f"the key {key!r} of replacements", key, of_patterns(is_text))
        if key not in known:
            raise ValueError(f"there is a replacement for {key!r}, which is not a pattern")
    texts = []
    for pattern in patterns:
        try:
            texts.append(replacements[pattern])
        except KeyError:
            raise ValueError(f"the pattern {pattern!r} has no replacement") from None
    return texts


def joined(pieces: Sequence[Any], empty: Any) -> Any:
    """All of them as one, of the type of what is empty; each second one was given by a caller's function."""
    try:
        return empty.join(pieces)
    except TypeError:
        is_text = isinstance(empty, str)
        for given in pieces[1::2]:
            if not fits(given, is_text):
                raise wrong("what the function replacements returned", given, of_patterns(is_text)) from None
        raise
