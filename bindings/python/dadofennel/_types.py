"""What is said of an argument that has the wrong type: its name, what it is, and what is wanted."""
from typing import Any, Optional


def described(it: Any) -> str:
    return "None" if it is None else f"of type {type(it).__name__}"


def wrong(name: str, it: Any, wanted: str) -> TypeError:
    return TypeError(f"{name} is {described(it)}, and not {wanted}")


def of_patterns(is_text: Optional[bool]) -> str:
    """The type that the patterns have; `None` where there are none."""
    return "str or bytes" if is_text is None else f"{'str' if is_text else 'bytes'} as the patterns are"


def lends_bytes(it: Any) -> bool:
    try:
        memoryview(it)
    except TypeError:
        return False
    return True


def fits(it: Any, is_text: Optional[bool]) -> bool:
    """Whether it is `str`, or lends bytes, as the patterns are."""
    if isinstance(it, str):
        return is_text is not False
    return not is_text and lends_bytes(it)
