"""The words of `dadofennel.ahocorasick` in a file, with their values.

The file begins with `MAGIC` and the number of its format, and ends with a CRC-32 of all before that, so that a file which was cut short
or changed is refused. Numbers are little-endian. What searches isn't in it: it is built again where the file is loaded.
"""
import io
import os
import struct
import zlib
from typing import Any, BinaryIO, Callable, Iterable, List, Tuple

from ._characters import ENCODING

MAGIC = b"dadofennel words"
VERSION = 1
THEIRS = b"pyahocorasick"
"""What a file of pyahocorasick begins with."""

HEAD = struct.Struct("<16sIBBBQ")
"""The magic, the version, what a value is and whether words are searched for, both as `dadofennel.ahocorasick` numbers them, the type of
words, and how many there are."""

SIZE, SUM = struct.Struct("<Q"), struct.Struct("<I")
TYPES: Tuple[Any, ...] = (None, str, bytes)
STORE_INTS, STORE_ANY = 10, 30

Items = List[Tuple[Any, Any]]


class Writer:
    """A file, and the sum of what was written to it."""

    def __init__(self, file: BinaryIO) -> None:
        self._file, self.sum = file, 0

    def write(self, data: bytes) -> None:
        self.sum = zlib.crc32(data, self.sum)
        self._file.write(data)

    def write_sized(self, data: bytes) -> None:
        self.write(SIZE.pack(len(data)) + data)


def save(path: Any, store: int, kind: int, type_of_words: Any, items: Iterable[Tuple[Any, Any]], serializer: Callable[[Any], bytes]) -> None:
    """Writes words and values. Of a value that is anything `serializer` makes the bytes."""
    held = list(items)
    with open(path, "wb") as file:
        out = Writer(file)
        out.write(HEAD.pack(MAGIC, VERSION, store, kind, TYPES.index(type_of_words), len(held)))
        for word, value in held:
            out.write_sized(word.encode(*ENCODING) if type_of_words is str else word)
            if store == STORE_ANY:
                made = serializer(value)
                if not isinstance(made, bytes):
                    raise TypeError(f"serializer must return bytes object, and not {type(made).__name__}")
                out.write_sized(made)
            elif store == STORE_INTS:
                out.write_sized(value.to_bytes(value.bit_length() // 8 + 1, "little", signed=True))
        out.write(SUM.pack(out.sum))


def load(path: Any, deserializer: Callable[[bytes], Any]) -> Tuple[int, int, Items]:
    """What a value is, whether words are searched for, and the words and values. Raises `ValueError` where it isn't such a file."""
    with open(path, "rb") as file:
        data = file.read()
    name = os.fspath(path)
    if data.startswith(THEIRS):
        raise ValueError(f"{name} is a file of pyahocorasick, which has its nodes and no words: load it there, and add its items here")
    if not data.startswith(MAGIC):
        raise ValueError(f"{name} is no file of dadofennel.ahocorasick")
    if len(data) >= HEAD.size and HEAD.unpack_from(data)[1] != VERSION:
        raise ValueError(f"{name} is of format {HEAD.unpack_from(data)[1]}, and this version of dadofennel reads format {VERSION}")
    if len(data) < HEAD.size + SUM.size or zlib.crc32(data[:-SUM.size]) != SUM.unpack(data[-SUM.size:])[0]:
        raise ValueError(f"{name} was cut short or changed")
    _, _, store, kind, number, count = HEAD.unpack_from(data)
    return store, kind, list(_items(io.BytesIO(data[HEAD.size:-SUM.size]), store, TYPES[number], count, deserializer))


def _items(held: BinaryIO, store: int, type_of_words: Any, count: int, deserializer: Callable[[bytes], Any]) -> Iterable[Tuple[Any, Any]]:
    def sized() -> bytes:
        return held.read(SIZE.unpack(held.read(SIZE.size))[0])

    for _ in range(count):
        raw = sized()
        word = raw.decode(*ENCODING) if type_of_words is str else raw
        if store == STORE_ANY:
            yield word, deserializer(sized())
        elif store == STORE_INTS:
            yield word, int.from_bytes(sized(), "little", signed=True)
        else:
            yield word, len(word)
