"""Search for many patterns at once, in `str` and in bytes: a library that is proved to find exactly what its definitions say.

>>> import dadofennel
>>> ac = dadofennel.Automaton(["append", "appendage", "app"], kind="leftmost-longest")
>>> [ac.patterns[found.pattern] for found in ac.finditer("append the app to the appendage")]
['append', 'app', 'appendage']

`Automaton` searches and replaces. A `Stream` of it searches a text that comes in pieces, and a `Masker` masks one.
`dadofennel.ahocorasick` has the names of the package pyahocorasick.
"""
from . import _native
from ._automaton import Automaton
from ._masks import Masker
from ._match import BuildError, Error, Match
from ._stream import Stream

__all__ = ["Automaton", "BuildError", "Error", "Masker", "Match", "Stream", "__version__"]

__version__: str = _native.version()
