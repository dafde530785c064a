"""The shared library and its functions, which are those of include/voxdag.h."""

from __future__ import annotations

import ctypes as c
import ctypes.util
import os
import pathlib
from typing import Any, Optional

from .errors import NotExported

_HERE = pathlib.Path(__file__).resolve().parent


class CHandle(c.Structure):
    """A `voxdag_world`, and a `voxdag_versions`, which has the same fields."""

    _fields_ = [("is_open", c.c_bool), ("at", c.c_void_p)]


class CPlace(c.Structure):
    _fields_ = [("x", c.c_uint32), ("y", c.c_uint32), ("z", c.c_uint32)]


class CBox(c.Structure):
    _fields_ = [("at", CPlace), ("size", CPlace)]


class CPlan(c.Structure):
    _fields_ = [("side", c.c_uint32), ("cap", c.c_uint32), ("keep", c.c_uint32), ("tints", c.c_uint32)]


class CScene(c.Structure):
    _fields_ = [("placements", c.c_uint32), ("kind", c.c_uint32), ("at", c.c_uint32)]


_P = c.POINTER
_BYTES = c.c_void_p
_N = c.c_uint32
# The functions of voxdag.h, behind the handle, which each of them has first.
SIGNATURES: dict[str, list[Any]] = {
    "open_with": [_N, _N, _BYTES, c.c_size_t],
    "close": [],
    "fill": [_P(CBox)],
    "erase": [_P(CBox)],
    "ball": [_P(CPlace), _N],
    "carve": [_P(CPlace), _N],
    "copy": [_P(CBox), _P(CPlace)],
    "stamp": [_N, _P(CPlace)],
    "undo": [],
    "redo": [],
    "forget": [_N],
    "newest": [_P(_N)],
    "model_size": [_N, _P(CPlace)],
    "get": [_N, _P(CPlace), _P(c.c_bool)],
    "count": [_N, _P(CBox), _P(c.c_uint64)],
    "faces": [_N, _P(CBox), _P(c.c_uint64)],
    "bounds": [_N, _P(c.c_bool), _P(CBox)],
    "ray": [_N, _P(CPlace), c.c_int32, c.c_int32, c.c_int32, _P(c.c_bool), _P(CPlace)],
    "same": [_N, _N, _P(c.c_bool)],
    "save": [_N, _P(CBox), _BYTES, c.c_size_t, _P(c.c_size_t)],
    "journal": [_BYTES, c.c_size_t, _P(c.c_size_t)],
    "open_as": [_P(CPlan), _BYTES, c.c_size_t],
    "open_journal": [_P(CPlan), _BYTES, c.c_size_t, _BYTES, c.c_size_t, _P(_N)],
    "open_scene": [_P(CPlan), _BYTES, c.c_size_t, _P(CScene)],
    "about": [_P(CPlan)],
    "fill_tint": [_P(CBox), _N],
    "ball_tint": [_P(CPlace), _N, _N],
    "colour": [_N, _P(CPlace), _P(c.c_uint8)],
    "changes": [_N, _N, _P(c.c_bool), _P(CBox)],
    "surface": [_N, _P(CBox), _BYTES, c.c_size_t, _P(c.c_size_t)],
    "flood": [_N, _P(CBox), _P(CPlace), _P(c.c_uint64), _BYTES, c.c_size_t, _P(c.c_size_t)],
    "dag": [_BYTES, c.c_size_t, _P(c.c_size_t)],
    "versions_open": [_BYTES, c.c_size_t, _P(c.c_uint64)],
    "versions_close": [],
    "versions_side": [_P(_N)],
}
# A file of versions is asked as a world is.
_ASKED = ["newest", "get", "count", "faces", "bounds", "ray", "same", "changes", "surface", "save", "flood"]
SIGNATURES.update({f"versions_{name}": SIGNATURES[name] for name in _ASKED})


class Library:
    """A shared library that was loaded. Its calls are looked up as they are first made."""

    def __init__(self, path: "str | os.PathLike[str]") -> None:
        self.path = os.fspath(path)
        self._shared = c.CDLL(self.path)
        self._calls: dict[str, Any] = {}

    def exports(self, name: str) -> bool:
        """Whether it has the call `voxdag_NAME`."""
        return name in SIGNATURES and hasattr(self._shared, f"voxdag_{name}")

    def call(self, name: str) -> Any:
        """The function of this name: it takes the handle and the header's arguments, and gives a status."""
        if (known := self._calls.get(name)) is not None:
            return known
        try:
            function = getattr(self._shared, f"voxdag_{name}")
        except AttributeError:
            raise NotExported(f"voxdag_{name}") from None
        function.argtypes = [_P(CHandle), *SIGNATURES[name]]
        function.restype = c.c_uint32
        self._calls[name] = function
        return function


_loaded: Optional[Library] = None


def load(path: "str | os.PathLike[str] | None" = None) -> Library:
    """The library at this path; or where VOXDAG_LIB says, beside this package, in the repository's .build/library, or
    where the system keeps libraries. What was found without a path is found once."""
    global _loaded
    if path is not None:
        return Library(path)
    if _loaded is None:
        _loaded = Library(_found())
    return _loaded


def _found() -> str:
    named = os.environ.get("VOXDAG_LIB")
    if named:
        path = pathlib.Path(named)
        return str(path / "libvoxdag.so" if path.is_dir() else path)
    places = [_HERE / "libvoxdag.so", *(above / ".build/library/libvoxdag.so" for above in _HERE.parents[1:4])]
    beside = next((place for place in places if place.is_file()), None)
    name = str(beside) if beside else ctypes.util.find_library("voxdag")
    if not name:
        raise OSError("there is no libvoxdag.so: tools/build-library makes it, and VOXDAG_LIB names it")
    return name
