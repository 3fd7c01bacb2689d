"""The calls of icu_locale.h, and where the library is looked for."""
import ctypes
import os
from functools import lru_cache
from pathlib import Path
from typing import Any, Callable, Optional, Tuple

HERE = Path(__file__).resolve().parent
TOP = HERE.parents[2]

SIZE = ctypes.c_size_t
REFUSED = 1


class Handle(ctypes.Structure):
    """A handle of C: null is closed."""

    _fields_ = [("at", ctypes.c_void_p)]


_HANDLE = ctypes.POINTER(Handle)
_TEXT = (ctypes.c_char_p, SIZE)


class Calls:
    """Calls that read tables or lists let other threads run meanwhile. The others are too short for that."""

    def __init__(self, path: str) -> None:
        long, short, size_at = ctypes.CDLL(path), ctypes.PyDLL(path), ctypes.POINTER(SIZE)
        self.open = _call(long.icu_locale_open, *_TEXT, _HANDLE)
        self.supplement = _call(long.icu_locale_supplement, _HANDLE, *_TEXT)
        self.share = _call(short.icu_locale_share, _HANDLE, _HANDLE)
        self.answer = _call(short.icu_locale_answer, _HANDLE, *_TEXT, *_TEXT, ctypes.c_void_p, SIZE, size_at)
        self.missing = _call(short.icu_locale_missing, _HANDLE, *_TEXT, ctypes.c_void_p, SIZE, size_at)
        self.is_settled = _call(long.icu_locale_is_settled, _HANDLE)
        self.available = _call(long.icu_locale_available_in, _HANDLE, *_TEXT, *_TEXT, _HANDLE)
        self.negotiate = _call(short.icu_locale_negotiate_in, _HANDLE, *_TEXT, *_TEXT, size_at, size_at)
        self.list_fault = _call(short.icu_locale_list_fault, *_TEXT, *_TEXT, size_at)
        self.fault = _call(short.icu_locale_fault, *_TEXT, size_at, size_at)
        self.data_name = _call(short.icu_locale_data_name, _HANDLE, ctypes.c_void_p, SIZE, size_at)
        self.lend_names = _call(long.icu_locale_lend_names, _HANDLE, ctypes.c_void_p, SIZE)
        self.flat_names = _call(long.icu_locale_flat_names, _HANDLE, ctypes.c_void_p, SIZE, size_at)
        self.close = _call(short.icu_locale_close, _HANDLE)
        short.icu_locale_close.restype = None


def _call(call: Any, *types: Any) -> Callable[..., int]:
    call.argtypes, call.restype = types, ctypes.c_int32
    typed: Callable[..., int] = call
    return typed


def _library() -> str:
    built = [HERE / "libicu_locale.so.0", TOP / "out" / "c" / "libicu_locale.so.0"]
    found = [str(path) for path in built if path.exists()]
    return os.environ.get("ICU_LOCALE_LIBRARY") or [*found, "libicu_locale.so.0"][0]


@lru_cache(maxsize=None)
def calls() -> Calls:
    """The calls of the library, which is loaded where they are first wanted."""
    path = _library()
    try:
        return Calls(path)
    except (OSError, AttributeError) as fault:
        raise OSError(f"the library {path} cannot be loaded; the variable ICU_LOCALE_LIBRARY may name another one, "
                      f"which `make c` makes: {fault}") from fault


def fault_of(text: bytes) -> Optional[Tuple[int, int]]:
    """Where a text is wrong that is no locale identifier; None where it is one."""
    start, end = SIZE(), SIZE()
    return (start.value, end.value) if calls().fault(text, len(text), start, end) == REFUSED else None


def version() -> str:
    """The version of this package, which is in the file VERSION."""
    path = HERE / "VERSION"
    return (path if path.exists() else TOP / "VERSION").read_text(encoding="ascii").strip()
