"""Bytes that the library reads where they lie."""
import ctypes
import mmap
from typing import Union

# Bytes, or a map of a file that is only read.
Flat = Union[bytes, memoryview, mmap.mmap]


class _Buffer(ctypes.Structure):
    """What Python tells of bytes: the structure Py_buffer of its C API."""

    _fields_ = [("buf", ctypes.c_void_p), ("obj", ctypes.c_void_p), ("len", ctypes.c_ssize_t),
                ("itemsize", ctypes.c_ssize_t), ("readonly", ctypes.c_int), ("ndim", ctypes.c_int), ("format", ctypes.c_char_p),
                ("shape", ctypes.c_void_p), ("strides", ctypes.c_void_p), ("suboffsets", ctypes.c_void_p),
                ("internal", ctypes.c_void_p)]


# Calls of Python's own, by types that no other module sees.
_GOT = ctypes.PYFUNCTYPE(ctypes.c_int, ctypes.py_object, ctypes.POINTER(_Buffer), ctypes.c_int)
_RELEASED = ctypes.PYFUNCTYPE(None, ctypes.POINTER(_Buffer))


def view_of(names: Flat) -> memoryview:
    """A view of bytes that nobody writes through. As long as it is there, they neither move nor go."""
    view = memoryview(names)
    if not (view.readonly and view.c_contiguous):
        raise TypeError("what is lent is bytes, or a map of a file that is only read: nothing may write to it")
    return view


def address_of(view: memoryview) -> int:
    """Where the bytes of a view lie."""
    api, buffer = ctypes.pythonapi, _Buffer()
    _GOT(("PyObject_GetBuffer", api))(view, ctypes.pointer(buffer), 0)
    try:
        address: int = buffer.buf
        return address
    finally:
        _RELEASED(("PyBuffer_Release", api))(ctypes.pointer(buffer))
