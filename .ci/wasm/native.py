"""The library for C with a supplement and a list of what is available, as `lines.mjs` has the module."""
import ctypes
from pathlib import Path

ROOM = 1 << 16
REFUSED = 1


def sized(text):
    """A text and its length, as the calls take them."""
    return text, ctypes.c_size_t(len(text))


class Native:
    """A handle that answers lines."""

    def __init__(self, library, tables, supplement, available):
        self.library, handle, self.handle = ctypes.CDLL(library), ctypes.c_void_p(), ctypes.c_void_p()
        opened = self.library.icu_locale_open(*sized(Path(tables).read_bytes()), ctypes.byref(handle))
        supplied = self.library.icu_locale_supplement(ctypes.byref(handle), *sized(Path(supplement).read_bytes()))
        listed = self.library.icu_locale_available(ctypes.byref(handle), *sized(available.encode()), ctypes.byref(self.handle))
        self.number = opened or supplied or listed
        self.library.icu_locale_close(ctypes.byref(handle))

    def answers(self, command, lines):
        """The answers to lines, the status, and the number where there is no answer."""
        out, written, found, status = ctypes.create_string_buffer(ROOM), ctypes.c_size_t(), [], 0
        for line in lines.split(b"\n")[:-1]:
            words = [*sized(command.encode()), *sized(line), *(out, ctypes.c_size_t(ROOM)), ctypes.byref(written)]
            number = self.number or self.library.icu_locale_answer(ctypes.byref(self.handle), *words)
            if number > REFUSED:
                return b"", 2, str(number)
            status |= number
            found.append(ctypes.string_at(out, written.value))
        return b"\n".join(found) + b"\n", status, ""
