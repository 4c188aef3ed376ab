"""The C library of panel/panel.h from Python; proved and built first where that has not been done."""

import ctypes
import os

from inputs import BadInput

ROOT = os.path.dirname(os.path.dirname(os.path.dirname(os.path.realpath(__file__))))
SHARED = os.path.join(ROOT, "target", "panel", "libpanel.so")

MOST_OUTPUT = 1 << 26  # what is lent at most for a line; a longer text is refused by the library with 17
FULL = 17  # the refusal of a text that does not fit


class Checked(ctypes.Structure):
    _fields_ = [(name, ctypes.c_uint64) for name in ("number", "place", "pieces", "largest")]


class Printed(ctypes.Structure):
    _fields_ = [(name, ctypes.c_uint64) for name in ("number", "place", "length", "pieces")]


class Place(ctypes.Structure):
    """Where the printing of rows stands: the row that is next, where it lies, and how many bytes of the output are used."""
    _fields_ = [(name, ctypes.c_uint64) for name in ("row", "at", "used")]


class Refused(Exception):
    """The library refused a call, with this number and place."""

    def __init__(self, answer):
        super().__init__(answer.number, answer.place)
        self.number, self.place = answer.number, answer.place


def newest_source():
    """When the code of the library was last changed."""
    crates = os.path.join(ROOT, "crates")
    newest = max(os.stat(os.path.join(ROOT, name)).st_mtime for name in ("crates.txt", "tools/crew/rows.c"))
    for crate in os.scandir(crates):
        folder = os.path.join(crate.path, "src")
        if os.path.isdir(folder):
            newest = max([newest] + [entry.stat().st_mtime for entry in os.scandir(folder)])
    return newest


def why_not_built():
    """Why the library has to be built; nothing where it is built and no source is newer."""
    if not os.path.exists(SHARED):
        return "is not built yet"
    return "" if os.stat(SHARED).st_mtime >= newest_source() else "is older than its source"


class Library:
    """Checking, measuring and printing, and the loop over rows of a log."""

    def __init__(self):
        try:
            if why_not_built():
                from building import build_once  # only here: it brings much along
                build_once()
            shared = ctypes.CDLL(SHARED)
            self.find_functions(shared)
        except (OSError, AttributeError) as error:
            raise BadInput(f"the library cannot be loaded: {error}; without {SHARED} it is built again") from error

    def find_functions(self, shared):
        lent, length, room = ctypes.c_char_p, ctypes.c_size_t, ctypes.c_void_p
        self.panel_check = self.function(shared.panel_check, Checked, [lent, length] * 2)
        self.panel_measure = self.function(shared.panel_measure, Printed, [lent, length] * 2)
        self.panel_print = self.function(shared.panel_print, Printed, [lent, length] * 2 + [room, length] * 2)
        self.rows_print = self.function(shared.rows_print, Printed, [lent, length, lent, room, length, room, length, length, ctypes.POINTER(Place)])

    @staticmethod
    def function(found, answer, lent):
        found.restype, found.argtypes = answer, lent
        return found

    def check(self, form, kinds):
        """Pieces and largest argument of a format against kinds, both bytes."""
        answer = self.panel_check(form, len(form), kinds, len(kinds))
        if answer.number:
            raise Refused(answer)
        return answer

    def measure(self, form, row):
        """Length and pieces of a row under a format."""
        answer = self.panel_measure(form, len(form), row, len(row))
        if answer.number:
            raise Refused(answer)
        return answer

    def print(self, form, row, most=MOST_OUTPUT):
        """The text of a row under a format, and the ends of its pieces. As much is lent as measuring says, up to `most`."""
        measured = self.measure(form, row)
        room = min(measured.length, most)
        out, ends = ctypes.create_string_buffer(room), (ctypes.c_uint8 * (4 * measured.pieces))()
        answer = self.panel_print(form, len(form), row, len(row), ctypes.addressof(out), room, ctypes.addressof(ends), len(ends))
        if answer.number:
            raise Refused(answer)
        return out.raw[:answer.length], [int.from_bytes(ends[k:k + 4], "little") for k in range(0, len(ends), 4)]

    def print_rows(self, form, rows, lengths, room, column, place):
        """Prints rows, which lie end to end, from a place on, as tools/crew/rows.c says; the answer is that of the row at which it stopped."""
        lengths_at = lengths.buffer_info()[0]
        return self.rows_print(form, len(form), rows, lengths_at, len(lengths), ctypes.addressof(room), len(room), column, place)
