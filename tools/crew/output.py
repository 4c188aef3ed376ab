"""Lines gathered for standard output."""

import ctypes
import signal

from inputs import put
from library import FULL, MOST_OUTPUT, Place, Refused

ROOM = 1 << 20


class Unbroken:
    """What is done inside is done before an interrupt (SIGINT) ends the run, so that no line is cut; a second interrupt ends it at once."""

    def __enter__(self):
        self.came, self.handler = False, signal.getsignal(signal.SIGINT)
        if self.handler is signal.default_int_handler:  # else it is ignored, as in the background of a shell
            signal.signal(signal.SIGINT, self.keep)

    def keep(self, _number, _frame):
        if self.came:
            raise KeyboardInterrupt
        self.came = True

    def __exit__(self, *_error):
        if self.handler is signal.default_int_handler:
            signal.signal(signal.SIGINT, self.handler)
        if self.came:
            raise KeyboardInterrupt


class Output:
    """Prints rows under one format, or one column of it, each behind those that are gathered."""

    def __init__(self, library, form, column):
        self.library, self.form, self.column = library, form, column
        self.place = Place()
        self.make_room(ROOM)

    def make_room(self, size):
        self.room = (ctypes.c_char * size)()

    def print(self, rows, lengths):
        """Prints rows, which lie end to end, each with a line end. Gives, when it comes to them, those that are refused: number, and what the library says."""
        place, count = self.place, len(lengths)
        place.row = place.at = 0
        while place.row < count:
            answer = self.library.print_rows(self.form, rows, lengths, self.room, self.column, place)
            if answer.number == FULL and self.more_room(rows[place.at:place.at + lengths[place.row]]):
                continue
            if answer.number:
                yield place.row, Refused(answer)
                place.at += lengths[place.row]
                place.row += 1

    def more_room(self, row):
        """Makes room for a row that does not fit: what was gathered is written, or there is as much room as the row needs. False where there can be no more."""
        if self.place.used:
            self.write()
            return True
        needed = min(self.library.measure(self.form, row).length, MOST_OUTPUT) + 1
        if needed <= len(self.room):
            return False
        self.make_room(needed)
        return True

    def write(self):
        """Writes what was gathered."""
        with Unbroken():
            used, self.place.used = self.place.used, 0
            put(memoryview(self.room)[:used])
