"""The records of a file of values separated by commas."""

import csv
import io
import itertools
import os
import stat
import sys

from inputs import BadInput, bytes_of

MOST_LINES = 500  # lines that are read at a time; 1,000 and 2,000 take longer
MOST_OPEN = 1 << 16  # lines in which a quote must be closed: a text can have half as many line ends
AT_ONCE = 1 << 16  # bytes that are read at a time
STANDARD_INPUT = "-"

NOT_CLOSED = "a quote is not closed"
BEHIND = "text stands behind a closing quote; a quote inside text in quotes is written twice"

csv.field_size_limit(sys.maxsize)  # a text that is too long is refused as such, with all of its lines


def as_text(file, encoding):
    """A file of bytes as text: `utf-8-sig` leaves out a byte order mark in front. A byte that is no UTF-8 is kept, and so is every line end."""
    return io.TextIOWrapper(file, encoding, "surrogateescape", "")


class Records:
    """Reads the records of a file. Where one is not well formed, its first line is given as such, and the next line begins a record."""

    def __init__(self, name):
        self.name = "standard input" if name == STANDARD_INPUT else name
        self.lines, self.before, self.known, self.ended = [], 0, 0, False
        try:
            if name == STANDARD_INPUT and sys.stdin is None:
                raise BadInput("standard input is closed")
            self.file = as_text(open(0 if name == STANDARD_INPUT else bytes_of(name), "rb", buffering=AT_ONCE), "utf-8-sig")
        except OSError as error:
            raise BadInput(f"{self.name}: {error.strerror}") from error
        self.is_file = stat.S_ISREG(os.fstat(self.file.fileno()).st_mode)

    def read_more(self):
        """Reads some lines; False at the end."""
        if not self.ended:
            try:
                lines = list(itertools.islice(self.file, MOST_LINES)) if self.is_file else self.lines_at_hand()
            except OSError as error:
                raise BadInput(f"{self.name}: {error.strerror}") from error
            self.lines += lines
            self.ended = not lines
        return not self.ended

    def lines_at_hand(self):
        """The lines that have come through a pipe, at least one, so that none waits for those behind it."""
        come = self.file.buffer
        size = come.peek().rfind(b"\n") + 1
        data = come.read(size) if size else come.readline()
        return as_text(io.BytesIO(data), "utf-8" if self.before or self.lines else "utf-8-sig").readlines()

    def some(self):
        """The next records and the number of each one's first line; a BadInput in place of one that is not well formed. None at the end. Empty lines are
        no records."""
        if not self.lines and not self.read_more():
            return None
        numbers, records, taken = self.parsed(self.lines[:MOST_LINES])
        if taken == 0:
            numbers, records, taken = self.first()
        self.before += taken
        self.known = max(self.known - taken, 0)
        del self.lines[:taken]
        return numbers, records

    def parsed(self, lines):
        """The records that stand in lines up to the first that is not well formed or goes on, their first lines, and how many lines they take."""
        try:
            records = list(csv.reader(lines, strict=True))
            if len(records) == len(lines) and all(records):
                return range(self.before + 1, self.before + 1 + len(records)), records, len(records)
        except csv.Error:
            pass
        return self.parsed_one_by_one(lines)

    def parsed_one_by_one(self, lines):
        """The same, where a record takes more lines than one, or none."""
        numbers, records, taken = [], [], 0
        reader = csv.reader(lines, strict=True)
        try:
            for cells in reader:
                if cells:
                    numbers.append(self.before + taken + 1)
                    records.append(cells)
                taken = reader.line_num
        except csv.Error:
            pass
        return numbers, records, taken

    def first(self):
        """The same for the first line alone, where its record goes on behind the lines that were looked at, or is not well formed."""
        self.is_open = False
        try:
            next(csv.reader(self.fed(), strict=True))
            taken = self.known + 1
            record = next(csv.reader(self.lines[:taken], strict=True))
        except csv.Error:
            taken, record = 1, BadInput(NOT_CLOSED if self.is_open else BEHIND)
        return [self.before + 1], [record], taken

    def fed(self):
        """The first line and, where that leaves a quote open, the lines behind it up to the one that closes it. `known` lines are left out, with which
        a quote stays open that is open before them: so no line is looked at again for each quote that is not closed."""
        yield self.lines[0]
        self.is_open, self.known = True, max(self.known, 1)
        while self.known < MOST_OPEN and (self.known < len(self.lines) or self.read_more()):
            yield self.lines[self.known]
            self.known += 1
