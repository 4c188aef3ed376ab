"""Prints a log: a file of values separated by commas, one line of a sheet for each of its rows."""

import collections
import os
import sys
import time

from inputs import BadInput, tell
from output import Output
from progress import Progress
from records import Records
from refusals import in_one_line
from shown import counted
from values import KIND, Rows, check_kind, parse

ZERO = dict.fromkeys(KIND, "0") | {"bool": "false", "text": ""}  # a value of each kind: of integers a character, of times a whole second
NULLS = ("null", "")  # an empty cell of a kind that can be null is null
AFTER, AGAIN = 1.0, 0.2  # seconds until progress is shown, and until it is shown again


def columns_of(cells):
    """Names and kinds of the columns, from the cells NAME:KIND of the first line."""
    parts = [[part.strip() for part in cell.rpartition(":")] for cell in cells]
    for cell, (name, colon, kind) in zip(cells, parts):
        if not colon:
            raise BadInput(f"{cell}: the first line names columns as NAME:KIND, such as gate:int8")
        if ";" in name or "\t" in name:
            raise BadInput(f"{cell}: columns are separated by commas")
        check_kind(kind)
    return [name for name, _, _ in parts], [kind for _, _, kind in parts]


class Log:
    """A log, opened and its first line read."""

    def __init__(self, name):
        self.records = Records(name)
        numbers, records = self.first_records()
        try:
            if isinstance(records[0], BadInput):
                raise records[0]
            self.names, self.kinds = columns_of(records[0])
            self.rows = Rows(self.kinds, NULLS)
        except BadInput as error:
            raise BadInput(f"{self.records.name}:{numbers[0]}: {error}") from error
        self.left = numbers[1:], records[1:]
        self.printed = self.unread = 0
        self.refused = collections.Counter()

    def first_records(self):
        """The records up to the first that is there; empty lines before it are none."""
        while (some := self.records.some()) is not None:
            if some[1]:
                return some
        raise BadInput(f"{self.records.name}: no columns; the first line names them, such as gate:int8,name:text")

    def print(self, library, form, column):
        """Prints every row that can be printed, and tells of every other. A format that is refused for every row of these kinds is refused first."""
        pieces = library.check(form, self.rows.kinds).pieces
        library.measure(form, self.rows.pack([[ZERO[kind]] for kind in self.kinds], 1)[0])  # finds 15, which goes by the kinds
        if column > pieces:
            raise BadInput(f"--column {column}: the format has {counted(pieces, 'piece')}")
        self.output = Output(library, form, column)
        self.progress, self.look_at = Progress(), AFTER
        try:
            self.print_all()
        except (BadInput, KeyboardInterrupt):  # the file cannot be read on, or the run is interrupted
            self.output.write()
            raise
        finally:  # what is told of an output that cannot be written stands in a line of its own
            self.progress.end()
        tell("line", self.summary())

    def print_all(self):
        some = self.left
        while some is not None:
            self.print_records(*some)
            if not self.records.is_file:  # the next rows of a pipe may be long in coming
                self.output.write()
            self.show_progress()
            some = self.records.some()
        self.output.write()

    def print_records(self, numbers, records):
        """Prints records, given with their lines' numbers; half by half where one of them is not understood."""
        if not records:
            return
        try:
            rows = self.pack(records)
        except BadInput as error:
            half = len(records) // 2
            if half:
                self.print_records(numbers[:half], records[:half])
                self.print_records(numbers[half:], records[half:])
            else:
                self.unread += 1
                self.tell(numbers[0], error)
            return
        self.printed += len(records)
        for k, refused in self.output.print(*rows):
            self.printed -= 1
            self.refused[refused.number] += 1
            self.tell(numbers[k], in_one_line(refused))

    def pack(self, records):
        """The rows of records' cells."""
        if isinstance(records[0], BadInput):  # which comes alone
            raise records[0]
        try:
            columns = list(zip(*records, strict=True))
        except ValueError:
            columns = []
        if len(columns) != len(self.kinds):
            raise BadInput(f"{counted(len(records[0]), 'value')} for {counted(len(self.kinds), 'column')}")
        try:
            return self.rows.pack(columns, len(records))
        except BadInput as error:
            raise BadInput(self.column_of(columns) + str(error)) from error

    def column_of(self, columns):
        """The name of the first column that cannot be taken, with a colon; nothing where no single column is at fault."""
        for name, kind, words in zip(self.names, self.kinds, columns):
            try:
                parse(kind, words, NULLS)
            except BadInput:
                return f"{name}: "
        return ""

    def tell(self, line, message):
        self.output.write()
        self.progress.end()
        tell("line", f"{self.records.name}:{line}: {message}")

    def show_progress(self):
        """Shows how far the file was read, on a terminal that does not show the lines, and only where it takes long."""
        seconds = time.monotonic() - self.progress.begun
        if self.progress.on_terminal and not sys.stdout.isatty() and seconds > self.look_at:
            self.look_at = seconds + AGAIN
            size = os.fstat(self.records.file.fileno()).st_size
            part = f", {100 * self.records.file.buffer.tell() // size} %" if size else ""
            self.progress.show(f"line: {self.printed:,} rows{part}")

    def summary(self):
        """How many rows were printed and how many not, in one line."""
        parts = [f"{counted(self.printed, 'row')} printed"]
        parts += [f"{counted(count, 'row')} refused with {number}" for number, count in sorted(self.refused.items())]
        parts += [f"{counted(self.unread, 'row')} not understood"] if self.unread else []
        return ", ".join(parts)

    def status(self):
        """The exit status: 2 where a row was not understood, 1 where one was refused."""
        return 2 if self.unread else 1 if self.refused else 0
