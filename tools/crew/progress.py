"""How far something is."""

import sys
import time


class Progress:
    """How far something is, on standard error: one line that is written over on a terminal."""

    def __init__(self):
        self.on_terminal = sys.stderr is not None and sys.stderr.isatty()
        self.begun = time.monotonic()

    def show(self, text):
        if sys.stderr:
            sys.stderr.write(f"\r\x1b[K{text}" if self.on_terminal else f"{text}\n")
            sys.stderr.flush()

    def end(self):
        if self.on_terminal:
            sys.stderr.write("\r\x1b[K")
