"""What the commands take: the words of a command line, a format's file; how they write, and how they tell what they cannot take."""

import os
import sys

MOST_SHOWN = 300  # characters of a message


class BadInput(Exception):
    """Its message says what cannot be taken, and why. Lines may follow that another program said."""

    def __init__(self, message, lines=()):
        super().__init__("\n".join([printable(message), *lines]))


def printable(message):
    """A message in one line that a terminal can show, without the middle of very long words."""
    if len(message) > MOST_SHOWN:
        message = message[:MOST_SHOWN - 100] + "..." + message[-100:]
    return "".join(character if character.isprintable() else escaped(character) for character in message)


def escaped(character):
    number = ord(character)
    if 0xDC80 <= number < 0xDD00:  # a byte that is no UTF-8
        number -= 0xDC00
    return f"\\x{number:02x}" if number < 256 else f"\\u{{{number:x}}}"


def command_words():
    """The words of the command line. A byte that is no UTF-8 stands in them as Python's `surrogateescape` has it."""
    return [os.fsencode(word).decode("utf-8", "surrogateescape") for word in sys.argv[1:]]


def bytes_of(word):
    """The bytes that a word was made of."""
    return word.encode("utf-8", "surrogateescape")


def read_format(name):
    """The format in a file, byte for byte."""
    try:
        with open(bytes_of(name), "rb") as file:
            return file.read()
    except OSError as error:
        raise BadInput(f"{name}: {error.strerror}") from error


def run_command(program, usage, run):
    """Runs a command on the words of its line; the exit status. What it cannot take or write is told."""
    words = command_words()
    try:
        if sys.stdout is None:
            raise BadInput("standard output is closed")
        return run(words)
    except BadInput as error:
        tell(program, error if words else f"{error}\n{usage}")
        return 2
    except BrokenPipeError:
        return 0
    except OSError as error:
        tell(program, f"the output cannot be written: {error.strerror}")
        return 2
    except KeyboardInterrupt:
        return 130


def put(data):
    """Bytes on standard output, all of them. A write may take only some, and where the output is set not to wait (O_NONBLOCK) none: then this waits."""
    out, data = sys.stdout.fileno(), memoryview(data)
    while data:
        try:
            data = data[os.write(out, data):]
        except BlockingIOError:
            from select import select  # only here: it is hardly ever needed
            select([], [out], [])


def tell(program, message):
    """A message on standard error, where that can be written."""
    if sys.stderr:
        try:
            sys.stderr.write(f"{program}: {message}\n")
            sys.stderr.flush()
        except OSError:
            drop(sys.stderr)


def drop(stream):
    """Lets what is still to be written go nowhere, so that Python's end does not try again."""
    os.dup2(os.open(os.devnull, os.O_WRONLY), stream.fileno())
