"""The command `line`: its words, and what it prints for them."""

from inputs import BadInput, bytes_of, put, read_format, run_command, tell
from library import Library, Refused
from shown import counted
from values import KIND, check_kind, pack_row

USAGE = "usage: line [OPTION ...] FORMAT [KIND=VALUE ...], or line --help"

HELP = USAGE + """

Prints a line of a sheet: the values in the format's places. docs/MANUAL.md has the format language.

  --pieces             prints a table of the line's pieces: part of the format, bytes from and to, text, and what %d %x %o %a read back as
  --column K           prints piece K alone, counted from 1 as --pieces counts
  --measure            prints the length and the number of pieces, and not the line
  --check KINDS        checks the format against kinds, such as int8,int32,text; takes no values
  --csv FILE           prints a line for each row of a file of values separated by commas; - is standard input; takes no values
  --format-file FILE   takes the format from a file, byte for byte, in place of FORMAT
  --help, -h           prints this text
  --                   what follows is no option: for a format that begins with --

Kinds of values, at most 64 of them:

  int8= int16= int32= int64=   a whole number, decimal or 0x.., with a sign in front or not, in the kind's range; or null
  f64=    decimal, hexadecimal as 0x1.8p3, nan, inf, -inf, or the 64 bits as bits:0x7ff8000000000000
  bool=   true, false or null
  text=   the rest of the word, which may be empty or hold =; all texts together at most 32,768 bytes
  time=   date and time in UTC as 2026-11-15T12:30Z or 2026-11-15T12:30:00.25Z, up to nine digits of a second; or nanoseconds since 1970, a whole number

The first line of a --csv file names columns and kinds, gate:int8,reply:time,name:text; each further line is a row. An empty place is null for
integers and Booleans, the empty text for texts, and not taken for floats and times; spaces belong to the value; text with commas stands in double
quotes; an empty line is no row. A row that is not printed is told with its line on standard error; the others are printed. Rows of a pipe are
printed when they come.

Exit status: 0 printed, 1 refused (with the number, the place and the cure on standard error), 2 input that is not understood or an output that cannot be
written, 130 interrupted. A reader of the output that has gone is no error.

Examples:

  line 'gate %d at %,d mm' int8=7 int32=1234567
  line --pieces '%08x|%.3a' int32=-5 f64=3.14159
  line '%tF %<tT gate %d' time=2026-11-15T12:30:00Z int8=7
  line --check int8,text 'gate %d %s'
  line --csv log.csv --column 2 'gate %d at %,d mm'
"""

FLAGS = {"--pieces", "--measure", "--help"}
SHORT = {"-h": "--help"}
WITH_WORD = {"--check", "--csv", "--column", "--format-file"}


def split_words(words):
    """The options, each with its word, and the words that are none."""
    options, rest = {}, []
    words = list(words)
    while words:
        word = words.pop(0)
        word = SHORT.get(word, word)
        name, equals, value = word.partition("=")
        if word == "--":
            rest += words
            break
        if name in options:
            raise BadInput(f"{name}: given twice")
        if not word.startswith("--"):
            rest.append(word)
        elif word in FLAGS:
            options[word] = ""
        elif name in WITH_WORD:
            if not equals and not words:
                raise BadInput(f"{name}: a word must follow")
            options[name] = value if equals else words.pop(0)
        else:
            raise BadInput(f"{word}: no such option; write -- in front of a format that begins so")
    return options, rest


def check_options(options, values):
    """Refuses options that do not go together."""
    ways = [name for name in ("--pieces", "--measure", "--check", "--csv") if name in options]
    if len(ways) > 1:
        raise BadInput(f"{ways[0]} and {ways[1]} do not go together")
    if "--column" in options and ways not in ([], ["--csv"]):
        raise BadInput(f"--column and {ways[0]} do not go together")
    if values and ways in (["--check"], ["--csv"]):
        raise BadInput(f"{values[0]}: {ways[0]} takes no values")


def column_of(options):
    """The number behind --column; 0 without it."""
    word = options.get("--column", "")
    if "--column" in options and not (word.isascii() and word.isdigit() and 1 <= int(word[:9]) and len(word) < 9):
        raise BadInput(f"--column {word}: not a piece's number, counted from 1")
    return int(word or 0)


def kinds_of(word):
    """The kind bytes of names separated by commas; none for an empty word."""
    names = [name.strip() for name in word.split(",")] if word else []
    for name in names:
        if not name:
            raise BadInput(f"--check {word}: a kind is missing beside a comma")
        check_kind(name)
    return bytes(KIND[name] for name in names)


def print_line(library, form, row, column):
    """The line, or one of its pieces, with a line end."""
    text, ends = library.print(form, row)
    if column > len(ends):
        raise BadInput(f"--column {column}: the format has {counted(len(ends), 'piece')}")
    if column:
        text = text[([0] + ends)[column - 1]:ends[column - 1]]
    return text + b"\n"


def answer(options, form, words, column):
    """What is printed for one format and values, or kinds."""
    if "--check" in options:
        kinds = kinds_of(options["--check"])
        checked = Library().check(form, kinds)
        return f"accepted: {counted(checked.pieces, 'piece')}, largest argument {checked.largest}\n".encode()
    row = pack_row(words)
    library = Library()
    if "--measure" in options:
        measured = library.measure(form, row)
        return f"{counted(measured.length, 'byte')}, {counted(measured.pieces, 'piece')}\n".encode()
    if "--pieces" in options:
        from pieces import table_of_pieces  # only here: it brings much along
        return "".join(line + "\n" for line in table_of_pieces(library, form, row)).encode("utf-8", "surrogateescape")
    return print_line(library, form, row, column)


def print_log(form, name, column):
    """Prints a log; the exit status."""
    from log import Log
    log = Log(name)
    log.print(Library(), form, column)
    return log.status()


def run(words):
    """Does what the words say; the exit status."""
    options, rest = split_words(words)
    if "--help" in options:
        put(HELP.encode())
        return 0
    if "--format-file" in options:
        form = read_format(options["--format-file"])
    elif rest:
        form = bytes_of(rest.pop(0))
    else:
        raise BadInput("the format is missing; " + ("--csv takes a file, - for standard input" if "--csv" in options else "line --help says more"))
    check_options(options, rest)
    column = column_of(options)
    try:
        if "--csv" in options:
            return print_log(form, options["--csv"], column)
        put(answer(options, form, rest, column))
        return 0
    except Refused as refused:
        from refusals import explained
        tell("line", explained(form, refused))
        return 1


def main():
    return run_command("line", USAGE, run)
