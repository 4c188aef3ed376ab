#!/usr/bin/env python3
"""Brings the names of this repository's own definitions and lemmas to the spelling of today's Rattle, once, after the kit's port.py.

`mostFormat` becomes `most_format`; `by-test` becomes `by_test`. A dash stays where it joins the names of two functions, as in `length-laid`, or follows a type.
Types, modules, Rust's names and names that Rattle makes keep their spelling, and so do strings. Run at the top of the repository.
"""
import collections
import pathlib
import re

WORD = r"[^\W\d][\w'\-]*"
DECLARED = re.compile(rf"^\s*(?:(?:abbrev|unfoldable|pub|record|data)\s+)*({WORD})\s+:(?=\s)")
LET = re.compile(rf"\blet\s+({WORD})\s+[:=]")
TOKEN = re.compile(r'"(?:\\.|[^"\\])*"|(?<![\w\'\-])' + WORD)
LISTS = "length take drop append set replicate map reverse get_or sum"
FIELD = re.compile(rf"^\s+(?:pub\s+)?({WORD})\s+:(?=\s)")
# Names that would fall together with a function's, and are no laws.
BY_HAND = {"is-date": "valid", "is-text": "is_text_part", "format-in": "format_within", "month-on": "month_on_test", "day-on": "day_on_test"}
# Laws that would fall together with a function, each in the file that has it.
LAWS = (("crates/causes/proofs/Rows.antt", "all_known"), ("crates/outcomes/proofs/Demand.antt", "end_before"))


def antt(root: pathlib.Path) -> list[pathlib.Path]:
    """The definitions and laws; a function's own proof has names that Rattle makes."""
    files = sorted(root.glob("crates/*/specs/**/*.antt")) + sorted(root.glob("crates/*/proofs/**/*.antt"))
    made = ("Proof.antt", "Invariants.antt", "Answers.antt")
    return [file for file in files if (file.name not in made or file.parent.name in ("specs", "proofs")) and "out" not in file.parts]


def own(files: list[pathlib.Path]) -> set[str]:
    """The lower-case names that those files declare or bind by `let`."""
    names = set()
    for file in files:
        for line in file.read_text(encoding="utf-8").splitlines():
            code = line.split("-- ")[0]
            found = DECLARED.match(code)
            names |= {found[1]} if found else set()
            names |= set(LET.findall(code))
    return {name for name in names if name[0].islower()}


def fields_of(files: list[pathlib.Path]) -> set[str]:
    """The fields of records and the constructors of data: what stands indented below their first line."""
    names = set()
    for file in files:
        within = False
        for line in file.read_text(encoding="utf-8").splitlines():
            if re.match(r"\s*(?:pub\s+)?(?:record|data)\b", line):
                within = True
            elif line and not line[0].isspace():
                within = False
            elif within and (found := FIELD.match(line)):
                names.add(found[1])
    return names


def snake(name: str) -> str:
    return re.sub(r"(?<=[a-z0-9])([A-Z])", lambda m: "_" + m[1].lower(), name)


def respelled(name: str, functions: set[str], fields: set[str]) -> str:
    if name in BY_HAND:
        return BY_HAND[name]
    if name in fields:
        return snake(name).replace("-", "_")
    parts = [snake(part) for part in name.split("-")]
    out = parts[0]
    for before, part in zip(parts, parts[1:]):
        out += ("-" if before in functions and part in functions else "_") + part
    return out


def table(root: pathlib.Path) -> dict[str, str]:
    files = antt(root)
    names = own(files) - {"and-true", "or-true"}  # a library's too
    specs = own([file for file in files if "specs" in file.parts])
    fields = fields_of(files)
    functions = {snake(name) for name in specs if "-" not in name} | set(LISTS.split())
    turned = {name: respelled(name, functions, fields) for name in names}
    counted = collections.Counter(turned.values())
    turned = {name: new + "_lem" * ("-" in name and counted[new] > 1) for name, new in turned.items()}
    return {name: new for name, new in turned.items() if new != name}


def turn(text: str, names: dict[str, str]) -> str:
    return TOKEN.sub(lambda m: names.get(m[0], m[0]), text)


def in_ticks(text: str, names: dict[str, str]) -> str:
    """The same, only between backquotes."""
    return re.sub(r"`[^`\n]*`", lambda m: re.sub(WORD, lambda w: names.get(w[0], w[0]), m[0]), text)


def turn_file(file: pathlib.Path, names: dict[str, str]) -> str:
    text = file.read_text(encoding="utf-8")
    if file.suffix == ".md":
        return in_ticks(text, names)
    mark = "//" if file.suffix == ".rt" else "--" if file.suffix == ".antt" else "#"
    lines = []
    for line in text.split("\n"):
        at = re.search(rf"(?:^|(?<=\s)){re.escape(mark)}(?=\s|$)", line)
        code, comment = (line[: at.start()], line[at.start() :]) if at else (line, "")
        if file.suffix == ".rt":
            rust = {name: new for name, new in names.items() if re.search("[A-Z]", name)}
            code = turn(code, rust)
        elif file.suffix == ".edit" and code.startswith("file:"):
            pass
        else:
            code = turn(code, names)
        lines.append(code + in_ticks(comment, names))
    return "\n".join(lines)


def main() -> None:
    root = pathlib.Path(".")
    names = table(root)
    files = [f for p in ("crates/**/*.antt", "crates/**/*.rt", "crates/**/*.edit", "docs/**/*.md", "README.md") for f in sorted(root.glob(p)) if "out" not in f.parts]
    for path, law in LAWS:
        file = root / path
        file.write_text(re.sub(rf"(?<![\w.'-]){law}(?![\w'-])", law + "_lem", file.read_text(encoding="utf-8")), encoding="utf-8")
    for file in files:
        new = turn_file(file, names)
        if new != file.read_text(encoding="utf-8"):
            file.write_text(new, encoding="utf-8")


if __name__ == "__main__":
    main()
