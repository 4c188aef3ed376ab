#!/usr/bin/env python3
"""Turns proofs that walk a function's code into Invariants.antt and Answers.antt, as far as a script can.

usage: tools/port/answers.py CRATE [FUNCTION ..]    FUNCTION: its folder below proofs/, as flags/take_flags

The kit lists each goal's old and new name (`rt check --generated DIR --old-names`). What `search rules` proved is left out: today's Rattle finds it by itself.
What a script can't place is printed. Proofs that have Answers.antt or Invariants.antt are left alone.
"""
import json
import pathlib
import re
import subprocess
import sys
import tempfile

WORD = r"[^\W\d][\w'\-₀-₉]*"


def norm(name: str) -> str:
    return name.replace("-", "_").lower()


def names_of(crate: pathlib.Path) -> dict:
    with tempfile.TemporaryDirectory() as folder:
        said = subprocess.run(["rt", "check", "--generated", folder, "--old-names"], cwd=crate, capture_output=True, text=True).stdout
        file = pathlib.Path(folder) / "names.json"
        if not file.exists():
            sys.exit(said[-3000:])
        return json.loads(file.read_text(encoding="utf-8"))


def blocks(text: str) -> list[list[str]]:
    """Declarations: each begins at a line in column 0 that is no clause of the one before it."""
    out: list[list[str]] = []
    name = None
    for line in text.split("\n"):
        if not line.strip():
            continue
        if line[0].isspace() or line.startswith((")", "]", "}")):
            out[-1].append(line)
            continue
        head = re.match(rf"(?:pub |abbrev |unfoldable )*({WORD})", line)
        if line.startswith("unfolding ") or (head and name == head[1] and not re.match(rf"(?:pub |abbrev |unfoldable )*{WORD}\s*:", line)):
            out[-1].append(line)
            continue
        name = head[1] if head and not line.startswith(("use ", "--", "module ")) else None
        out.append([line])
    return out


class Function:
    def __init__(self, crate: str, folder: str, names: dict):
        self.path = folder.replace("/", ".")
        self.crate = crate
        self.goals = {}
        for old, new in names["needs"]:
            self.goals.setdefault(norm(old), new)
            self.goals.setdefault(norm(new), new)
        self.order = [new for _, new in names["needs"]]
        self.at = {new: place[1] for (_, new), place in zip(names["needs"], names["asked_at"])}
        self.places = {norm(place[0]): new for place, new in zip(names["places"], names["places_by_name"])}
        self.steps = {new: (place, arm) for place, new, arm in zip(names["places"], names["places_by_name"], names["arms"])}
        self.loops = {}
        for (loop, variables), changed in zip(names["loops"], names["changed"]):
            self.loops[norm(loop[0])] = (loop[1], variables, changed)
            self.loops[norm(loop[1])] = (loop[1], variables, changed)
        self.starts: list[str] = []
        self.named: dict[str, str] = {}
        self.left: list[str] = []

    def chain(self, place: str | None) -> tuple[dict[str, str], dict[tuple[str, str], str]]:
        """The labels of the steps that lead to a place, the nearest first, and the fields of arms among them."""
        labels: dict[str, str] = {}
        arms: dict[tuple[str, str], str] = {}
        every = [place] if place in self.steps else []
        while every and (parent := self.steps[every[-1]][0][1]) is not None:
            every.append(self.places[norm(parent)])
        for name in every or list(self.steps):
            step, arm = self.steps[name]
            old, new = step[2]
            labels.setdefault(norm(old), new)
            for pair in step[4]:
                labels.setdefault(norm(pair[0]), pair[1])
            for field, label, *path in arm[2] if arm else []:
                if not field.endswith("-own"):
                    arms.setdefault((norm(label), ".".join(path[0])), f"{arm[0]}.{field}")
        return labels, arms

    @staticmethod
    def forward(text: str, steps: set[str]) -> str:
        """Today's answers name a step without the way back to it."""
        return re.sub(rf"(?<![\w.'-])({'|'.join(sorted(steps))})(?:\.before)+(?![\w'-])", r"\1", text)

    def body(self, text: str, place: str | None = None) -> str:
        if found := re.search(rf"\({WORD} : tie\.({WORD})", text):
            place = self.places.get(norm(found[1]), place)
        labels, arms = self.chain(place)
        before = ""
        while self.starts and before != text:
            before = text
            any_of = "|".join(re.escape(name) for name in sorted(self.starts, key=len, reverse=True))
            text = re.sub(rf"\((?:{any_of}) ({WORD}(?:\.{WORD})*)\)", r"\1", text)
            text = re.sub(rf"(?<![\w.'-])(?:{any_of}) ({WORD})", r"\1", text)
            text = re.sub(rf"\(({WORD})\)", r"\1", text)
            text = self.forward(text, {"c"})
        steps = {"c"} | set(re.findall(rf"\(({WORD}) : tie\.", text))
        text = self.forward(text, steps)
        while found := re.search(rf"\blet ({WORD}) = ({'|'.join(sorted(steps))}) in\s*", text):
            text = text[: found.start()] + re.sub(rf"(?<![\w.'-]){re.escape(found[1])}(?![\w'-])", found[2], text[found.end() :])
            text = self.forward(text, steps)

        def step(m: re.Match) -> str:
            for label in (norm(m[2]), norm(m[2]).removesuffix("_lem")):
                for (old, path), new in arms.items():
                    if old == label and (m[3] or "").startswith("." + path):
                        return f"{m[1]}.{new}{m[3][len(path) + 1 :]}"
                if labels.get(label):
                    return f"{m[1]}.{labels[label]}{m[3] or ''}"
            return m[0]

        text = re.sub(rf"(?<![\w.'-])({'|'.join(sorted(steps))})\.({WORD})((?:\.[\w'-]+)*)", step, text)
        text = re.sub(r"\(not-(?:true|false) [^ ()]+ (c\.if-not[^ ()]+\.(?:true|false))\)", r"\1", text)
        text = text.replace(".last.", ".new.").replace("c.pre", "c.requires").replace(".type-inv", ".type_inv").replace(".in_default.rest", ".in_default.in_default-own.rest").replace(".new.0", ".new.out").replace(".new.1", ".new.ends")
        return re.sub(rf"\btie\.({WORD})((?: invariant-[\w-]+)*(?: decreases-[\w-]+)*)", lambda m: "goal." + self.places.get(norm(m[1]), m[1]), text)

    def invariant(self, block: list[str]) -> list[str]:
        found = re.match(r"(?:abbrev )?(invariant|decreases)-([\w-]+)", block[0])
        kind, loop = found[1], found[2]
        if norm(loop) not in self.loops:
            self.left.append("loop " + loop)
            return block
        new, variables, changed = self.loops[norm(loop)]
        clause = "\n".join(block[1:])
        head, _, rest = clause.partition("=")
        params = head.split()[1:]
        now = [v for v, c in zip(variables, changed) if c]
        if len(params) != len(variables) + len(now):
            self.left.append(f"{kind}-{loop}: {len(params)} parameters for {len(variables)} variables, {len(now)} changed")
        turned = {}
        for param, variable, change in zip(params, variables, changed):
            turned[param] = f"l.initial.{variable}" if change else f"l.{variable}"
        for param, variable in zip(params[len(variables) :], now):
            turned[param] = f"l.{variable}"
        rest = re.sub(rf"(?<![\w.'-]){WORD}", lambda m: turned.get(m[0], m[0]), rest)
        return [f"abbrev pub {kind}-{new} : goal.{kind}-{new}", f"{kind}-{new} l ={self.body(rest)}", ""]

    def answer(self, block: list[str], old: str, name: str) -> list[str]:
        text = "\n".join(block)
        if re.fullmatch(rf"{re.escape(name)}[^=]*=\s*search rules\s*", "\n".join(block[1:])):
            return []
        new = self.goals.get(norm(old)) or self.goals.get(norm(old).removeprefix("overflow_"))
        if new is None:
            self.left.append(f"goal {old} of {name}")
            return ["-- LEFT: " + old] + ["-- " + line for line in text.split("\n")]
        out = [f"pub {new} : goal.{new}"]
        text = "\n".join(block[1:])
        text = re.sub(rf"(?<=[ (]){WORD}(?= {WORD})", lambda m: self.named.get(m[0], m[0]), text)
        text = re.sub(rf"(?m)^{re.escape(name)}(?![\w'-])", new, text)
        text = re.sub(rf"(?m)^({re.escape(new)}(?: {WORD})*?) κs(?= )", r"\1", text)
        return out + [self.body(text, self.at.get(new)), ""]

    def places_of(self, block: list[str], known: dict[str, str]) -> list[str]:
        """The answers that the last declaration hands over: those that stand there and not under a name."""
        text = " ".join(line.strip() for line in block[1:])
        found = re.search(r"\(?tie\.spec\b(.*)", text)
        if not found:
            return []
        arguments, depth, one = [], 0, ""
        for letter in found[1].strip():
            if letter == "(":
                depth += 1
            if letter == ")":
                depth -= 1
                if depth < 0:
                    break
            if letter == " " and depth == 0:
                arguments += [one] if one else []
                one = ""
            else:
                one += letter
        arguments += [one] if one else []
        arguments = [a for a in arguments if not re.match(r"(invariant|decreases)-", a)]
        out = []
        same = len(arguments) == len(self.order)
        for k, one in enumerate(arguments):
            found = re.fullmatch(r"\(λ (c(?: [^\s.]+)*)\. (.*)\)", one)
            if not found or found[2] == "search rules":
                continue
            new = self.order[k] if same else None
            if new is None:
                self.left.append(f"argument {k} of {len(arguments)}, goals {len(self.order)}: {one}")
                out.append("-- LEFT: " + self.body(one))
            else:
                opened = [line for line in block[1:] if line.startswith("unfolding ")]
                out += [f"pub {new} : goal.{new}", *opened, f"{new} {found[1].replace(' κs', '')} = {self.body(found[2], self.at.get(new))}", ""]
        return out

    def turn(self, text: str) -> tuple[str, str]:
        comments, uses, invariants, answers = [], [], [], []
        for name, need in re.findall(rf"(?m)^({WORD}) : tie\.Need-({WORD})", text):
            if new := self.goals.get(norm(need)):
                self.named[name] = new
        for block in blocks(text):
            if found := re.match(rf"abbrev ({WORD}) : tie\.{WORD}[^→]* → tie\.{WORD}[^→]*$", block[0]):
                self.starts.append(found[1])
                continue
            line = block[0]
            if line.startswith("--"):
                if not re.match(r"-- src/.*:\d+:\d+$", line):
                    (comments if not (invariants or answers or uses) else answers).append(line)
                continue
            if line.startswith("use "):
                whole = "\n".join(block)
                if not re.search(r"\.(Statement|Tie)\b", whole):
                    uses.append(whole)
                continue
            name = re.match(rf"(?:pub |abbrev |unfoldable )*({WORD})", line)[1]
            need = re.search(rf"^(?:pub |abbrev )*{WORD} : tie\.Need-({WORD})", line)
            if re.match(r"(?:abbrev )?(invariant|decreases)-", line):
                invariants += self.invariant(block)
            elif need and not line.startswith("module"):
                answers += self.answer(block, need[1], name)
            elif re.match(r"pub [\w'-]+[-_]spec : ", line):
                answers += self.places_of(block, {})
            else:
                answers += [self.body("\n".join(block)), ""]
        last = []
        for k, one in enumerate(answers):
            if one.startswith("pub shape_of"):
                end = next(n for n in range(k, len(answers)) if not answers[n])
                last += answers[k : end + 1]
                answers[k : end + 1] = [""] * (end + 1 - k)
        answers += last
        head = "\n".join(comments + uses)
        goals = f"use Rattle.{self.crate}.proofs.{self.path}."
        one = head + "\n" + goals + "Given as goal\n\n" + "\n".join(invariants).rstrip() + "\n" if invariants else ""
        two = head + "\n" + goals + "Goals as goal\n\n" + "\n".join(answers).rstrip() + "\n" if any(a.strip() and not a.startswith("--") for a in answers) or self.left else ""
        return one, two


def main() -> None:
    crate = sys.argv[1]
    root = pathlib.Path("crates") / crate
    names = names_of(root)
    for proof in sorted(root.glob("proofs/**/Proof.antt")):
        folder = proof.parent.relative_to(root / "proofs").as_posix()
        if sys.argv[2:] and folder not in sys.argv[2:]:
            continue
        made = names.get(f"Rattle-{crate}-proofs.{folder.replace('/', '.')}.Lts")
        if made is None:
            print(f"{crate}::{folder}: the kit names no goals of it")
            continue
        function = Function(crate, folder, made)
        one, two = function.turn(proof.read_text(encoding="utf-8"))
        for file, text in (("Invariants.antt", one), ("Answers.antt", two)):
            if text:
                (proof.parent / file).write_text(text, encoding="utf-8")
        proof.unlink()
        if not one and not two:
            proof.parent.rmdir()
        for line in function.left:
            print(f"{crate}::{folder}: left: {line}")


if __name__ == "__main__":
    main()
