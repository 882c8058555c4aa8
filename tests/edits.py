"""The must-fail edits, as tests/claims and tests/refused read them.

A file of edits has one wrong answer, named as the file is, or several: then each is a part, which begins with a line `part: NAME`. A line
`refused at: FILE: NAME` says in which file of the crate, and at which name in it, the prover must refuse the wrong answer.
"""
from dataclasses import dataclass
from pathlib import Path

ROOT = Path(__file__).resolve().parent.parent


@dataclass
class Edit:
    """One wrong answer: its name, the file that has it, where it must be refused ("" if it does not say), its replacements."""

    name: str
    file: Path
    is_part: bool
    place: str = ""
    replacements: int = 0


def read(file):
    """The wrong answers in a file of edits."""
    lines = [line.partition(": ") for line in file.read_text().splitlines()]
    edits = [Edit(rest, file, True) for word, _, rest in lines if word == "part"] or [Edit(file.stem, file, False)]
    at = -1 if edits[0].is_part else 0
    for word, _, rest in lines:
        if word == "part":
            at += 1
        elif word in ("refused at", "old") and at < 0:
            raise SystemExit(f"{file}: a line before the first part: {word}: {rest}")
        elif word == "refused at":
            edits[at].place = rest
        elif word == "old":
            edits[at].replacements += 1
    return edits


def all_edits():
    """The wrong answers of all crates."""
    return [edit for file in sorted(ROOT.glob("crates/*/must-fail/*.edit")) for edit in read(file)]
