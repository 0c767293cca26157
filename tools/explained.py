"""Reads what `ptserver explain` writes: for each line its entries and their reasons, or why it was
refused, its answers, and what the objects that it names do after it."""

import os
import re
import sys
from collections import Counter
from dataclasses import dataclass, field

ENTRY = re.compile(r" *(\d+)  (([A-Z][a-z]+)\(([^)]*)\)) +(.*)")
REFUSAL = re.compile(r" +refused +(.*)")
REASON = re.compile(r"(.*?)(?: +\[(.*)\])?")
SOURCE = re.compile(r" +\[(.*)\]")
OBJECT = re.compile(r" {7}([^ :]+): (.*)")


@dataclass
class Reason:
    """Why an entry was added or a line refused, and the page that says so."""

    why: str
    source: str


@dataclass
class Entry:
    """An entry of the history: `Grant(4, 0)` is of the kind Grant, with the arguments 4 and 0."""

    place: int
    text: str
    kind: str
    arguments: list
    reason: Reason


@dataclass
class Answer:
    """An answer: the client, the number of its line, and the word."""

    client: str
    n: int
    word: str


@dataclass
class Object:
    """An object that a line's call names, and what it does after the line."""

    name: str
    state: str


@dataclass
class Step:
    """A line of a script, by its number in the script and in its client's lines."""

    line: int
    client: str
    n: int
    text: str
    entries: list = field(default_factory=list)
    refusal: Reason | None = None
    answers: list = field(default_factory=list)
    objects: list = field(default_factory=list)

    def read(self, row):
        """Reads a row below the line. Rows that are not known are remarks."""
        if row.startswith("> "):
            client, n, word = row[2:].split()
            self.answers.append(Answer(client, int(n), word))
        elif found := ENTRY.fullmatch(row):
            place, text, kind, arguments, rest = found.groups()
            reason = Reason(*REASON.fullmatch(rest).groups())
            self.entries.append(Entry(int(place), text, kind, arguments.split(", "), reason))
        elif found := REFUSAL.fullmatch(row):
            self.refusal = Reason(*REASON.fullmatch(found[1]).groups())
        elif found := OBJECT.fullmatch(row):
            self.objects.append(Object(*found.groups()))
        elif found := SOURCE.fullmatch(row):
            # The source did not fit into the row before.
            reason = self.entries[-1].reason if self.entries else self.refusal
            reason.source = found[1]


def count_step(step, counts):
    """Gives a step its client and its number among the client's lines. A refused line may begin
    with no client's name, so its answer says whose it is."""
    if step.refusal and step.answers:
        step.client = step.answers[0].client
    counts[step.client] += 1
    step.n = counts[step.client]
    return step


def read_steps():
    """Yields a step for each line of an explanation on standard input. An empty row ends what is
    written of a line. Bytes that are no text are shown as such. Ends the program if no line has an
    entry or was refused, since that is no explanation."""
    sys.stdin.reconfigure(encoding="utf-8", errors="replace")
    counts, line, step, is_explained = Counter(), 0, None, False
    for row in sys.stdin:
        row = row.rstrip("\n")
        if not row:
            if step:
                yield count_step(step, counts)
            step = None
        elif step:
            step.read(row)
            is_explained |= bool(step.entries or step.refusal)
        else:
            line += 1
            text = row.removeprefix("< ") if row != "<" else ""
            step = Step(line, text.partition(" ")[0], 0, text)
    if step:
        yield count_step(step, counts)
    if line and not is_explained:
        name = os.path.basename(sys.argv[0])
        sys.exit(f"{name}: there is no entry: give it what `ptserver explain` writes")
