"""The records of definitions: what a clause promises that names one, field by field."""
import re
from dataclasses import dataclass

from rattle_crates import ROOT
from rattle_source import on_one_line

RECORD = re.compile(r"^pub record (\w+)")
FIELD = re.compile(r"^  pub (\w+) :(.*)$")
# A heading within a record.
HEADING = re.compile(r"^  -- [A-Z ]+$")


@dataclass
class Record:
    """A record with the comment before it, and its fields: name, type, and the comment before it."""

    name: str
    path: object
    comment: str
    fields: list


def records_of(path):
    """The records of a file of definitions."""
    found, comment, record = [], [], None
    for line in path.read_text().splitlines():
        head, field = RECORD.match(line), FIELD.match(line)
        if line.lstrip().startswith("--"):
            comment += [] if HEADING.match(line) else [line.lstrip().removeprefix("--").strip()]
            continue
        if head:
            record = Record(head[1], path, " ".join(comment), [])
            found.append(record)
        elif record and field:
            record.fields.append([field[1], field[2], " ".join(comment)])
        elif record and record.fields and line.startswith("   "):
            record.fields[-1][1] += line
        elif line and not line.startswith(" "):
            record = None
        comment = []
    for record in found:
        record.fields = [(name, on_one_line(says), comment) for name, says, comment in record.fields]
    return found


def records_named(words):
    """The records of the repository that these words name, in the order of the crates' names."""
    paths = sorted(ROOT.glob("crates/*/specs/**/*.antt"))
    return [record for path in paths for record in records_of(path) if record.name in words]
