"""What stands in a file of Rattle, in the layout of `rt fmt`: its items, their documentation and contracts.

It reads by lines. An item begins at its margin. It ends with a line that ends with `;`, or, once a line at the margin has
opened braces, with the line at the margin that closes them. The members of an `impl` or a trait are items at the next margin.
"""
import re
from dataclasses import dataclass, field

INDENT = "    "
KIND = re.compile(
    r"(?P<pub>pub(?:\([^)]*\))? )?(?:(?:const|unsafe) (?=fn|unsafe)|extern \"C\" )*"
    r"(?P<kind>fn|struct|enum|trait|impl|mod|use|const|static|type|ghost)\b ?(?P<name>\w+)?"
)
CLAUSE = re.compile(r"(?P<word>requires|ensures) (?:(?P<name>\w+) )?\{")


@dataclass
class Item:
    """One item, with the lines that stand before it."""

    lines: list
    docs: list = field(default_factory=list)
    comments: list = field(default_factory=list)
    attributes: list = field(default_factory=list)

    def __post_init__(self):
        match = KIND.match(self.lines[0])
        self.kind = match["kind"] if match else ""
        self.name = (match["name"] or "") if match else ""
        self.is_public = bool(match) and match["pub"] == "pub "
        opening = [i for i, line in enumerate(self.lines) if opens(line, self.lines[0])]
        self.opening = opening[0] if opening else None

    @property
    def head(self):
        """What stands before the braces: of a function its signature and its contract."""
        if self.opening is None:
            last = re.sub(r" ?\{\}$", "", self.lines[-1])
            return "\n".join([*self.lines[:-1], last]).rstrip()
        last = self.lines[self.opening].removesuffix("{").rstrip()
        return "\n".join([*self.lines[: self.opening], last]).rstrip()

    @property
    def contract_at(self):
        """The line of the head with which its contract begins, or the comments before it."""
        lines = [line.strip() for line in self.head.splitlines()]
        return next((i for i, line in enumerate(lines) if i and (CLAUSE.match(line) or is_comment(line))), len(lines))

    @property
    def signature(self):
        """The head without its contract, on one line."""
        return on_one_line(" ".join(self.head.splitlines()[: self.contract_at])).rstrip(";,")

    @property
    def clauses(self):
        """Each clause of the contract: its name (its first word if it has none), what it says, and the comment before it."""
        found, comment = [], []
        for line in map(str.strip, self.head.splitlines()[self.contract_at :]):
            match = CLAUSE.match(line)
            if is_comment(line):
                comment.append(line.removeprefix("//").strip())
            elif match:
                found.append([match["name"] or match["word"], line[match.end() :], " ".join(comment)])
                comment = []
            elif found:
                found[-1][1] += " " + line
        return [(name, on_one_line(says).rstrip(";").removesuffix("}").strip(), why) for name, says, why in found]

    @property
    def members(self):
        """The items between the braces."""
        if self.opening is None:
            return []
        return items("\n".join(dedented(self.lines[self.opening + 1 : -1])))

    @property
    def text(self):
        return "\n".join(self.lines)

    @property
    def first_sentence(self):
        """The first sentence of the documentation."""
        lines = self.docs[: self.docs.index("")] if "" in self.docs else self.docs
        paragraph = " ".join(lines)
        end = re.search(r"\.(?= [A-Z`])", paragraph)
        return paragraph[: end.end()] if end else paragraph


def opens(line, first):
    """Whether the line opens the braces of the item with this first line: it does so at the margin, or after a long head."""
    if not line.endswith("{") or line.startswith("//"):
        return False
    # The second form ends a type that goes over several lines.
    after_head = line.startswith(INDENT + "for ") or line == INDENT + ") {"
    return not line.startswith(" ") or (first.startswith("impl") and after_head)


def on_one_line(text):
    return " ".join(text.split()).replace("( ", "(").replace(", )", ")").replace(", }", " }")


def is_comment(line):
    return line.lstrip().startswith("//")


def dedented(lines):
    return [line.removeprefix(INDENT) for line in lines]


def items(source):
    """The items at the margin, each with the documentation, comments and attributes right before it."""
    found, item, before = [], None, ([], [], [])
    for line in source.splitlines():
        if item is None:
            docs, comments, attributes = before
            if line.startswith("///"):
                docs.append(line[3:].removeprefix(" "))
                continue
            if line.startswith("//"):
                comments.append(line[2:].removeprefix(" "))
                continue
            if line.startswith("#") or (attributes and line.startswith((" ", ")"))):
                attributes.append(line)
                continue
            if not line.strip():
                before = ([], [], [])
                continue
            item, opened, depth = [], False, 0
        item.append(line)
        if opened:
            ended = line.startswith("}")
        elif opens(line, item[0]):
            opened, ended = True, False
        elif is_comment(line):
            ended = False
        else:
            depth += line.count("{") - line.count("}")
            at_margin = line.endswith("}") and not line.startswith(" ")
            ended = depth == 0 and (line.endswith(";") or at_margin)
        if ended:
            found.append(Item(item, *before))
            item, before = None, ([], [], [])
    return found


def without_generics(head):
    """The head of an impl without what stands between `impl` and its trait or type."""
    rest = head.removeprefix("impl")
    if not rest.startswith("<"):
        return head
    depth = 0
    for i, sign in enumerate(rest):
        # An arrow closes nothing.
        depth += (sign == "<") - (sign == ">" and rest[i - 1] != "-")
        if depth == 0:
            return "impl" + rest[i + 1 :]
    return head
