"""The rows of docs/PROMISES.md: how they are written, and how they are read again to see that nothing is missing."""
import re
from collections import Counter
from dataclasses import dataclass, field

from rattle_calls import CALLERS_OWN, is_comparison
from rattle_crates import ROOT, bare, functions, is_crate, libraries, modules, parts, public_items, root_of, sources_of
from rattle_evidence import all_edits
from rattle_families import replaced, words
from rattle_records import records_named

PAGE = ROOT / "docs/PROMISES.md"
COMPARISONS = "Equality and order"
LAWS = """A law takes references `a` and `b` to two values of its type. Its clause `member` is `result ≡ METHOD a.now b.now`, so the law
says of the type's operator what it says of its own result. A law of equality has a clause `same`, which is
`IsTrue result ↔ SAYS`; a law of order has a clause `order`, which is `result ≡ SAYS`.

| Law | In words | METHOD | SAYS |
|---|---|---|---|"""
MEMBER = re.compile(r"result ≡ (?P<method>⟦<.+ as \w+>⟧\.\w+) a\.now b\.now")
SAYS = {"same": "IsTrue result ↔ ", "order": "result ≡ "}

# What a row of the page begins with: its anchor, its title and its file.
TITLE = r'<a id=(?P<id>[^>]+)></a>\[`(?P<title>[^`]+)`\]\(\.\./(?P<path>[^)]+)\)'
HEAD = re.compile(rf"- {TITLE}(?:`(?P<signature>[^`]+)`)?:")
LIKE = re.compile(r" As \[`[^`]+`\]\(#([^)]+)\)(?:, with ((?:`[^`]+` for `[^`]+`(?:, )?)+))?\.")
PAIR = re.compile(r"`([^`]+)` for `([^`]+)`")
SHARED = re.compile(r" \[Shared\]\(#([^)]+)\): ((?:`\w+`(?:, )?)+)\.")
SHARED_HEAD = re.compile(r'- <a id=([^>]+)></a>Clauses that several calls')
CLAUSE = r"`(\w+)`: `([^`]+)`(?: \((.*?)\))?"
CLAUSE_ROW = re.compile(rf"  - {CLAUSE}(?: → \[.*)?$")
FIELDS_ROW = re.compile(r"  - `\w+`: ")
FIELD = re.compile(r"`(\w+)`: `([^`]+)`")
ONE_CLAUSE = re.compile(rf" Clause {CLAUSE}\.(?= \[Shared\]| Edits: | Uses: | Tests: |$)")
LAW = re.compile(rf"\| {TITLE} \| .* \| `(?P<method>[^`|]+)` \| `(?P<name>\w+)`: `(?P<says>[^`|]+)` \|")


def anchor(title):
    """By what a link finds a heading with this title."""
    return re.sub(r"[^\w\- ]", "", title.lower()).replace(" ", "-")


def shared_id(crate):
    return f"{anchor(crate)}-shared"


def clause_text(name, says, comment):
    return f"`{name}`: `{says}`" + (f" ({comment})" if comment else "")


def file_link(title, path):
    """The title of a row, which leads to its file."""
    return f"[`{title}`](../{path.relative_to(ROOT)})"


def law_row(made_id, path, law, sentence):
    """The row of a law of equality or order."""
    (name, says, _), (_, member, _) = law.item.clauses
    method = MEMBER.fullmatch(member)
    if name not in SAYS or not says.startswith(SAYS[name]) or not method:
        raise SystemExit(f"{path}::{law.title} has other clauses than the laws of equality and order")
    return (
        f'| <a id={made_id}></a>{file_link(f"{path}::{law.title}", law.source.path)} | {sentence} '
        f"| `{method['method']}` | `{name}`: `{says.removeprefix(SAYS[name])}` |"
    )


@dataclass
class Row:
    """What the page says of a call, a type or a record: its clauses or fields, and by which other call and which shared ones.

    Only a call has a signature.
    """

    title: str
    path: str
    signature: str = ""
    clauses: list = field(default_factory=list)
    like: str = ""
    pairs: list = field(default_factory=list)
    shared_at: str = ""
    shared: list = field(default_factory=list)


class Reading:
    """The page as a reader has it: its rows by their anchors and by what they are of, and the clauses that crates share."""

    def __init__(self):
        self.by_anchor, self.shared, self.text = {}, {}, PAGE.read_text()
        self.twice = [one for one, count in Counter(re.findall(r'<a id=([^>]+)>', self.text)).items() if count > 1]
        laws, row, clauses = [], None, []
        for line in self.text.splitlines():
            head, shared, law = (one.match(line) for one in (HEAD, SHARED_HEAD, LAW))
            if head:
                row = self.by_anchor[head["id"]] = row_of(head, line[head.end() :])
                clauses = row.clauses
            elif shared:
                row, clauses = None, self.shared.setdefault(shared[1], [])
            elif law:
                laws.append(row_of_law(law))
            else:
                clauses += clauses_of_line(line, row is not None and not row.signature)
        self.rows = {(row.title, row.path): row for row in [*self.by_anchor.values(), *laws]}
        self.calls = [row for row in self.rows.values() if row.signature]

    def clauses_of(self, row):
        """Each clause of a call: its name, its words, and its comment."""
        found = [(name, words(says), comment) for name, says, comment in row.clauses]
        found += [(name, words(says), why) for name, says, why in self.shared.get(row.shared_at, []) if name in row.shared]
        if row.like:
            like = self.clauses_of(self.by_anchor[row.like])
            pairs = [(tuple(words(old)), words(new)) for new, old in row.pairs]
            found += [(name, replaced(says, pairs), comment) for name, says, comment in like]
        return found


def row_of(head, rest):
    """The row of a call, a type or a record, without what is below it."""
    row = Row(head["title"], head["path"], head["signature"] or "")
    like, shared, clause = LIKE.search(rest), SHARED.search(rest), ONE_CLAUSE.search(rest)
    if like:
        row.like, row.pairs = like[1], PAIR.findall(like[2] or "")
    if shared:
        row.shared_at, row.shared = shared[1], re.findall(r"`(\w+)`", shared[2])
    if clause:
        row.clauses.append((clause[1], clause[2], clause[3] or ""))
    return row


def row_of_law(law):
    clauses = [(law["name"], SAYS[law["name"]] + law["says"], ""), ("member", f"result ≡ {law['method']} a.now b.now", "")]
    return Row(law["title"].rpartition("::")[2], law["path"], "(a, b)", clauses)


def clauses_of_line(line, is_record):
    """The clause of a line below a call, or the fields of one below a record."""
    clause = CLAUSE_ROW.match(line)
    if is_record and FIELDS_ROW.match(line):
        return [(name, says, "") for name, says in FIELD.findall(line)]
    return [(clause[1], clause[2], clause[3] or "")] if clause and not is_record else []


def public_items_of(crate):
    """What other crates can name of this one, with its file, except of other repositories."""
    for _, source in modules(root_of(crate), crate):
        yield from (found for _, found in public_items(source) if found)


def public_functions():
    """Each function that other crates can call: its name, with that of its type or trait, its file, and itself.

    It is found by the files, not by the items that tools/promises lists.
    """
    for crate in [*libraries(), *filter(is_crate, CALLERS_OWN)]:
        public = {item.name for _, item in public_items_of(crate)}
        for source in sources_of(crate):
            for holder, item in functions(source.items):
                of_trait = holder is not None and holder.kind == "trait"
                owner = (holder.name if of_trait else bare(parts(holder.head)[1])) if holder else item.name
                if (item.is_public or of_trait) and owner in public:
                    yield f"{owner}::{item.name}" if holder else item.name, str(source.path.relative_to(ROOT)), item


def clause_faults(page, title, path, item):
    """What the page says otherwise of a function than its contract."""
    row = page.rows.get((title, path))
    if row is None:
        yield f"no row of {title}"
        return
    if not is_comparison(item) and not item.signature.endswith(row.signature.removeprefix('extern "C" ')):
        yield f"{title} has another signature"
    found = page.clauses_of(row)
    for name, says, comment in item.clauses:
        same = next((one for one in found if one[:2] == (name, words(says))), None)
        if same is None:
            yield f"{title} hasn't the clause {name}: {says}"
            continue
        found.remove(same)
        if comment and comment != same[2]:
            yield f"{title} has another comment at {name}: {comment}"
    yield from (f"{title} has no clause {name} in its file: {' '.join(says)}" for name, says, _ in found)


def record_faults(page, items):
    """What the page says otherwise of the records that the clauses of these functions name."""
    says = " ".join(says for item in items for _, says, _ in item.clauses)
    for record in records_named(set(re.findall(r"\w+", says))):
        row = page.rows.get((record.name, str(record.path.relative_to(ROOT))))
        if row is None or [one[:2] for one in row.clauses] != [(name, says) for name, says, _ in record.fields]:
            yield f"no row of the record {record.name} with its fields"


def has_edit(text, edit):
    """Whether the page names the edit, with or without its crate, and the function that it changes."""
    functions = [None, *(edit.name[:at.start()] for at in re.finditer(r"\.", edit.name))]
    shown = "|".join(re.escape(edit.shown_in(crate, one)) for crate in (None, edit.crate) for one in functions)
    return re.search(rf"(?:{shown})(?!\\)", text)


def page_faults():
    """What of the sources isn't on the page, or is otherwise there: functions, clauses, records, types, edits; and counts."""
    page, found = Reading(), list(public_functions())
    faults = [fault for one in found for fault in clause_faults(page, *one)]
    faults += record_faults(page, [item for *_, item in found])
    for source, item in (one for crate in libraries() for one in public_items_of(crate)):
        if (item.name, str(source.path.relative_to(ROOT))) not in page.rows:
            faults.append(f"no row of {item.name}")
    faults += [f"two anchors {one}" for one in page.twice]
    if len(page.calls) != len(found):
        faults.append(f"{len(page.calls)} rows of functions, and there are {len(found)}")
    edits = [edit for edit, _ in all_edits()]
    faults += [f"no edit {edit}" for edit in edits if not has_edit(page.text, edit)]
    counts = len(found), sum(len(item.clauses) for *_, item in found), len(edits)
    return [f"docs/PROMISES.md: {fault}" for fault in faults], counts
