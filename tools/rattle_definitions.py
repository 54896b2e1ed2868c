"""The definitions of specs/: what each cites, and which ones a contract rests on.

A definition is what one name stands for: a type and its equations, a record with its fields, or data with its constructors. It
cites what its words name, unless they are bound where they stand. Definitions of the kit and declarations of the code's types
are none of these, and what only hands a definition on is not counted.
"""
import functools
import re
from dataclasses import dataclass, field

from rattle_crates import (
    ROOT,
    bare,
    crate_lines,
    defined_in,
    definitions,
    functions,
    is_crate,
    parts,
    resolved,
    root_of,
    sources_of,
)

# A string, a word with what it selects, or one sign.
TOKEN = re.compile(r'"(?:\\.|[^"\\])*"|[^\W\d][\w\'-]*(?:\.[\w\'-]+)*|\S')
IS_WORD = re.compile(r"[^\W\d]")
IMPORT = re.compile(r"(?P<pub>pub )?use Rattle\.(\w+)\.specs\.([\w.]+?)(?:\.\{(?P<names>[^}]*)\}| as (?P<alias>\w+))$")
HEAD = re.compile(r"(?:abbrev |unfoldable )?(?:pub )?(?P<kind>record |data )?(?P<name>[^\W\d][\w'-]*)")
MEMBER = re.compile(r"\s+(?:pub )?([^\W\d][\w'-]*) :(?: |$)")
PARAMETER = re.compile(r"[(,] ?(?:mut )?(\w+): ")
OPENING, CLOSING = "({[", ")}]"


def is_code(line):
    return line.strip() != "" and not line.lstrip().startswith("--")


def tokens_of(text):
    return TOKEN.findall(text)


def closing(tokens, at):
    """The index of the bracket that closes the one at this index."""
    depth = 0
    for i in range(at, len(tokens)):
        depth += (tokens[i] in OPENING) - (tokens[i] in CLOSING)
        if depth == 0:
            return i
    return len(tokens)


def binder(tokens, at):
    """The words before the colon, if the bracket at this index binds variables, as in `(a b : T)`."""
    end = at + 1
    while end < len(tokens) and IS_WORD.match(tokens[end]) and "." not in tokens[end]:
        end += 1
    return tokens[at + 1 : end] if at + 1 < end < len(tokens) and tokens[end] == ":" else []


def free_words(tokens, bound):
    """The words of these tokens that nothing binds. What a bracket or `λ` binds, it binds to the end of the brackets around."""
    bound, at, in_lambda = set(bound), 0, False
    while at < len(tokens):
        token, after = tokens[at], tokens[at + 1 : at + 2]
        if token in OPENING:
            names, end = binder(tokens, at), closing(tokens, at)
            yield from free_words(tokens[at + 1 + len(names) : end], bound)
            bound.update(names)
            at = end
        elif token == "λ":
            in_lambda = True
        elif token == ".":
            in_lambda = False
        elif IS_WORD.match(token):
            if in_lambda or tokens[at - 1 : at] == ["let"]:
                bound.add(token)
            elif after != ["="] and token.partition(".")[0] not in bound:
                yield token
        at += 1


def statements(lines):
    """The lines of each statement at the margin, without comments and blank lines."""
    found = []
    for line in filter(is_code, lines):
        if found and line[0] in " " + CLOSING:
            found[-1].append(line)
        else:
            found.append([line])
    return found


def members(statement):
    """The head of a record or of data, and the text of each field or constructor."""
    found, depth = [[]], 0
    for i, line in enumerate(statement):
        if i and depth == 0 and MEMBER.match(line):
            found.append([])
        found[-1].append(line)
        tokens = tokens_of(line)
        depth += sum((token in OPENING) - (token in CLOSING) for token in tokens)
    return [" ".join(one) for one in found]


@dataclass(eq=False)
class Definition:
    """What a name of a file stands for."""

    file: "SpecFile"
    name: str
    kind: str
    statements: list = field(default_factory=list)

    @property
    def lines(self):
        return sum(len(statement) for statement in self.statements)

    @property
    def constructors(self):
        """The names of its constructors, if it is data."""
        texts = members(self.statements[0])[1:] if self.kind == "data" else []
        return [MEMBER.match(text)[1] for text in texts]

    @functools.cached_property
    def cited(self):
        """The definitions that it cites, except itself."""
        words = [word for statement in self.statements for word in self.words_of(statement)]
        found = dict.fromkeys(self.file.find(word) for word in words)
        return [one for one in found if one not in (None, self)]

    def words_of(self, statement):
        if self.kind:
            return self.words_of_members(statement)
        tokens = tokens_of(" ".join(statement))
        if tokens[0] == self.name and tokens[1:2] != [":"]:
            return self.words_of_equation(tokens[1:])
        return free_words(tokens[tokens.index(":") + 1 :], ())

    def words_of_equation(self, tokens):
        """The constructors of the patterns, and what is free behind the `=`."""
        depth, end = 0, len(tokens)
        for i, token in enumerate(tokens):
            depth += (token in OPENING) - (token in CLOSING)
            if token == "=" and depth == 0:
                end = i
                break
        patterns = [token for token in tokens[:end] if IS_WORD.match(token)]
        named = [word for word in patterns if self.file.is_constructor(word)]
        return [*named, *free_words(tokens[end + 1 :], set(patterns) - set(named))]

    def words_of_members(self, statement):
        head, *texts = members(statement)
        tokens = tokens_of(head)
        rest = tokens[tokens.index(self.name) + 1 :]
        bound = {word for at, token in enumerate(rest) if token in OPENING for word in binder(rest, at)}
        yield from free_words(rest, ())
        for text in texts:
            name = MEMBER.match(text)[1]
            yield from free_words(tokens_of(text[MEMBER.match(text).end() :]), bound)
            bound |= {name} if self.kind == "record" else set()


class SpecFile:
    """A file of definitions."""

    def __init__(self, crate, module, path):
        self.crate, self.module, self.path = crate, module, path
        self.imported, self.aliases, self.handed_on = {}, {}, {}
        self.own, self.definitions = {}, []
        text = path.read_text().splitlines()
        self.heading = heading(text)
        for statement in statements(text):
            self.read(statement)
        for one in self.definitions:
            self.own.update(dict.fromkeys(one.constructors, one))

    def read(self, statement):
        first = statement[0]
        match = IMPORT.match(first)
        if match:
            place = match[2], match[3]
            self.aliases.update({match["alias"]: place} if match["alias"] else {})
            for name in filter(None, (match["names"] or "").split(", ")):
                old, _, new = name.partition(" as ")
                self.imported[new or old] = *place, old
                self.handed_on.update({old: (*place, old)} if match["pub"] else {})
        elif first.startswith(("use ", "pub use ")):
            if ".proofs." not in first:
                raise SystemExit(f"{self.path.relative_to(ROOT)}: an import of another form: {first}")
        else:
            head = HEAD.match(first)
            if head["name"] not in self.own:
                one = self.own[head["name"]] = Definition(self, head["name"], (head["kind"] or "").strip())
                self.definitions.append(one)
            self.own[head["name"]].statements.append(statement)

    @property
    def lines(self):
        return sum(one.lines for one in self.definitions)

    @functools.cached_property
    def rank(self):
        """Where it stands in the order of the crates, and of the modules of its crate."""
        crates = [name for name, _, _ in crate_lines()]
        modules = re.findall(r"^pub mod (\w+)$", (self.path.parent / "Lib.antt").read_text(), re.M)
        return crates.index(self.crate), modules.index(self.module)

    def find(self, word):
        """The definition that a word of this file names, if it is of the repository."""
        first, _, rest = word.partition(".")
        if first in self.aliases:
            return find(*self.aliases[first], rest.partition(".")[0]) if rest else None
        if first in self.own:
            return self.own[first]
        return find(*self.imported[first]) if first in self.imported else None

    def is_constructor(self, word):
        one, name = self.find(word), word.rpartition(".")[2]
        name = self.imported[word][2] if word in self.imported else name
        return one is not None and name in one.constructors


def heading(lines):
    """The first sentence of the comment at the head of a file."""
    comment = []
    for line in lines:
        if not line.startswith("--"):
            break
        comment.append(line[2:].strip())
    text = " ".join(comment)
    end = text.find(". ")
    return text[: end + 1] if end >= 0 else text


@functools.cache
def spec_file(crate, module):
    """A module of definitions, where it stands; none if it is of the kit or declares types."""
    crate = defined_in(crate, module)
    path = ROOT / "crates" / crate / "specs" / f"{module.replace('.', '/')}.antt"
    return SpecFile(crate, module, path) if path.is_file() else None


def find(crate, module, name):
    """The definition of this name of a module, also if the module only hands it on."""
    file = spec_file(crate, module)
    if file is None:
        return None
    if name in file.own:
        return file.own[name]
    if name in file.handed_on:
        return find(*file.handed_on[name])
    raise SystemExit(f"{file.path.relative_to(ROOT)}: no definition {name}")


class Contract:
    """The contract of a public function: its clauses, with the definitions that each cites."""

    def __init__(self, crate, title):
        self.crate, self.title = crate, title
        self.source, self.holder, self.item = function_of(crate, title)
        known = definitions(self.source, self.holder)
        bound = {"self", "result", *PARAMETER.findall(self.item.signature)}
        self.clauses = [
            (name, [one for one in dict.fromkeys(cited(says, known, bound)) if one]) for name, says, _ in self.item.clauses
        ]

    @property
    def lines(self):
        """The lines of signature and clauses, without comments."""
        return sum(line.strip() != "" and not line.strip().startswith("//") for line in self.item.head.splitlines())

    def closure(self, without=None):
        """The definitions that it rests on; those that it would rest on without this clause or definition."""
        found = [one for clause in self.clauses if clause is not without for one in clause[1] if one is not without]
        found = list(dict.fromkeys(found))
        seen = set(found)
        for one in found:
            new = [other for other in one.cited if other not in seen and other is not without]
            seen.update(new)
            found += new
        return found


def function_of(crate, title):
    """The function of this title, such as `Value::as_sql`, with its file and its `impl` or trait."""
    for source in sources_of(crate):
        for holder, item in functions(source.items):
            owner = ""
            if holder:
                owner = f"{holder.name if holder.kind == 'trait' else bare(parts(holder.head)[1])}::"
            if f"{owner}{item.name}" == title and not (holder and parts(holder.head)[0]):
                return source, holder, item
    handed_on = resolved(root_of(crate), title.split("::")) if is_crate(crate) else None
    if handed_on:
        return handed_on[0], None, handed_on[1]
    raise SystemExit(f"no function {crate}::{title}")


def cited(says, known, bound):
    """The definitions that a clause cites, by the paths of the names that its file knows."""
    for word in free_words(tokens_of(says), bound):
        first, _, rest = word.partition(".")
        path = known.get(first, "").split(".")
        if rest and len(path) > 1 and spec_file(path[0], ".".join(path[1:])):
            yield find(path[0], ".".join(path[1:]), rest.partition(".")[0])
        elif len(path) > 2:
            yield find(path[0], ".".join(path[1:-1]), path[-1])


def lines_of(some):
    return sum(one.lines for one in some)


def by_file(some):
    """The definitions by their files, each file after those that it needs, and else by its rank."""
    needed = {}
    for one in some:
        needed.setdefault(one.file, []).append(one)
    below = {file: {other.file for one in of for other in one.cited} - {file} for file, of in needed.items()}
    found = {}
    while len(found) < len(needed):
        ready = [file for file in needed if file not in found and below[file] <= found.keys()]
        if not ready:
            raise SystemExit("files of definitions that need one another")
        file = min(ready, key=lambda one: one.rank)
        found[file] = sorted(needed[file], key=file.definitions.index)
    return found
