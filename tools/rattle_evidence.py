"""What shows that a call keeps its promises: the must-fail edits that turn it and the tests that call it, both found by name.

An edit turns the function that its `old:` stands in, or the type. It is shown at the nearest functions that the page lists:
a private function's edits at those that call it, directly or through other private functions of its crate.
"""
import re
from dataclasses import dataclass

from rattle_crates import PATHS, ROOT, bare, functions, libraries, module, parts, resolved, source_at, sources_of, uses
from rattle_source import INDENT

# The names in a body: what is called, what stands after `::` or a dot, what is handed on as it is, types and constants.
NAME = re.compile(r"(?<=::)\w+|(?<=\.)\w+|\b\w+(?=\(|::)|(?<=\()\w+(?=[,)])|(?<=, )\w+(?=[,)])|\b[A-Z]\w*")
# A name after `::`, or after a dot if it is called; with its `()` if it is called without arguments.
MEMBER = re.compile(r"::(\w+(?:\(\))?)|\.(\w+(?:\(\)|(?=\()))")
# A name after `::`, with the name before.
OF_TYPE = re.compile(r"\b(\w+(?:::<[^<>]*>)?::\w+)")
SELF = re.compile(r"\(\s*(?:&\s*(?:'\w+\s+)?)?(?:mut\s+)?self\b\s*(,?\s*\))?")


def names_in(item):
    """The names in the body of a function. Those after a dot or `::` are there again, with a dot or the name before them."""
    body = item.text.removeprefix(item.head)
    members = (f".{path or method}" for path, method in MEMBER.findall(body))
    return {*NAME.findall(body), *members, *(re.sub(r"::<[^<>]*>", "", name) for name in OF_TYPE.findall(body))}


def may_call(words, holder, item):
    """Whether one of these names of a body may call this function: `text.len()` is no call of a `len` that takes a value,
    and `Vec::new` none of another type's `new`."""
    method = SELF.search(item.head)
    if not method:
        trait, subject = parts(holder.head) if holder and holder.kind == "impl" else ("", "")
        of_type = subject and not trait
        return any(f"{name}::{item.name}" in words for name in (bare(subject), "Self")) if of_type else item.name in words
    return f".{item.name}" in words or (method[1] is not None and f".{item.name}()" in words)


@dataclass(frozen=True)
class Edit:
    """A wrong body of the crate, which the gate tries, or `tools/must-fail-apart` does."""

    crate: str
    name: str
    is_apart: bool

    def __str__(self):
        """Its name as the page has it. A bare asterisk would begin or end emphasis."""
        return self.shown_in(None)

    def shown_in(self, crate, function=None):
        """The same in a row of this crate, whose own edits lack its name there, and the name of the function that they
        change, for the page's bytes."""
        name = self.name if crate == self.crate else f"{self.crate}/{self.name}"
        if function and name.startswith(f"{function}."):
            name = name.removeprefix(function)
        return f"`{name}`" + ("\\*" if self.is_apart else "")


def all_edits():
    """Each edit, with its path."""
    for path in sorted(ROOT.glob("crates/*/must-fail*/*.edit")):
        yield Edit(path.parent.parent.name, path.stem, path.parent.name == "must-fail-apart"), path


def changes(path):
    """Each file that an edit changes, if it is there, with the text that it replaces."""
    file = None
    for line in path.read_text().splitlines():
        word, _, text = line.partition(": ")
        if word == "file":
            file = path.parent.parent / text
        elif word == "old" and file.is_file():
            yield file, text


def functions_with(source, text):
    """The functions and constants of a file that have this text, which begins with the blanks of its line in the file."""
    for holder, item in functions(source.items, kinds=("fn", "const", "static")):
        margin = INDENT if holder else ""
        # A constant of an `impl` is told by its type.
        if not (holder and item.kind == "const") and text in "\n".join(margin + line for line in item.lines):
            yield holder, item


def types_with(source, text):
    """The names of the types whose item, attributes or impl has the text."""
    for item in source.items:
        if item.kind == "use" or text.strip() not in "\n".join([*item.attributes, item.text]):
            continue
        if item.kind == "impl":
            yield bare(parts(item.head)[1])
        elif item.kind in ("struct", "enum", "trait"):
            yield item.name
        else:
            yield from re.findall(r"\bimpl (\w+)", item.text)


def key_of(source, holder, item):
    """What tells a function from every other one."""
    return source.path, holder.head if holder else "", item.name


def imported(source):
    """The file and the name of each item that a file imports, by itself or with its module."""
    for path in (path for item in source.items if item.kind == "use" for path in uses(item)):
        whole, named = module(source, path), resolved(source, path)
        if whole:
            yield from ((whole, item.name) for item in whole.items)
        elif named:
            yield named[0], named[1].name


def importers():
    """The files that import an item of another crate, by the item's file and name."""
    found = {}
    for source in (source for crate in libraries() for source in sources_of(crate)):
        for place, name in imported(source):
            if place.crate != source.crate:
                found.setdefault((place.path, name), []).append(source)
    return found


class Edits:
    """The edits by the calls and the types that they turn.

    `calls` are the keys of the calls that the page lists, `trait_calls` those of the members of listed traits by the names of
    trait and member, `types` the names of listed types. `of_call` has for a call what its edits change (nothing for its own
    body) and the edits, `of_type` has the edits of a type, and `elsewhere` those that turn neither.
    """

    def __init__(self, calls, trait_calls, types):
        self.calls, self.trait_calls, self.types = calls, trait_calls, types
        self.of_call, self.of_type, self.elsewhere = {}, {}, []
        self.bodies, self.importers = {}, importers()
        for edit, path in all_edits():
            turned = [self.turn(edit, source_at(edit.crate, file), text) for file, text in changes(path)]
            if not any(turned):
                self.elsewhere.append(edit)

    def turn(self, edit, source, text):
        """Notes what the edit turns by replacing this text; whether that is anything."""
        turned = list(functions_with(source, text))
        if turned:
            return any([self.note_function(edit, source, *one) for one in turned])
        types = [name for name in types_with(source, text) if name in self.types]
        for name in types:
            self.note_type(name, edit)
        return bool(types)

    def note_function(self, edit, source, holder, item):
        """Notes an edit of a function at the nearest calls or types of the page; whether there is any."""
        calls, types = self.nearest([(source, holder, item)])
        for key in calls:
            if key == key_of(source, holder, item):
                label = ""
            elif holder and self.trait_calls.get((bare(parts(holder.head)[0]), item.name)) == key:
                label = f"for `{parts(holder.head)[1]}`: "
            else:
                label = f"in `{item.name}`: "
            self.of_call.setdefault(key, {}).setdefault(label, {})[edit] = True
        for name in types:
            self.note_type(name, edit)
        return bool(calls or types)

    def note_type(self, name, edit):
        self.of_type.setdefault(name, {})[edit] = True

    def above(self, source, holder, item):
        """The calls that stand on a call, by themselves or by functions that are no calls."""
        return self.nearest(self.users((source, holder, item)))[0]

    def nearest(self, waiting):
        """The calls and the types that functions belong to: themselves, or those that use them."""
        calls, types, seen = {}, {}, set()
        while waiting:
            one = waiting.pop(0)
            call, name = self.listed(*one)
            if call:
                calls[call] = True
            elif name:
                types[name] = True
            else:
                waiting += [user for user in self.users(one) if key_of(*user) not in seen]
            seen.update(key_of(*user) for user in [one, *waiting])
        return list(calls), list(types)

    def listed(self, source, holder, item):
        """The call of the page that a function is or implements, and else the type for which it implements a trait of std."""
        key = key_of(source, holder, item)
        if key in self.calls:
            return key, None
        trait, subject = parts(holder.head) if holder and holder.kind == "impl" else ("", "")
        call = self.trait_calls.get((bare(trait), item.name))
        names = [bare(subject), *re.findall(r"\w+", trait)[1:]] if trait else []
        return call, next((name for name in names if name in self.types), None)

    def users(self, one):
        """The functions whose bodies name this one: of its crate, and of the files that import it."""
        source, holder, item = one
        files = [*sources_of(source.crate), *self.importers.get((source.path, item.name), [])]
        users = [user for file in files for user, words in self.named_in(file) if may_call(words, holder, item)]
        return [user for user in users if key_of(*user) != key_of(*one)]

    def named_in(self, source):
        """Each function of a file, with the words of its body."""
        if source.path not in self.bodies:
            self.bodies[source.path] = [
                ((source, holder, item), names_in(item)) for holder, item in functions(source.items)
            ]
        return self.bodies[source.path]


@dataclass
class Test:
    """A test, with the words that it and the functions of its crate that it uses have, each with how many calls lead to it."""

    crate: str
    path: str
    depths: dict
    # The names of its crate's own functions.
    own: set

    def depth(self, name, crate):
        """How many calls lead from the test to the function of this name of this crate; none if it isn't called."""
        return self.depths.get(name) if name not in self.own or crate == self.crate else None


def tests_of(crate):
    """The tests of a crate, without the one that only hands on the public paths."""
    bodies, own, found = {}, set(), []
    for source in sources_of(crate):
        path = "::".join(source.path.relative_to(ROOT / "crates" / crate / "src").with_suffix("").parts)
        for holder, item in functions(source.items):
            words = {name for name in names_in(item) if name[0] != "."}
            bodies.setdefault(item.name, {}).setdefault(source.path, set()).update(words)
            if holder is None:
                own.add(item.name)
            if "#[test]" in item.attributes and source.path != PATHS:
                found.append((f"{crate}::{path}::{item.name}", source.path, item.name))
    for path, file, name in found:
        yield Test(crate, path, depths_from(bodies, file, name), own)


def depths_from(bodies, file, name):
    """How many calls lead from a function of a file to each name. A name is of its own file if it has one, else of any."""
    depths, seen, layer, depth = {}, set(), {(file, name)}, 0
    while layer:
        seen |= layer
        named = {(file, word) for file, name in layer for word in bodies[name][file]}
        for _, word in named:
            depths.setdefault(word, depth)
        layer, depth = {one for file, word in named for one in places_of(bodies, file, word)} - seen, depth + 1
    return depths


def places_of(bodies, file, name):
    """The functions that a name in a file may be: that of the file, and else each of the crate."""
    places = bodies.get(name, {})
    return [(file, name)] if file in places else [(other, name) for other in places]


class Tests:
    """The tests of some crates, by the names that they reach."""

    def __init__(self, crates):
        self.tests = [test for crate in crates for test in tests_of(crate)]

    def of(self, crate, names):
        """The paths of the tests that name all of these, a function of a crate and maybe its type, the most direct first."""
        found = []
        for test in self.tests:
            depths = [test.depth(name, crate) for name in names]
            if None not in depths:
                found.append((max(depths), test.path))
        return [path for _, path in sorted(found, key=lambda one: one[0])]
