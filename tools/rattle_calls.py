"""What docs/PROMISES.md lists: the public items of the crates, the calls among them, and what shows their promises."""
import re
from dataclasses import dataclass

from rattle_crates import (
    FOR_CALLERS,
    ROOT,
    Source,
    bare,
    crate_lines,
    is_crate,
    libraries,
    modules,
    parts,
    public_items,
    root_of,
    sources_of,
    test_crates,
)
from rattle_evidence import Edits, Tests, key_of
from rattle_source import Item, on_one_line

CALLERS_OWN = [name for name, _, _ in crate_lines() if name.startswith("shop_")]
ARCHIVES = [name for name, words, _ in crate_lines() if "staticlib" in words]


@dataclass(frozen=True)
class Call:
    """A function that a caller calls, in its file, with the `impl` or trait that it is a member of and the name of its type."""

    source: Source
    holder: Item | None
    item: Item
    owner: str

    @property
    def key(self):
        return key_of(self.source, self.holder, self.item)

    @property
    def title(self):
        return f"{self.owner}::{self.item.name}" if self.owner else self.item.name

    @property
    def signature(self):
        """The signature without `pub fn` and the name."""
        before, _, after = self.item.signature.removeprefix("pub ").partition(f"fn {self.item.name}")
        return before + after

    @property
    def is_law(self):
        """Whether it is called only for its contract."""
        return "laws" in self.source.path.relative_to(ROOT).with_suffix("").parts


def listed_items():
    """Each public item once: its crate, the module that it is listed under, its file and itself."""
    seen = set()
    for crate in [*libraries(), *filter(is_crate, CALLERS_OWN)]:
        for path, source in modules(root_of(crate), crate):
            for words, found in public_items(source):
                if found is None:
                    if words[0] in ("crate", "self") or is_crate(words[0]):
                        raise SystemExit(f"{path} hands on {'::'.join(words)}, which isn't there")
                    continue
                key = (found[0].path, found[1].name)
                if key not in seen:
                    seen.add(key)
                    yield crate, path, *found


def is_comparison(item):
    """Whether it is a law of equality or order."""
    return item.kind == "fn" and re.search(r"(?:equality|order)$", item.name) is not None


def compared(law):
    """The type whose equality or order a law states."""
    match = re.search(r"\(a: &((?:\w+::)*\w+)", law.signature)
    return bare(match[1]) if match else ""


class Listing:
    """What the page lists, with what shows it.

    `modules` has the items of each module, with their files, by crate and path. `laws` has the laws of equality and order by
    the type that they compare, with their modules and files. `calls` has every call by its key; those `below` are for the
    crates above, and no caller names them. `uses` has for a call those below whose edits turn it too, by their titles.
    """

    def __init__(self):
        self.impls = [
            (on_one_line(item.head), source, item)
            for crate in [*libraries(), *CALLERS_OWN]
            for source in sources_of(crate)
            for item in source.items
            if item.kind == "impl"
        ]
        self.modules, self.laws, self.calls, self.below, trait_calls, types = {}, {}, {}, set(), {}, set()
        for crate, path, source, item in listed_items():
            calls = {call.key: call for call in self.calls_of(source, item)}
            self.calls.update(calls)
            if crate not in [*FOR_CALLERS, *ARCHIVES, *CALLERS_OWN]:
                self.below.update(calls)
            if item.kind == "trait":
                trait_calls.update({(item.name, call.item.name): call.key for call in calls.values()})
            if item.kind in ("struct", "enum", "trait"):
                types.add(item.name)
            if is_comparison(item):
                self.laws.setdefault(compared(item), []).append((path, Call(source, None, item, "")))
            else:
                self.modules.setdefault(crate, {}).setdefault(path, []).append((source, item))
        self.edits = Edits(self.calls, trait_calls, types)
        self.tests = Tests([*test_crates(), *CALLERS_OWN])
        self.uses = {}
        for call in self.calls.values():
            if call.key in self.below and call.key in self.edits.of_call:
                for key in self.edits.above(call.source, call.holder, call.item):
                    self.uses.setdefault(key, {})[call.title] = call

    def calls_of(self, source, item):
        """The calls of an item: itself, the members of a trait, or the public functions of a type."""
        if item.kind == "fn":
            yield Call(source, None, item, "")
        elif item.kind == "trait":
            yield from (Call(source, item, member, item.name) for member in item.members if member.kind == "fn")
        elif item.kind in ("struct", "enum"):
            for head, place, impl in self.impls:
                if parts(head)[0] == "" and bare(parts(head)[1]) == item.name:
                    members = (member for member in impl.members if member.kind == "fn" and member.is_public)
                    yield from (Call(place, impl, member, item.name) for member in members)

    def tests_of(self, call):
        """The tests of a call; those of an archive's exports are in other languages."""
        if call.source.crate not in ARCHIVES:
            of_type = call.holder is not None and call.holder.kind == "impl"
            return self.tests.of(call.source.crate, [call.item.name, *([call.owner] if of_type else [])])
        files = sorted(path for path in (ROOT / "bindings").glob("**/*test*") if path.is_file())
        return [str(path.relative_to(ROOT)) for path in files if call.item.name in path.read_text(errors="ignore")]

    def faults(self):
        """The edits that turn nothing of the page, and the calls of users that no test calls."""
        for edit in self.edits.elsewhere:
            yield f"{edit} turns no call and no type of the page"
        for call in self.calls.values():
            if not call.is_law and call.key not in self.below and not self.tests_of(call):
                yield f"no test calls {call.title} of {call.source.crate}"
