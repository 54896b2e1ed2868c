"""The crates of the repository: their files, what a `use` or a path names, and the paths that a caller can write."""
import functools
import pathlib
import re

from rattle_source import items, on_one_line, without_generics

ROOT = pathlib.Path(__file__).resolve().parent.parent
# The test that hands on each public path.
PATHS = ROOT / "crates/mysql_binding_tests/src/paths.rt"
# What a caller names, in the order in which a caller meets it.
FOR_CALLERS = ["mysql_params", "mysql_values", "mysql_wire_part", "mysql_value_core", "mysql_flat_params"]


class Source:
    """A file of a crate, with its items."""

    def __init__(self, crate, path):
        self.crate, self.path = crate, path
        self.text = path.read_text()
        self.items = items(self.text)
        self.docs = re.findall(r"^//! ?(.*)$", self.text, re.M)

    @property
    def link(self):
        return f"[{self.path.name}](../{self.path.relative_to(ROOT)})"

    def child(self, name):
        """The file of a module that this file declares."""
        folder = self.path.parent if self.path.stem in ("lib", "main") else self.path.with_suffix("")
        return source_at(self.crate, folder / f"{name}.rt")


FILES = {}


def source_at(crate, path):
    if path not in FILES:
        FILES[path] = Source(crate, path)
    return FILES[path]


def root_of(crate):
    return source_at(crate, ROOT / "crates" / crate / "src/lib.rt")


def sources_of(crate):
    return [source_at(crate, path) for path in sorted((ROOT / "crates" / crate / "src").glob("**/*.rt"))]


def is_crate(name):
    return (ROOT / "crates" / name / "src/lib.rt").is_file()


def crate_lines():
    """Each line of `crates.txt`: the name of a crate, the words before the colon, and what it stands on."""
    for line in (ROOT / "crates.txt").read_text().splitlines():
        before, found, after = line.partition(":")
        if found and not line.startswith("#"):
            yield before.split()[0], before.split()[1:], after.split()


def test_crates():
    return [name for name, _, _ in crate_lines() if name.endswith("_tests")]


def libraries():
    """The crates of the library: those for callers, then what these stand on, from the highest to the lowest."""
    rest = [name for name, _, _ in crate_lines() if is_crate(name)]
    rest = [name for name in rest if not name.startswith("shop_") and not name.endswith("_tests")]
    return [*filter(is_crate, FOR_CALLERS), *(name for name in reversed(rest) if name not in FOR_CALLERS)]


def uses(item):
    """Each path that a `use` item brings in, as a list of words."""
    text = re.sub(r"\s+", " ", item.text.removeprefix("pub ").removeprefix("use ").removesuffix(";"))
    front, _, group = text.partition("{")
    front = [word for word in front.strip().split("::") if word]
    for name in group.removesuffix("}").split(",") if group else [""]:
        if name.strip() or not group:
            yield front + [word for word in name.strip().split("::") if word]


def module(source, words):
    """The file of a module, by its path from a file; none if it is of another repository."""
    for i, word in enumerate(words):
        if word == "crate":
            source = root_of(source.crate)
        elif word == "self":
            continue
        elif any(item.kind == "mod" and item.name == word for item in source.items):
            source = source.child(word)
        elif i == 0 and is_crate(word):
            source = root_of(word)
        else:
            return None
    return source


def resolved(source, words):
    """The item that a path names, with its file; none if it is of another repository."""
    place = module(source, words[:-1])
    if place is None:
        return None
    for item in place.items:
        if item.name == words[-1] and item.kind not in ("mod", "use", "impl", "ghost"):
            return place, item
    for item in place.items:
        for path in uses(item) if item.kind == "use" else []:
            if path[-1] == words[-1] and path != words[-1:]:
                return resolved(place, path)
    return None


HANDED_ON = re.compile(r"^pub use Rattle\.(\w+)\.specs\.([\w.]+)$", re.M)
GHOST_USE = re.compile(r"ghost use Rattle\.(\w+)\.specs\.([\w.]+?)(?:\.\{(?P<names>[^}]*)\}| as (?P<alias>\w+));")


@functools.cache
def defined_in(crate, module):
    """The crate whose definitions a module has: this one, or a lower one whose module it hands on."""
    library = ROOT / "crates" / crate / "specs/Lib.antt"
    handed_on = HANDED_ON.findall(library.read_text()) if library.is_file() else []
    lower = next((lower for lower, name in handed_on if name == module), None)
    return defined_in(lower, module) if lower else crate


def definitions(source, holder):
    """The paths of the definitions that contracts name in a file, or in an `impl` or a trait of it, by their names there."""
    found = {}
    for item in [*source.items, *(holder.members if holder else [])]:
        if holder and holder.kind == "trait" and item.kind == "ghost" and item.name != "use":
            found[item.name] = f"{holder.name}.{item.name}"
        match = GHOST_USE.match(on_one_line(item.text)) if item.kind == "ghost" else None
        if match:
            path = f"{defined_in(match[1], match[2])}.{match[2]}"
            names = [name.strip() for name in (match["names"] or "").split(",") if name.strip()]
            found.update({name: f"{path}.{name}" for name in names} or {match["alias"]: path})
    return found


def public_items(source):
    """The public items of a module, with the files that they stand in, in the order of the file."""
    for item in source.items:
        if item.kind == "use" and item.is_public:
            for path in uses(item):
                yield path, resolved(source, path)
        elif item.is_public and item.kind != "mod":
            yield [item.name], (source, item)


def modules(source, path):
    """A module and those below it that are public, with their paths."""
    yield path, source
    for item in source.items:
        if item.kind == "mod" and item.is_public:
            yield from modules(source.child(item.name), f"{path}::{item.name}")


def public_paths(crate):
    for path, source in modules(root_of(crate), crate):
        for words, _ in public_items(source):
            yield f"{path}::{words[-1]}"


def functions(source_items, holder=None, kinds=("fn",)):
    """Each function of these items, with the `impl` or trait that it is a member of, if any; or each item of other kinds."""
    for item in source_items:
        if item.kind in kinds:
            yield holder, item
        elif item.kind in ("impl", "trait"):
            yield from functions(item.members, item, kinds)
        elif item.kind == "mod":
            yield from functions(item.members, holder, kinds)


def parts(head):
    """Trait and type of an impl; no trait if it has none."""
    rest = without_generics(on_one_line(head)).removeprefix("impl ")
    rest = re.sub(r" where .*$", "", rest)
    trait, found, subject = rest.partition(" for ")
    return (trait, subject) if found else ("", rest)


def bare(name):
    """The name of a type or trait without its path, its reference and its parameters."""
    match = re.match(r"(?:\w+::)*(\w+)", name.lstrip("&"))
    return match[1] if match else ""
