"""Contracts that differ in a few words: how the clauses of one call follow from those of another, which clauses several calls
of a crate have, and so what is left to say of each call.
"""
import re
from collections import Counter
from dataclasses import dataclass

from rattle_crates import definitions

# A word of a clause, or one sign.
WORD = re.compile(r"[\w']+(?:\.[\w']+)*|[^\w\s]")
CLOSING = {"(": ")", "[": "]", "{": "}"}
# A type parameter with its traits.
BOUND = re.compile(r"[<,] ?([A-Z]\w*): ([^,>]+)")
# A contract follows from another one if the words that differ are few and short, and at most this share of its text.
MOST_PAIRS, LONGEST_WORDS, GREATEST_SHARE = 4, 60, 0.4
# A crate says a clause once if at least so many contracts have it word for word, and each has at least so many such clauses.
FEWEST_CALLS, FEWEST_SHARED = 4, 2


def words(text):
    return [match[0] for match in WORD.finditer(text)]


@dataclass(frozen=True)
class Part:
    """A word of a text, or a pair of brackets: the words from `begin` to `end`, and the parts between the brackets."""

    begin: int
    end: int
    inner: tuple | None


class Text:
    """A clause, with its words and its parts."""

    def __init__(self, text):
        self.text = text
        self.places = [match.span() for match in WORD.finditer(text)]
        self.words = [text[begin:end] for begin, end in self.places]
        self.parts = self.read_parts(0, None)[0]

    def read_parts(self, at, closing):
        """The parts from this word on to the closing bracket, and the index of that."""
        found = []
        while at < len(self.words) and self.words[at] != closing:
            begin, inner = at, None
            if self.words[at] in CLOSING:
                inner, at = self.read_parts(at + 1, CLOSING[self.words[at]])
            at += 1
            found.append(Part(begin, at, inner))
        return tuple(found), at

    def of(self, begin, end):
        return tuple(self.words[begin:end])

    def shown(self, begin, end):
        return self.text[self.places[begin][0] : self.places[end - 1][1]]


class Unlike(Exception):
    """Two texts that differ by more than a few words."""


class Differences:
    """Where one contract has other words than the other: each of its words once, with what the other one has for them."""

    def __init__(self, mine, theirs):
        self.mine, self.theirs = [Text(text) for text in mine], [Text(text) for text in theirs]
        # Words for which there are two texts, or that must stay elsewhere: the text around them is taken in their place.
        self.unfit = set()

    def pairs(self):
        """Each (words of theirs, words of mine); raises `Unlike` if there are none by which each clause follows."""
        while True:
            found = {}
            for mine, theirs in zip(self.mine, self.theirs):
                for old, new, shown in self.differing(mine, mine.parts, theirs, theirs.parts):
                    if found.setdefault(old, (new, shown))[0] != new:
                        self.unfit.add(old)
                        break
            pairs = [(old, new) for old, (new, _) in found.items()]
            if not self.unfit.intersection(found):
                if all(replaced(theirs.words, pairs) == mine.words for mine, theirs in zip(self.mine, self.theirs)):
                    return [shown for _, shown in found.values()]
                self.unfit.add(min(found, key=len))

    def differing(self, mine, my_parts, theirs, their_parts):
        """What differs between two rows of parts that have a part in common."""
        if len(my_parts) != len(their_parts):
            front, back = common_ends(mine, my_parts, theirs, their_parts)
            if front + back in (0, len(my_parts), len(their_parts)):
                raise Unlike
            my_rest, their_rest = my_parts[front : len(my_parts) - back], their_parts[front : len(their_parts) - back]
            return [self.whole(mine, span(my_rest), theirs, span(their_rest))]
        found, alike = [], False
        for my, their in zip(my_parts, their_parts):
            if mine.of(my.begin, my.end) == theirs.of(their.begin, their.end):
                alike = True
                continue
            try:
                if my.inner is None or their.inner is None or mine.words[my.begin] != theirs.words[their.begin]:
                    raise Unlike
                found += self.differing(mine, my.inner, theirs, their.inner)
                alike = True
            except Unlike:
                found.append(self.whole(mine, span([my]), theirs, span([their])))
        if not alike:
            raise Unlike
        return found

    def whole(self, mine, my_span, theirs, their_span):
        """These words for those, without the brackets around both."""
        old, new = theirs.of(*their_span), mine.of(*my_span)
        if old[0] == new[0] == "(" and min(len(old), len(new)) > 2 and in_brackets(old) and in_brackets(new):
            return self.whole(mine, inside(my_span), theirs, inside(their_span))
        if old in self.unfit:
            raise Unlike
        return old, new, (theirs.shown(*their_span), mine.shown(*my_span))


def common_ends(mine, my_parts, theirs, their_parts):
    """How many parts at the front and at the back are the same."""
    counts = []
    for step in (1, -1):
        count, most = 0, min(len(my_parts), len(their_parts)) - sum(counts)
        for my, their in zip(my_parts[::step], their_parts[::step]):
            if count == most or mine.of(my.begin, my.end) != theirs.of(their.begin, their.end):
                break
            count += 1
        counts.append(count)
    return counts


def span(some):
    """From the first word of these parts to the end of the last."""
    return some[0].begin, some[-1].end


def inside(one):
    return one[0] + 1, one[1] - 1


def in_brackets(some):
    """Whether the first word is a bracket that the last one closes."""
    depth = 0
    for i, word in enumerate(some):
        depth += (word in CLOSING) - (word in CLOSING.values())
        if depth == 0:
            return i == len(some) - 1
    return False


def replaced(some, pairs):
    """The words with the new ones wherever the old ones of a pair are, the longest old ones first."""
    found, at = [], 0
    by_length = sorted(pairs, key=lambda pair: -len(pair[0]))
    while at < len(some):
        fitting = (pair for pair in by_length if tuple(some[at : at + len(pair[0])]) == pair[0])
        old, new = next(fitting, (some[at : at + 1],) * 2)
        found += new
        at += len(old)
    return found


def bound_in(says):
    """The names that a clause itself binds."""
    found = [*re.findall(r"λ ([^.]*)\.(?= )", says), *re.findall(r"\(([\w' ]+) :", says)]
    return {name for names in found for name in names.split()}


class Contract:
    """What is left to say of a call's clauses: by which earlier contract they follow, with which words, and which are its own.

    `meanings` has for each clause the words that it doesn't bind, each with the path of its definition, or with the traits of the
    type that it is, if it has such.
    """

    def __init__(self, call):
        self.call, self.clauses = call, call.item.clauses
        self.names = tuple(name for name, _, _ in self.clauses)
        heads = f"{call.holder.head if call.holder else ''} {call.item.signature}"
        known = {**definitions(call.source, call.holder), **dict(BOUND.findall(heads))}
        firsts = [{word.partition(".")[0] for word in words(says)} - bound_in(says) for _, says, _ in self.clauses]
        self.meanings = [{word: known.get(word) for word in sorted(found)} for found in firsts]
        self.like, self.pairs = None, []
        self.own, self.shared = self.clauses, []

    @property
    def is_one_row(self):
        return len(self.own) < 2

    def pairs_from(self, other):
        """The pairs (old, new) of words by which the other contract becomes this one; none if they aren't few and short."""
        if any(why and why != other_why for (_, _, why), (_, _, other_why) in zip(self.clauses, other.clauses)):
            return None
        try:
            pairs = Differences([says for _, says, _ in self.clauses], [says for _, says, _ in other.clauses]).pairs()
        except Unlike:
            return None
        lengths = [len(one) for pair in pairs for one in pair]
        few = len(pairs) <= MOST_PAIRS and max(lengths, default=0) <= LONGEST_WORDS
        short = sum(lengths) <= GREATEST_SHARE * sum(len(says) for _, says, _ in self.clauses)
        return pairs if few and short and self.means_the_same(other) else None

    def means_the_same(self, other):
        """Whether each word that both contracts have is the same definition in both files."""
        mine = {word: path for found in self.meanings for word, path in found.items()}
        theirs = {word: path for found in other.meanings for word, path in found.items()}
        return all(mine[word] == theirs[word] for word in mine.keys() & theirs.keys())

    def follow(self, earlier):
        """Gives the clauses by the earlier contract that differs least, if there is one."""
        found = [(other, self.pairs_from(other)) for other in earlier if len(self.clauses) > 1]
        found = [(other, pairs) for other, pairs in found if pairs is not None]
        if found:
            self.own = []
            other, self.pairs = min(found, key=lambda one: sum(len(old) + len(new) for old, new in one[1]))
            self.like = other.call

    def share(self, common):
        """Leaves those of its own clauses to the crate that are common, with the meanings of their words; returns them."""
        taken = [one for one in self.with_meanings() if one in common] if not self.is_one_row else []
        if len(taken) < FEWEST_SHARED:
            return []
        self.shared = [name for (name, _, _), _ in taken]
        self.own = [clause for clause, meaning in self.with_meanings() if (clause, meaning) not in taken]
        return taken

    def with_meanings(self):
        return [(clause, tuple(meaning.items())) for clause, meaning in zip(self.clauses, self.meanings)]


def common_clauses(whole):
    """The clauses that several contracts have word for word, with the meanings of these; of each name at most one."""
    counts, by_name = Counter(one for contract in whole if not contract.is_one_row for one in contract.with_meanings()), {}
    for one, count in counts.most_common():
        if count >= FEWEST_CALLS:
            by_name.setdefault(one[0][0], one)
    return list(by_name.values())


def contracts(crates):
    """Of the calls of each crate the contract of each call by its key, and the clauses that each crate says once."""
    found, shared, earlier = {}, {}, {}
    for crate, calls in crates.items():
        whole = []
        for call in calls:
            contract = found[call.key] = Contract(call)
            contract.follow(earlier.get(contract.names, []))
            if contract.like is None:
                earlier.setdefault(contract.names, []).append(contract)
                whole.append(contract)
        common = common_clauses(whole)
        used = [one for contract in whole for one in contract.share(common)]
        shared[crate] = [one[0] for one in common if one in used]
    return found, shared
