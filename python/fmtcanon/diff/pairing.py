"""Pairs the places of an old source with those of a new one.

Lines that are equal are paired first, and between them lines that are equal except for their literals. Then places of
the same call are paired by their text and by what follows, and then by how much they are alike. What is left of the
whole file is paired once more, since code moves.
"""

import bisect
import collections
import difflib
import itertools
import re
from typing import AbstractSet, Callable, Dict, Hashable, Iterator, List, NamedTuple, Optional, Sequence, Tuple

from ..models import Model
from ..source.places import Place, Source

# A line that has no name but `else`, and no literal, says nothing of where it is from.
WORDS = re.compile(rb"(?!else\b)\b[A-Za-z_]\w")
# What follows a place tells nothing without a name.
ARGUMENT = re.compile(rb"[A-Za-z_]")
# Words that tell which place it is, even in another call.
TELLING = re.compile(rb"[A-Za-z]{3}")
# How many comparisons difflib may make of two sequences, how many pairs of places are tried, and the longest texts.
MANY, MANY_PAIRS, LONG_TEXT = 250_000, 4_000, 4_000
# How alike two texts must be: less if what follows them is equal.
ALIKE, ALIKE_IN_PLACE = 0.6, 0.4

# What equal places are paired by, one after the other.
KEYS: List[Callable[[Place], Hashable]] = [
    lambda it: (it.call, it.key, it.rest),
    lambda it: (it.call, it.words, it.rest),
    lambda it: (it.call, it.words),
]
Pair = Tuple[Place, Place]
Block = Tuple[int, int, int]
Range = Tuple[int, int, int, int]


class Pairing(NamedTuple):
    """The pairs of places that changed, in the order of the new source, and the places that came and went."""

    changed: List[Pair]
    added: Sequence[Place]
    removed: Sequence[Place]

    @property
    def came(self) -> int:
        return len(self.added)

    @property
    def went(self) -> int:
        return len(self.removed)


def common(first: Sequence[Hashable], second: Sequence[Hashable], span: Range) -> Range:
    """Returns what is left of two ranges without the front and the back that they share."""
    a0, a1, b0, b1 = span
    while a0 < a1 and b0 < b1 and first[a0] == second[b0]:
        a0, b0 = a0 + 1, b0 + 1
    while a0 < a1 and b0 < b1 and first[a1 - 1] == second[b1 - 1]:
        a1, b1 = a1 - 1, b1 - 1
    return a0, a1, b0, b1


def anchors(
    first: Sequence[Hashable], second: Sequence[Hashable], span: Range, twice: AbstractSet[Hashable] = frozenset()
) -> List[Tuple[int, int]]:
    """Returns the longest list, in order, of items that occur once in each of two ranges. Some items count twice."""
    a0, a1, b0, b1 = span
    counts = [collections.Counter(first[a0:a1]), collections.Counter(second[b0:b1])]
    once = {key for key, count in counts[0].items() if count == 1 and counts[1].get(key) == 1}
    if not once:
        return []
    places = {second[at]: at for at in range(b0, b1) if second[at] in once}
    pairs = [(at, places[first[at]]) for at in range(a0, a1) if first[at] in once]
    # An item that counts twice is two items side by side.
    listed = [(index, 2 * b + half) for index, (a, b) in enumerate(pairs) for half in range(1 + (first[a] in twice))]
    # The longest increasing list: the last item of the best list of each length, and what comes before each item.
    ends: List[int] = []
    last: List[int] = []
    before: List[int] = []
    for number, (_, at) in enumerate(listed):
        length = bisect.bisect_left(ends, at)
        before.append(last[length - 1] if length else -1)
        ends[length : length + 1], last[length : length + 1] = [at], [number]
    found = set()
    number = last[-1]
    while number >= 0:
        found.add(listed[number][0])
        number = before[number]
    return [pairs[it] for it in sorted(found)]


def matching(
    first: Sequence[Hashable], second: Sequence[Hashable], twice: AbstractSet[Hashable] = frozenset()
) -> List[Block]:
    """Returns blocks of equal items in order, as `difflib` does, in less time if most items are equal or occur once."""
    found: List[Block] = []
    spans = [(0, len(first), 0, len(second))]
    while spans:
        span = spans.pop()
        inner = common(first, second, span)
        found.append((span[0], span[2], inner[0] - span[0]))
        found.append((inner[1], inner[3], span[1] - inner[1]))
        a0, a1, b0, b1 = inner
        if a0 == a1 or b0 == b1:
            continue
        pairs = anchors(first, second, inner, twice)
        if pairs:
            ends = [*pairs, (a1, b1)]
            found += [(a, b, 1) for a, b in pairs]
            for (a, b), (c, d) in zip([(a0 - 1, b0 - 1), *pairs], ends):
                spans.append((a + 1, c, b + 1, d))
        elif (a1 - a0) * (b1 - b0) <= MANY and not set(first[a0:a1]).isdisjoint(second[b0:b1]):
            matcher = difflib.SequenceMatcher(None, first[a0:a1], second[b0:b1], autojunk=False)
            found += [(a + a0, b + b0, size) for a, b, size in matcher.get_matching_blocks()]
    return sorted(it for it in found if it[2])


def gaps(blocks: Sequence[Block], first: int, second: int) -> Iterator[Range]:
    """Yields the ranges between blocks of two sequences of these lengths, unless both are empty."""
    a0 = b0 = 0
    for a, b, size in [*blocks, (first, second, 0)]:
        if a > a0 or b > b0:
            yield a0, a, b0, b
        a0, b0 = a + size, b + size


class Rows:
    """The lines of a source, stripped, and the places of each. The lines of one place are one."""

    def __init__(self, source: Source) -> None:
        whole = source.plain.split(b"\n")
        lines = [it.strip() for it in whole]
        self.source = source
        self.places: Dict[int, List[Place]] = {}
        self.starts: List[int] = []
        if source.places:
            self.starts = starts = list(itertools.accumulate((len(it) + 1 for it in whole), initial=0))
            for place in source.places:
                first = bisect.bisect_right(starts, place.start) - 1
                self.places.setdefault(first, []).append(place)
                last = bisect.bisect_right(starts, max(place.end - 1, place.start)) - 1
                if last > first:
                    lines[first] = b"\n".join(lines[first : last + 1])
                    lines[first + 1 : last + 1] = [b""] * (last - first)
        self.lines = lines

    def telling(self, start: int, end: int) -> List[int]:
        """Returns the lines of a range that say something of where they are from."""
        return [at for at in range(start, end) if at in self.places or WORDS.search(self.lines[at])]

    def frame(self, line: int) -> bytes:
        """Returns a line without its places and without white space."""
        if line not in self.places:
            return self.lines[line]
        pieces, done = [], self.starts[line]
        for place in self.places[line]:
            pieces.append(self.source.plain[done : place.start])
            done = place.end
        end = self.source.plain.find(b"\n", done)
        pieces.append(self.source.plain[done : len(self.source.plain) if end < 0 else end])
        return b"".join(b'"'.join(pieces).split())

    def places_in(self, lines: Sequence[int]) -> List[Place]:
        return [place for at in lines for place in self.places.get(at, ())]


def paired(old: Source, new: Source) -> Pairing:
    """Pairs the places of two sources."""
    first, second = Rows(old.read()), Rows(new.read())
    whole = (0, len(first.lines), 0, len(second.lines))
    a0, a1, b0, b1 = common(first.lines, second.lines, whole)
    kept = [first.telling(a0, a1), second.telling(b0, b1)]
    keys = [[first.lines[at] for at in kept[0]], [second.lines[at] for at in kept[1]]]
    # Code stays where it is more often than a literal does.
    code = {rows.lines[at] for rows, lines in zip((first, second), kept) for at in lines if at not in rows.places}
    blocks = matching(keys[0], keys[1], code)
    pairs: List[Pair] = []
    left: Tuple[List[Place], List[Place]] = ([], [])
    for a, b, c, d in gaps(blocks, len(keys[0]), len(keys[1])):
        before, after = first.places_in(kept[0][a:b]), second.places_in(kept[1][c:d])
        found: List[Pair] = []
        if before and after:
            found += in_frames(first, second, kept[0][a:b], kept[1][c:d])
            found += aligned(*without(found, before, after))
        pairs += found
        for side, rest in zip(left, without(found, before, after)):
            side += rest
    found = moved(*left)
    removed, added = without(found, *left)
    pairs += found
    is_redefined = old.macros != new.macros
    if is_redefined:
        equal = [(kept[0][a + at], kept[1][b + at]) for a, b, size in blocks for at in range(size)]
        equal += zip([*range(a0), *range(a1, whole[1])], [*range(b0), *range(b1, whole[3])])
        pairs += [it for a, b in equal for it in zip(first.places.get(a, ()), second.places.get(b, ()))]
    changed = [it for it in pairs if it[0].parts != it[1].parts or (is_redefined and depends(*it))]
    changed.sort(key=lambda it: it[1].start)
    return Pairing(changed, added, removed)


def depends(old: Place, new: Place) -> bool:
    """Returns whether the text of a place changed since a macro did. Of a macro alone, its definition tells."""
    kinds = {it.kind for it in new.parts}
    return "name" in kinds and len(kinds) > 1 and any(old.text(it) != new.text(it) for it in Model)


def in_frames(first: Rows, second: Rows, old: Sequence[int], new: Sequence[int]) -> List[Pair]:
    """Pairs the places of lines that are equal except for their literals, if arguments follow.

    Of as many old lines as new ones, each is compared with its own. Otherwise such a line must occur once.
    """
    frames = [[rows.frame(it) for it in lines] for rows, lines in ((first, old), (second, new))]
    if len(old) == len(new):
        equal = [(at, at) for at in range(len(old)) if frames[0][at] == frames[1][at]]
    else:
        equal = anchors(frames[0], frames[1], (0, len(old), 0, len(new)))
    pairs: List[Pair] = []
    for one, other in equal:
        places = first.places.get(old[one], []), second.places.get(new[other], [])
        if len(places[0]) == len(places[1]):
            pairs += [it for it in zip(*places) if ARGUMENT.search(it[1].rest) and is_in_place(it[0].rest, it[1].rest)]
    return pairs


def aligned(old: List[Place], new: List[Place]) -> List[Pair]:
    """Pairs the places of two ranges of lines, in order: by their words and what follows, and then by their words."""
    pairs: List[Pair] = []
    spans: List[Range] = [(0, len(old), 0, len(new))]
    for key in KEYS:
        wider, spans = spans, []
        for a0, a1, b0, b1 in wider:
            blocks = matching([key(it) for it in old[a0:a1]], [key(it) for it in new[b0:b1]])
            for a, b, size in blocks:
                pairs += zip(old[a0 + a : a0 + a + size], new[b0 + b : b0 + b + size])
            spans += [
                (a0 + a, a0 + b, b0 + c, b0 + d) for a, b, c, d in gaps(blocks, a1 - a0, b1 - b0) if a < b and c < d
            ]
    for a0, a1, b0, b1 in spans:
        pairs += best_pairs(old[a0:a1], new[b0:b1])
    return pairs


def best_pairs(old: List[Place], new: List[Place]) -> List[Pair]:
    """Returns the pairs, in order, with the largest sum of likeness; none if there are too many to try."""
    if len(old) == len(new) == 1 and old[0].call == new[0].call and is_in_place(old[0].rest, new[0].rest):
        return [(old[0], new[0])]
    if len(old) * len(new) > MANY_PAIRS:
        return []
    alike = likenesses(old, new)
    best = [[0.0] * (len(new) + 1) for _ in range(len(old) + 1)]
    for i in range(len(old) - 1, -1, -1):
        for j in range(len(new) - 1, -1, -1):
            here = alike[i][j] + best[i + 1][j + 1] if alike[i][j] else 0.0
            best[i][j] = max(here, best[i + 1][j], best[i][j + 1])
    pairs = []
    i = j = 0
    while i < len(old) and j < len(new):
        if alike[i][j] and best[i][j] == alike[i][j] + best[i + 1][j + 1]:
            pairs.append((old[i], new[j]))
            i, j = i + 1, j + 1
        elif best[i][j] == best[i + 1][j]:
            i += 1
        else:
            j += 1
    return pairs


def likenesses(old: List[Place], new: List[Place]) -> List[List[float]]:
    """Returns how much each old place and each new one seem to be one place: 0 if they are in other calls."""
    found = [[0.0] * len(new) for _ in old]
    matcher: "difflib.SequenceMatcher[int]" = difflib.SequenceMatcher(None, b"", b"", False)
    first = [(it.call, it.words, it.rest) for it in old]
    for j, place in enumerate(new):
        call, words, rest = place.call, place.words, place.rest
        is_set = False
        for i, (other, text, following) in enumerate(first):
            if other != call:
                continue
            if not is_set and len(words) <= LONG_TEXT:
                matcher.set_seq2(words)
                is_set = True
            found[i][j] = likeness(matcher, text, words, is_in_place(following, rest))
    return found


def is_in_place(old: bytes, new: bytes) -> bool:
    """Returns whether what follows two places is equal, except for arguments that come last."""
    shorter, longer = sorted((old.rstrip(b")"), new.rstrip(b")")), key=len)
    return old == new or (len(shorter) > 1 and longer.startswith(shorter))


def likeness(matcher: "difflib.SequenceMatcher[int]", old: bytes, new: bytes, is_placed: bool) -> float:
    """Returns how alike two texts are, or 0 if they are too unlike. The matcher has the second."""
    if old == new:
        return 2.0 + is_placed
    # A ratio takes the square of the length.
    if len(old) + len(new) > LONG_TEXT:
        return float(old[:100] == new[:100] or old[-100:] == new[-100:])
    least = ALIKE_IN_PLACE if is_placed else ALIKE
    matcher.set_seq1(old)
    if matcher.real_quick_ratio() < least or matcher.quick_ratio() < least:
        return 0.0
    ratio = matcher.ratio()
    return ratio + 0.5 * is_placed if ratio >= least else 0.0


def moved(old: List[Place], new: List[Place]) -> List[Pair]:
    """Pairs what is left over of all lines.

    First what is equal in the same call, in any order; then what is alike, in order; and then what has the same words
    in another call.
    """
    by_key: Dict[Hashable, "collections.deque[Place]"] = collections.defaultdict(collections.deque)
    for place in new:
        by_key[place.call, place.key].append(place)
    pairs = []
    for place in old:
        waiting = by_key.get((place.call, place.key))
        if waiting:
            pairs.append((place, waiting.popleft()))
    pairs += aligned(*without(pairs, old, new))
    return pairs + in_other_calls(*without(pairs, old, new))


def without(pairs: Sequence[Pair], old: Sequence[Place], new: Sequence[Place]) -> Tuple[List[Place], List[Place]]:
    """Returns the places of each side that are in no pair."""
    taken = {id(it) for pair in pairs for it in pair}
    return [it for it in old if id(it) not in taken], [it for it in new if id(it) not in taken]


def in_other_calls(old: Sequence[Place], new: Sequence[Place]) -> List[Pair]:
    """Pairs places that have the same words, if no others have them, and if the words tell something."""
    sides: List[Dict[bytes, List[Place]]] = [collections.defaultdict(list), collections.defaultdict(list)]
    for side, places in zip(sides, (old, new)):
        for place in places:
            if TELLING.search(place.words):
                side[place.words].append(place)
    return [
        (one[0], sides[1][words][0]) for words, one in sides[0].items() if len(one) == len(sides[1].get(words, ())) == 1
    ]
