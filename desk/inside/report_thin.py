"""Long stories, thinned while they come: of neighbouring moments stay the first and the last, the least and the most of each value, and what is marked.
So no peak is lost, and memory does not grow with the session."""
from typing import TYPE_CHECKING

if TYPE_CHECKING:
    from .report_story import Moment

RARE = 200  # marks of a kind up to which each of them stays
AT_FIRST = 8  # moments that are neighbours
MEASURED = 6  # values whose least and most stay: those of report_story.SERIES up to the temperature


class Keeper:
    """Keeps at most so many moments. They lie in heaps of neighbours; where they become too many, each two heaps are put together and thinned."""

    def __init__(self, most: int, counts: "dict[str, int]") -> None:
        self.most = most
        self.counts = counts
        self.heaps: "list[list[Moment]]" = []
        self.taken = 0  # by the last heap, before it was thinned
        self.size = AT_FIRST
        self.kept = 0

    def add(self, moment: "Moment") -> None:
        if not self.heaps or self.taken >= self.size:
            self.heaps.append([])
            self.taken = 0
        self.heaps[-1].append(moment)
        self.taken += 1
        self.kept += 1
        if self.kept > self.most:
            self.thin()

    def thin(self) -> None:
        """Makes the heaps larger until a fifth of the room is free again."""
        while self.kept > self.most * 4 // 5 and len(self.heaps) > 1:
            odd = len(self.heaps) % 2
            self.taken += 0 if odd else self.size
            self.size *= 2
            pairs = [self.heaps[at] + self.heaps[at + 1] for at in range(0, len(self.heaps) - odd, 2)] + (self.heaps[-1:] if odd else [])
            self.heaps = [self.thinned(heap) for heap in pairs]
            self.kept = sum(map(len, self.heaps))

    def thinned(self, heap: "list[Moment]") -> "list[Moment]":
        """What stays of a heap, in its order."""
        stay = set()
        for slot in {moment.slot for moment in heap}:
            places = [at for at, moment in enumerate(heap) if moment.slot == slot]
            stay |= {places[0], places[-1]} | self.extremes(heap, places) | self.marked(heap, places)
        return [moment for at, moment in enumerate(heap) if at in stay]

    @staticmethod
    def extremes(heap: "list[Moment]", places: "list[int]") -> "set[int]":
        stay = set()
        rows = [(at, shows.numbers) for at in places for shows in [heap[at].shows] if shows is not None]
        for which in range(MEASURED):
            there = [(here, at) for at, numbers in rows for here in [numbers[which]] if here is not None]
            if there:
                stay |= {min(there)[1], max(there)[1]}
        return stay

    def marked(self, heap: "list[Moment]", places: "list[int]") -> "set[int]":
        """Marks that are rare stay all; of others the first and the last."""
        stay = set()
        for kind, count in self.counts.items():
            there = [at for at in places if any(mark.kind == kind for mark in heap[at].marks)]
            stay |= set(there if count <= RARE else there[:1] + there[-1:])
        return stay

    def moments(self) -> "list[Moment]":
        return [moment for heap in self.heaps for moment in heap]
