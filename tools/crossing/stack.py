"""The most stack that a program takes, from the depths of its functions and from who calls whom."""
import sys
from collections.abc import Iterable, Iterator
from dataclasses import dataclass, field

from .depths import Code, Function

DEEP = 100_000


@dataclass
class Bound:
    """What a function takes with all that it calls, below where its caller had the stack."""
    octets: int
    through: int | None = None
    """The function that it calls where it is deepest."""


@dataclass
class Calls:
    """The functions of a program with what each takes."""
    code: Code
    functions: dict[int, Function]
    rounds: dict[int, frozenset[int]] = field(default_factory=dict)
    """Of a function that calls itself through others, all of these."""
    bounds: dict[int, Bound] = field(default_factory=dict)

    def __post_init__(self) -> None:
        limit = sys.getrecursionlimit()
        sys.setrecursionlimit(DEEP)
        try:
            for group in groups({start: set(self.called(start)) for start in self.functions}):
                self.bound(group)
        finally:
            sys.setrecursionlimit(limit)

    def called(self, start: int) -> Iterator[int]:
        """The functions of this program that a function calls."""
        return (target for target, _ in self.functions[start].calls if target in self.functions)

    def frame(self, start: int) -> int:
        """The octets of a function itself, with those for where it comes back to."""
        return self.functions[start].deepest + self.code.processor.returns

    def bound(self, group: frozenset[int]) -> None:
        """Puts down what functions take, those that they call known. Of those that call one another it counts each once."""
        is_round = len(group) > 1 or any(start in self.called(start) for start in group)
        beside = sum(map(self.frame, group)) if is_round else 0
        for start in group:
            most = Bound(self.functions[start].deepest)
            for (target, comes_back), depth in self.functions[start].calls.items():
                if target in self.functions and target not in group:
                    taken = depth + self.bounds[target].octets + (self.code.processor.returns if comes_back else 0)
                    most = Bound(taken, target) if taken > most.octets else most
            self.bounds[start] = most
        if is_round:
            most = max((self.bounds[start] for start in group), key=lambda it: it.octets)
            for start in group:
                self.rounds[start] = group
                self.bounds[start] = Bound(beside + most.octets, most.through)

    def below(self, start: int) -> set[int]:
        """A function, and all that it calls."""
        found, left = set(), [start]
        while left:
            at = left.pop()
            if at not in found:
                found.add(at)
                left += self.called(at)
        return found

    def chain(self, start: int | None) -> Iterator[int]:
        """The functions where a function is deepest, from it on down."""
        while start is not None:
            yield start
            start = self.bounds[start].through

    def uncalled(self) -> list[int]:
        """The functions that no function calls by its place, the deepest first."""
        called = {target for start in self.functions for target in self.called(start) if target != start}
        return sorted(self.functions.keys() - called, key=lambda start: -self.bounds[start].octets)

    def libraries(self, starts: Iterable[int]) -> list[str]:
        """The functions of shared libraries that these call."""
        return sorted({str(target) for start in starts for target, _ in self.functions[start].calls if target not in self.functions})


def groups(called: dict[int, set[int]]) -> Iterator[frozenset[int]]:
    """The functions in groups that call one another, those that are called before those that call."""
    number: dict[int, int] = {}
    low: dict[int, int] = {}
    open_ones: list[int] = []

    def visit(start: int) -> Iterator[frozenset[int]]:
        number[start] = low[start] = len(number)
        open_ones.append(start)
        for target in called[start]:
            if target not in number:
                yield from visit(target)
            if target in open_ones:
                low[start] = min(low[start], low[target])
        if low[start] == number[start]:
            behind = open_ones.index(start)
            yield frozenset(open_ones[behind:])
            del open_ones[behind:]

    for start in called:
        if start not in number:
            yield from visit(start)
