"""Who waits for whom, and what a search for deadlocks can find of it: Linux's follows one blocker of each wait."""

from __future__ import annotations

from dataclasses import dataclass, field

from harness.journal import Held, Run

# fs/locks.c looks at no more waits in one search.
MOST_STEPS = 11


def meets(one: Held, other: Held) -> bool:
    """Whether two locks or waits of different owners are in each other's way."""
    if one.file != other.file or one.owner == other.owner or one.by_flock != other.by_flock:
        return False
    if "w" not in (one.mode, other.mode) and "ex" not in (one.mode, other.mode):
        return False
    return one.by_flock or (one.first <= other.last and other.first <= one.last)


def blockers(run: Run, asked: Held) -> list[Held]:
    """The locks that block a lock."""
    return [held for held in run.held if meets(held, asked)]


def closes_a_cycle(run: Run, asked: Held) -> bool:
    """Whether a wait for the lock closes a cycle of owners each of whom waits for the next one's lock on bytes."""
    reached: set[str] = set()
    places = {held.owner for held in blockers(run, asked)}
    while places - reached:
        reached |= places
        waited = [wait.lock for wait in run.waits if wait.lock.owner in places and not wait.lock.by_flock]
        places = {held.owner for lock in waited for held in blockers(run, lock)}
    return asked.owner in reached


@dataclass
class Search:
    """Linux's search in a state, for one owner: the owners on which it can come by waits. `surely` remembers what was looked up."""

    run: Run
    surely: dict[tuple[str, int], bool] = field(default_factory=dict)

    def steps_from(self, owner: str) -> set[str]:
        """The owners that it can go on to: those who block a wait of the owner, or a wait behind which this one is queued."""
        found: set[str] = set()
        for wait in self.run.waits:
            if wait.lock.owner == owner and not wait.lock.by_flock:
                queued = [other.lock for other in self.run.waits if meets(other.lock, wait.lock)]
                for lock in [wait.lock, *queued]:
                    found |= {held.owner for held in blockers(self.run, lock)}
        return found

    def must_find(self, owner: str, place: str, steps: int = 0) -> bool:
        """Whether each way from a place leads to the owner, in as many steps as the search makes."""
        if place == owner:
            return True
        if (place, steps) not in self.surely:
            onward = self.steps_from(place) if steps < MOST_STEPS else set()
            self.surely[place, steps] = bool(onward) and all(self.must_find(owner, step, steps + 1) for step in onward)
        return self.surely[place, steps]

    def can_find(self, owner: str, places: set[str]) -> bool:
        """Whether some way from one of the places leads to the owner, in as many steps as the search makes."""
        for _ in range(MOST_STEPS):
            places = set().union(*(self.steps_from(place) for place in places))
            if owner in places:
                return True
        return False
