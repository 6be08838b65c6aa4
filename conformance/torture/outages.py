"""Mounts of one folder that die while processes race on them, and what of a history may then have its effect later than it was answered.

The processes of a mount die with it. What they asked for last may have its effect until their locks are purged, and these are in others' way until
then. And as a mount goes or comes back, the others may have answered a release that nobody else was told of yet, and is told anew: as a mount's
requests are told in their order, it has its effect before a later request of that mount is answered.
"""

from __future__ import annotations

from dataclasses import dataclass
from typing import TYPE_CHECKING, Iterable, Optional, Sequence

from torture.log import Process

if TYPE_CHECKING:
    from torture.history import Request

RELEASES = ("unlock", "close", "gone")
TOLD = ("ok", "busy", "free", "held", "EDEADLK")


@dataclass(frozen=True)
class Outage:
    """A mount, by its number, dies. Times in nanoseconds: when that began; when nothing of it could be sent any more; when the first and the last of the
    others were told to purge its locks; and when processes of its next life could begin. `unrest` has the times within which a mount may have answered a
    release that the others weren't told of yet."""

    mount: int
    began: int
    died: int
    purging: int
    purged: int
    back: int
    unrest: tuple[tuple[int, int], ...] = ()

    def ends(self, mount: int, process: Process) -> bool:
        """Whether a process of this mount dies with it."""
        has_begun_before = not process.records or process.records[0].start < self.back
        return mount == self.mount and has_begun_before and (process.waited_at is None or process.waited_at > self.began)

    def cuts(self, request: Request) -> bool:
        """Whether the request is of the mount, and was open when it died or sent later."""
        return request.mount == self.mount and request.start < self.back and (request.end is None or request.end > self.began)

    def rest_behind(self, time: int) -> Optional[int]:
        """When all was told to all that was answered then; None: at once."""
        return next((end for start, end in self.unrest if start <= time <= end), None)


def later(end: Optional[int], time: int, ended_at: int) -> Optional[int]:
    """The later one of two times; None where that is behind the end of the round."""
    return None if end is None or time > ended_at else max(end, time)


def is_release(request: Request) -> bool:
    """Whether the request takes locks away, and nothing else."""
    words = request.text.split()
    return words[0] in RELEASES or words[3:4] == ["un"]


def is_told_to_all(request: Request) -> bool:
    """Whether its answer says that all know of it, and of what its mount asked for before."""
    return request.end is not None and not is_release(request) and request.answer.split()[:1] in [[word] for word in TOLD]


def put_off(requests: Iterable[Request], outages: Sequence[Outage], ended_at: int) -> list[Request]:
    """The requests that can have had an effect in the round, each with the latest end that this can have had."""
    in_time = [each for each in requests if each.start <= ended_at]
    kept = [each for each in in_time if not any(outage.cuts(each) and each.answer == "error" and each.start > outage.died for outage in outages)]
    told = [(each.mount, each.start, each.end) for each in kept if is_told_to_all(each)]
    for request in kept:
        for outage in outages:
            if request.end is not None and not request.is_last:
                request.end = later(request.end, latest_effect(request, request.end, outage, told), ended_at)
        if request.end is None and request.answer == "error":
            # (nobody waits any more)
            request.end, request.is_last = ended_at, True
    return kept


def latest_effect(request: Request, end: int, outage: Outage, told: Iterable[tuple[int, int, Optional[int]]]) -> int:
    """When the request has its effect at the latest, as far as the outage puts it off."""
    if outage.cuts(request) and (is_release(request) or request.answer == "error"):
        return max(end, outage.purged)
    rest = outage.rest_behind(end)
    if not is_release(request) or rest is None:
        return end
    return min((answered for mount, start, answered in told if mount == request.mount and start > end and answered is not None), default=rest)
