"""What a request can be refused with: an OSError each, with the errno that a program is to be told."""

from __future__ import annotations

import errno
import os


class LockError(OSError):
    """A request was refused. All but a Blocked flock leaves the server as it was."""

    number = errno.EIO

    def __init__(self, why: str = "") -> None:
        super().__init__(self.number, why or os.strerror(self.number))

    def __reduce__(self) -> tuple[object, ...]:
        # OSError's own hands over the errno as well, which a worker's answer could not be made again of.
        return type(self), (self.strerror,)


class Blocked(LockError, BlockingIOError):
    """EAGAIN: a lock of another owner is in the way. A flock that converts has lost the lock that it had (flock(2))."""

    number = errno.EAGAIN


class Deadlock(LockError):
    """EDEADLK: the wait would close a cycle of owners that wait for each other."""

    number = errno.EDEADLK


class NoLocks(LockError):
    """ENOLCK: there was no memory for it."""

    number = errno.ENOLCK


class Invalid(LockError, ValueError):
    """EINVAL: the range has no bytes or begins above 2**63 - 1, or the mode can't be asked for here."""

    number = errno.EINVAL


class NoState(LockError, ValueError):
    """EINVAL: the bytes are the export of no server. `flaw` says what is wrong first, and `offset` at which byte."""

    number = errno.EINVAL

    def __init__(self, flaw: str, offset: int) -> None:
        super().__init__(f"{flaw}, at byte {offset}")
        self.flaw = flaw
        self.offset = offset

    def __reduce__(self) -> tuple[object, ...]:
        return type(self), (self.flaw, self.offset)


class TicketTaken(LockError):
    """EEXIST (this project's choice): a wait has this ticket already, or a grant that wasn't fetched. It is the server's mistake."""

    number = errno.EEXIST

    def __init__(self) -> None:
        super().__init__("a wait has this ticket already, or a grant that was not fetched")

    def __reduce__(self) -> tuple[object, ...]:
        return type(self), ()
