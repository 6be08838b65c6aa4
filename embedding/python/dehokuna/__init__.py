"""The advisory locks of a file server, from the proved library: record locks, open file description locks and flock locks of opaque
owners, with waits that are answered later.

    >>> from dehokuna import LockServer, Mode
    >>> with LockServer() as server:
    ...     server.set(7, owner=1, first=0, last=9, mode=Mode.WRITE)
    ...     server.wait(70, 7, owner=2, first=5, last=5, mode=Mode.READ)   # False: ticket 70 waits
    ...     server.flush(7, owner=1)
    ...     list(server.grants())
    False
    [70]

Nothing here locks a file of the machine. Each call is one of libdehokuna, whose proofs end at its C functions; this module is only tested.
"""

from ._library import TO_THE_END, VERSION
from .errors import Blocked, Deadlock, Invalid, LockError, NoLocks, NoState, TicketTaken
from .server import Blocker, Counts, FlockLock, LockServer, Mode, OwnerWait, Policy, Waiting

__version__ = VERSION

__all__ = [
    "Blocked",
    "Blocker",
    "Counts",
    "Deadlock",
    "FlockLock",
    "Invalid",
    "LockError",
    "LockServer",
    "Mode",
    "NoLocks",
    "NoState",
    "OwnerWait",
    "Policy",
    "TicketTaken",
    "TO_THE_END",
    "Waiting",
    "__version__",
]
