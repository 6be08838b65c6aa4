"""Judges what a system showed: by lockreplay, and by known differences."""

from __future__ import annotations

from dataclasses import dataclass, field
from typing import Optional

from harness.account import Account, Finding, Moment, first_difference, moments_of, replay
from harness.filesystem import FileSystem
from harness.journal import Event
from harness.known import OF_LINUX, Recogniser, Situation, recognised
from harness.replay import Lockreplay
from harness.script import Script

AS_DEFINED, KNOWN, DIFFERS, SKIPPED, NOT_RUN = "as defined", "known", "differs", "skipped", "not run"


@dataclass
class Verdict:
    """How a script went: the journal, the known differences, the event that is none of them, how many events weren't compared, and
    whether it got stuck, since a process hung or its files couldn't be made."""

    kind: str
    journal: list[Event] = field(default_factory=list)
    findings: tuple[Finding, ...] = ()
    left_out: int = 0
    difference: Optional[Finding] = None
    reason: str = ""
    stuck: bool = False


class Judge:
    """Judges journals on one file system. The recognisers are those of the differences that it knows, by name."""

    def __init__(self, lockreplay: Lockreplay, file_system: FileSystem, recognisers: Optional[dict[str, Recogniser]] = None) -> None:
        self.lockreplay = lockreplay
        self.file_system = file_system
        self.recognisers = OF_LINUX if recognisers is None else recognisers

    def judge(self, script: Script, journal: list[Event]) -> Verdict:
        """The verdict on a journal."""
        account = Account.of_journal(journal)
        while True:
            moments = self.moments(script, account)
            at = first_difference(account, journal, moments)
            if at is None:
                break
            right = moments[at] if at < len(moments) else Moment("not taken: its process waits or has ended")
            situation = Situation(self.lockreplay, script, journal, account, at, right, self.file_system)
            better = self.explain(situation)
            if better is None:
                return Verdict(DIFFERS, journal, account.findings, len(journal) - at - 1, situation.finding(""))
            account = better
        left_out = 0 if account.stop is None else len(journal) - account.stop
        return Verdict(KNOWN if account.findings else AS_DEFINED, journal, account.findings, left_out)

    def moments(self, script: Script, account: Account) -> list[Moment]:
        """What is right by an account."""
        return moments_of(account, replay(self.lockreplay, script, account.steps))

    def explain(self, situation: Situation) -> Optional[Account]:
        """The first account under which the event is as it should be; None where there is none."""
        for account in recognised(situation, self.recognisers):
            later = first_difference(account, situation.journal, self.moments(situation.script, account))
            if later is None or later > situation.at:
                return account
        return None
