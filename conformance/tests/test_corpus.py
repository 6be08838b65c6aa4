"""The corpus: lockreplay accepts each script, each says what it shows, and each known difference has one and is described."""

from __future__ import annotations

import re
import unittest

from harness.command import CORPUS, HERE
from harness.known import OF_FUSE, OF_LINUX
from harness.replay import Lockreplay
from harness.script import Script
from tests.support import LOCKREPLAY

SCRIPTS = [Script.parse(path.stem, path.read_text()) for path in sorted(CORPUS.glob("*.lock"))]
SOURCE = re.compile(r"\((POSIX\.1-2017 |fcntl_locking\(2\)|flock\(2\)|this project's choice)|\(own\)")


class Corpus(unittest.TestCase):
    """What holds of each script."""

    def test_lockreplay_accepts_each(self) -> None:
        lockreplay = Lockreplay(LOCKREPLAY)
        self.assertGreaterEqual(len(SCRIPTS), 90)
        for script in SCRIPTS:
            with self.subTest(script.name):
                lockreplay.run(script)

    def test_each_says_what_it_shows_and_where_it_stands(self) -> None:
        for script in SCRIPTS:
            with self.subTest(script.name):
                self.assertRegex(script.head, SOURCE)

    def test_no_two_are_the_same(self) -> None:
        bodies = [tuple(str(request) for request in script.requests) + script.headers for script in SCRIPTS]
        self.assertEqual(len(set(bodies)), len(bodies))

    def test_each_known_difference_is_described(self) -> None:
        table = (HERE / "KERNEL.md").read_text()
        for name in OF_LINUX:
            with self.subTest(name):
                self.assertIn(f"## `{name}`", table)
                self.assertTrue((CORPUS / f"known-{name}.lock").exists() or name == "eacces")

    def test_what_fuse_makes_differ_is_described(self) -> None:
        table = (HERE / "KERNEL.md").read_text()
        for name in OF_FUSE:
            with self.subTest(name):
                _, found, said = table.partition(f"## `{name}`\n")
                self.assertTrue(found)
                shown = re.findall(r"`([a-z0-9-]+)`", said.partition("- Scripts:")[2].partition("- Recognised")[0])
                self.assertTrue(shown)
                self.assertEqual([it for it in shown if not (CORPUS / f"{it}.lock").exists()], [])
