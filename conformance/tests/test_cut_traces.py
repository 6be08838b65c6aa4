"""Recorded logs, cut: the shortest behind each of their lines, the others at drawn places. Minutes, so not in the gate."""

from __future__ import annotations

import random
import unittest

from tests import test_traces
from tests.test_traces import SHORTEST, TraceTest, lines_of_recorded

DRAWN = 200


class Cut(TraceTest):
    """Each log as it is while the program still runs."""

    def test_behind_each_line_of_the_shortest(self) -> None:
        for name in SHORTEST:
            lines = lines_of_recorded(name)
            for at in range(1, len(lines)):
                self.assert_cut(name, "".join(lines[:at]))

    def test_at_drawn_places_of_the_others(self) -> None:
        draw = random.Random(2)
        for name in sorted(set(test_traces.Recorded.ANSWERS) - set(SHORTEST)):
            text = "".join(lines_of_recorded(name))
            for at in sorted(draw.sample(range(1, len(text)), DRAWN)):
                self.assert_cut(name, text[:at])


if __name__ == "__main__":
    unittest.main()
