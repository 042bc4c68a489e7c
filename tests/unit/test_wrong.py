"""The wrong models by rule: each has a trace by which it isn't the model."""
from __future__ import annotations

import unittest

from models import wrong
from vmatools.comparing import generator
from vmatools.traces import read_trace

LEAST = 120


class WrongModels(unittest.TestCase):
    def test_each_is_shown_by_its_witness(self) -> None:
        known, models = wrong.witnesses(), wrong.shown()
        self.assertEqual([one.name for one in models], list(known))
        self.assertGreaterEqual(len(models), LEAST)
        for one in models:
            with self.subTest(one.name):
                self.assertTrue(wrong.differs(one.space, read_trace(known[one.name].encode())))

    def test_a_lower_break_splits_a_file_in_traces_of_the_heap(self) -> None:
        drawn = [generator.Generator("brk", f"1 {number}", 30).draw() for number in (30, 39, 84, 105)]
        models = {one.name: one.space for one in wrong.shown()}
        for name in ("brk loses object above", "brk loses offset above"):
            self.assertTrue(any(wrong.differs(models[name], trace) for trace in drawn), name)
