"""The versions that `history` finds, over the built program."""
import unittest

import s4d
from s4d import Kind

from .built import PROGRAM, needs_program


def drive(**options):
    return s4d.Drive.pipe(PROGRAM, "admin", **{"tick": 0, "window": 1_000_000, **options})


def short(spans):
    return [(span.kind, span.first, span.last, span.size) for span in spans]


@needs_program
class Histories(unittest.TestCase):
    def test_a_life(self):
        with drive() as it:
            it.create(b"a"), it.append(1, b"ab"), it.create(), it.create(), it.append(1, b"c")
            self.assertEqual(it.history(1), [s4d.Span(Kind.LIVE, 1, 1, 0, b"a"), s4d.Span(Kind.LIVE, 2, 4, 2, b"a"),
                                             s4d.Span(Kind.LIVE, 5, 5, 3, b"a")])
            self.assertEqual(it.history(9), [])

    def test_a_deletion_between_hidden_moments(self):
        with drive(frames=64) as it:
            it.create()
            for _ in range(40):
                it.append(1, b"x")
            it.delete(1)
            it.create()
            it.flush_object(1, 30, 35)
            it.flush_object(1, 41, 42)
            spans = short(it.history(1))
            self.assertEqual(spans[0], (Kind.LIVE, 1, 1, 0))
            self.assertIn((Kind.HIDDEN, 30, 35, 0), spans)
            self.assertEqual(spans[-3:], [(Kind.LIVE, 40, 40, 39), (Kind.HIDDEN, 41, 42, 0), (Kind.GONE, 43, 45, 0)])

    def test_what_the_window_forgot(self):
        with drive(window=3) as it:
            it.create()
            for _ in range(9):
                it.append(1, b"x")
            self.assertEqual(short(it.history(1)),
                             [(Kind.EXPIRED, 1, 6, 0)] + [(Kind.LIVE, t, t, t - 1) for t in range(7, 11)])


if __name__ == "__main__":
    unittest.main()
