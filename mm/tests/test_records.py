"""Records do what `dataclass` of the standard library does."""

import dataclasses
import unittest

from mm import records


def classes(of):
    """The same classes, made by a module."""

    @of.dataclass(frozen=True)
    class Place:
        path: str
        line: int = 1
        source: str = of.field(default="", compare=False)

        @property
        def text(self):
            return f"{self.path}:{self.line}"

    @of.dataclass
    class Found:
        name: str
        places: list = of.field(default_factory=list)
        least: object = None

        def add(self, place):
            self.places.append(place)

    @of.dataclass(frozen=True)
    class Longer(Place):
        length: int = 8

    @of.dataclass
    class Named:
        name: str

        def __repr__(self):
            return "named"

        def __eq__(self, other):
            return True

    @of.dataclass
    class Nothing:
        pass

    return Place, Found, Longer, Named, Nothing


def outcome(act):
    """What an act gives, or the kind of its fault."""
    try:
        return act()
    except (TypeError, AttributeError) as error:
        return AttributeError if isinstance(error, AttributeError) else TypeError


class Records(unittest.TestCase):
    ACTS = (
        lambda P, F, L, N, O: repr(P("a", 2)), lambda P, F, L, N, O: repr(F("x", [P("a")])), lambda P, F, L, N, O: P("a").text,
        lambda P, F, L, N, O: P("a") == P("a", 1, "b"), lambda P, F, L, N, O: P("a") == P("b"), lambda P, F, L, N, O: P("a") == L("a"),
        lambda P, F, L, N, O: L("a", 1, "", 8) == L("a"), lambda P, F, L, N, O: repr(L("a", length=3)), lambda P, F, L, N, O: P("a") == "a",
        lambda P, F, L, N, O: hash(P("a")) == hash(P("a", source="z")), lambda P, F, L, N, O: len({P("a"), P("a"), P("b"), L("a")}),
        lambda P, F, L, N, O: hash(F("a")), lambda P, F, L, N, O: F("a") != F("a", least=1), lambda P, F, L, N, O: F("a").places is F("b").places,
        lambda P, F, L, N, O: P(), lambda P, F, L, N, O: P("a", 1, "b", 4), lambda P, F, L, N, O: P("a", other=1), lambda P, F, L, N, O: P("a", path="b"),
        lambda P, F, L, N, O: setattr(P("a"), "line", 2), lambda P, F, L, N, O: setattr(P("a"), "other", 2), lambda P, F, L, N, O: delattr(P("a"), "line"),
        lambda P, F, L, N, O: setattr(F("a"), "name", "b"), lambda P, F, L, N, O: (repr(N("a")), N("a") == 3), lambda P, F, L, N, O: (repr(O()), O() == O()),
        lambda P, F, L, N, O: P.line, lambda P, F, L, N, O: P.path, lambda P, F, L, N, O: F.places, lambda P, F, L, N, O: isinstance(L("a"), P),
    )

    def test_as_the_standard_library(self):
        ours, others = classes(records), classes(dataclasses)
        for place, act in enumerate(self.ACTS):
            with self.subTest(place):
                self.assertEqual(outcome(lambda: act(*ours)), outcome(lambda: act(*others)))

    def test_first_and_later(self):
        """The first record of a class makes the function that fills it, and is filled by it."""
        place, found, longer, *_ = classes(records)
        first, second = found("a", least=3), found("b")
        first.add(1)
        self.assertEqual(([first.name, first.places, first.least], [second.name, second.places, second.least]),
                         (["a", [1], 3], ["b", [], None]))
        self.assertEqual(longer("a").text, "a:1")
        self.assertEqual(place("a", 2).text, "a:2")

    def test_replaced(self):
        place, found, longer, *_ = classes(records)
        self.assertEqual(records.replace(place("a", 2, "s"), line=3), place("a", 3))
        self.assertEqual(records.replace(place("a", 2, "s"), line=3).source, "s")
        self.assertEqual(records.replace(longer("a"), path="b", length=4), longer("b", length=4))
        self.assertEqual(records.replace(found("a", [1]), least=2), found("a", [1], 2))
        standard = classes(dataclasses)[0]
        self.assertEqual(records.replace(standard("a", 2), line=3), standard("a", 3))
        with self.assertRaises(TypeError):
            records.replace(place("a"), other=1)


if __name__ == "__main__":
    unittest.main()
