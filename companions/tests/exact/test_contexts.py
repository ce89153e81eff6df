"""Instructions that the region hasn't, in contexts that depend on places and lengths: what cics-adapt writes for each does what its twin, an
instruction of the region, does in its place; or it tells that it doesn't."""
from tests.case import TestCase
from tests.exact.pairs import Outcome, all_pairs, counts, results

FEWEST_SAME = 340  # so that it's no answer to tell of all


class ContextsTest(TestCase):
    def test_contexts(self) -> None:
        found = results(all_pairs())
        self.none_of([f"{one.pair.name()}: no twin that runs: {one.native}" for one in found if not one.has_run()])
        self.none_of([f"{one.pair.name()}: {one.told}, where its twin has {one.native}" for one in found if one.outcome is Outcome.DIFFERS])
        number = counts(found)
        print(", ".join(f"{number[outcome]} {outcome.value}" for outcome in Outcome))
        self.assertGreaterEqual(number[Outcome.SAME], FEWEST_SAME)
