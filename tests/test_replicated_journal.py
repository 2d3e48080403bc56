"""The model of a replicated journal: the protocol keeps its promises in every state that can be
reached, and each planted error is found out."""
from __future__ import annotations

import unittest

from tests.models.replicated_journal import Bounds, Protocol, search

#: Two members, a crash and a read: some 25,000 states.
SMALL = Bounds(members=2, entries=1, elections=2, crashes=1, reads=1)
#: Room for an entry that a member has beyond the store, and for who leads again.
WIDER = Bounds(members=2, entries=2, elections=3, crashes=1, reads=1)


class ReplicatedJournal(unittest.TestCase):
    """What a search over all states comes to."""

    def test_the_protocol_keeps_its_promises(self) -> None:
        searched = search(Protocol(), SMALL)
        self.assertEqual((searched.broken, searched.steps), ("", []))
        # both members can win, sell and crash: far more states than there are members
        self.assertGreater(searched.states, 10_000)

    def test_three_members_keep_the_promises(self) -> None:
        bounds = Bounds(members=3, entries=1, elections=2, crashes=0, reads=1)
        self.assertEqual(search(Protocol(), bounds).broken, "")

    def found(self, protocol: Protocol, words: str) -> None:
        """A planted error breaks a promise, which is told with the steps to it."""
        searched = search(protocol, WIDER)
        self.assertIn(words, searched.broken)
        self.assertTrue(searched.steps[0].startswith("member 0 wins election 1"))

    def test_a_store_that_does_not_compare_the_leader_is_found_out(self) -> None:
        self.found(Protocol(compares_leader=False), "without entry 0")

    def test_a_reply_before_the_transaction_is_found_out(self) -> None:
        self.found(Protocol(waits_for_store=False), "was acknowledged at 0, and the store has ()")

    def test_a_member_that_keeps_what_it_has_beyond_is_found_out(self) -> None:
        self.found(Protocol(cuts_what_is_beyond=False), "the leader has")

    def test_a_read_that_is_not_confirmed_is_found_out(self) -> None:
        self.found(Protocol(confirms_reads=False), "told of 0 entries")


if __name__ == "__main__":
    unittest.main()
