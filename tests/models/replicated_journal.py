"""A model of a journal whose records stand in a replicated store before a client is told of them.

Members each hold a journal. One of them leads: it sells, and lets a reply go only once the
store has taken its records in a transaction that compares the leader's key and the last position. The
store is linearizable, as etcd is; its lease of the leader may lapse at any moment, whatever the leader's
own clock says. Messages to the store and back are never taken out of the network: so each may come
late, twice, out of order or never. A member may crash at each step; its journal stays.

`search` goes through every state that can be reached within the bounds and gives the first one that
breaks a promise, with the steps that lead there:

- an entry that was acknowledged stands in the store at its position, for good;
- who leads by the store's word, and has made its journal equal to the store's, has each of them;
- a reply that tells of entries tells of all that were acknowledged before it was asked for.

A protocol with a planted error has to be found out (`Protocol`).
"""
from __future__ import annotations

from collections import deque
from collections.abc import Iterator
from dataclasses import dataclass, field
from enum import IntEnum, auto
from typing import NamedTuple

#: An entry, by the number that it was drawn with; a journal is the entries from its begin.
Journal = tuple[int, ...]


class Role(IntEnum):
    """What a member does."""

    DOWN = auto()
    STANDBY = auto()
    #: it was told that it leads, and its journal may still differ from the store's
    ELECTED = auto()
    LEADING = auto()


@dataclass(frozen=True)
class Protocol:
    """What members do; each is True in the protocol, and False is a planted error."""

    compares_leader: bool = True
    waits_for_store: bool = True
    cuts_what_is_beyond: bool = True
    confirms_reads: bool = True


@dataclass(frozen=True)
class Bounds:
    """How far states are searched."""

    members: int = 3
    entries: int = 2
    elections: int = 3
    crashes: int = 1
    reads: int = 1


class Member(NamedTuple):
    """One member. `replicated` entries of its journal stand in the store, as it knows."""

    role: Role = Role.STANDBY
    election: int = 0
    journal: Journal = ()
    replicated: int = 0
    #: how many entries had been acknowledged when the open read was asked for; None without one
    read_since: int | None = None
    read_number: int = 0


class Transaction(NamedTuple):
    """What a leader sends: entries to stand behind a position, or none for a read alone."""

    member: int
    election: int
    position: int
    entries: Journal
    read_number: int


class Answer(NamedTuple):
    """What the store says to a transaction: whether its sender led, and what stood then."""

    member: int
    election: int
    was_leader: bool
    log: Journal
    read_number: int


class State(NamedTuple):
    """All that there is at one moment."""

    members: tuple[Member, ...]
    #: who leads by the store's word, and which election that was; None once the lease has lapsed
    leader: tuple[int, int] | None = None
    elections: int = 0
    log: Journal = ()
    #: what is on its way to the store, and back
    requests: frozenset[Transaction] = frozenset()
    answers: frozenset[Answer] = frozenset()
    drawn: int = 0
    crashes: int = 0
    reads: int = 0
    acknowledged: frozenset[tuple[int, int]] = frozenset()
    stale_read: str = ""


@dataclass
class Searched:
    """What a search came to: the states that it saw, and the steps to one that breaks a promise."""

    states: int = 0
    broken: str = ""
    steps: list[str] = field(default_factory=list)


def with_member(state: State, number: int, member: Member) -> State:
    """The state with another member in a place."""
    members = state.members[:number] + (member,) + state.members[number + 1:]
    return state._replace(members=members)


class Machine:
    """The steps that a protocol allows within bounds."""

    def __init__(self, protocol: Protocol, bounds: Bounds):
        self.protocol = protocol
        self.bounds = bounds

    def begin(self) -> State:
        """All members stand by, and nothing was sold."""
        return State(tuple(Member() for _ in range(self.bounds.members)))

    def steps(self, state: State) -> Iterator[tuple[str, State]]:
        """Each step that can come next, in words, and what it leads to."""
        yield from self.store_steps(state)
        for number, member in enumerate(state.members):
            yield from self.member_steps(state, number, member)
        for request in state.requests:
            yield f"the store takes {request}", self.taken(state, request)
        for answer in state.answers:
            member = state.members[answer.member]
            if member.role == Role.LEADING and member.election == answer.election:
                yield f"member {answer.member} hears {answer}", self.heard(state, answer)

    def store_steps(self, state: State) -> Iterator[tuple[str, State]]:
        """The lease lapses; or a member that stands by gets it."""
        if state.leader is not None:
            yield "the lease lapses", state._replace(leader=None)
            return
        if state.elections == self.bounds.elections:
            return
        for number, member in enumerate(state.members):
            if member.role == Role.STANDBY:
                election = state.elections + 1
                elected = member._replace(role=Role.ELECTED, election=election, replicated=0)
                won = with_member(state, number, elected)._replace(
                    leader=(number, election), elections=election)
                yield f"member {number} wins election {election}", won

    def member_steps(self, state: State, number: int,
                     member: Member) -> Iterator[tuple[str, State]]:
        """What a member does by itself."""
        if member.role == Role.DOWN:
            up = Member(journal=member.journal, read_number=member.read_number)
            yield f"member {number} starts", with_member(state, number, up)
            return
        if state.crashes < self.bounds.crashes:
            down = Member(Role.DOWN, journal=member.journal, read_number=member.read_number)
            crashed = with_member(state, number, down)._replace(crashes=state.crashes + 1)
            yield f"member {number} crashes", crashed
        if member.role == Role.STANDBY and member.journal != state.log:
            following = member._replace(journal=self.equalled(member.journal, state.log))
            yield f"member {number} follows", with_member(state, number, following)
        elif member.role == Role.ELECTED:
            journal = self.equalled(member.journal, state.log)
            leading = member._replace(role=Role.LEADING, journal=journal,
                                      replicated=min(len(journal), len(state.log)))
            yield f"member {number} leads", with_member(state, number, leading)
        elif member.role == Role.LEADING:
            yield from self.leader_steps(state, number, member)

    def equalled(self, journal: Journal, log: Journal) -> Journal:
        """A member's journal once it is made equal to the store's log."""
        if self.protocol.cuts_what_is_beyond or len(log) > len(journal):
            return log
        return journal

    def leader_steps(self, state: State, number: int,
                     member: Member) -> Iterator[tuple[str, State]]:
        """A leader sells, is asked, or sends to the store what waits."""
        if state.drawn < self.bounds.entries:
            sold = member._replace(journal=(*member.journal, state.drawn))
            after = with_member(state, number, sold)._replace(drawn=state.drawn + 1)
            if not self.protocol.waits_for_store:
                position = len(member.journal)
                after = after._replace(acknowledged=after.acknowledged | {(position, state.drawn)})
            yield f"member {number} sells {state.drawn}", after
        if member.read_since is None and state.reads < self.bounds.reads:
            yield f"member {number} is asked", self.asked(state, number, member)
        if member.read_since is not None or member.replicated < len(member.journal):
            entries = member.journal[member.replicated:]
            transaction = Transaction(number, member.election, member.replicated, entries,
                                      member.read_number)
            if transaction not in state.requests:
                sends = state._replace(requests=state.requests | {transaction})
                yield f"member {number} sends {transaction}", sends

    def asked(self, state: State, number: int, member: Member) -> State:
        """The state once a client asked a leader for what stands."""
        since = len(state.acknowledged)
        if self.protocol.confirms_reads:
            waits = member._replace(read_since=since, read_number=state.reads + 1)
            return with_member(state, number, waits)._replace(reads=state.reads + 1)
        return self.replied(state._replace(reads=state.reads + 1), member.replicated, since)

    def replied(self, state: State, front: int, since: int) -> State:
        """The state once a client was told that so many entries stand."""
        if front >= since:
            return state
        return state._replace(stale_read=f"told of {front} entries, {since} were acknowledged")

    def taken(self, state: State, request: Transaction) -> State:
        """The state once the store has worked a transaction off, for the first time or again."""
        is_leader = state.leader == (request.member, request.election)
        may_write = is_leader or not self.protocol.compares_leader
        log = state.log
        if may_write and len(log) == request.position:
            log = log + request.entries
        answer = Answer(request.member, request.election, may_write, log, request.read_number)
        return state._replace(log=log, answers=state.answers | {answer})

    def heard(self, state: State, answer: Answer) -> State:
        """The state once a leader has heard what became of a transaction."""
        number, member = answer.member, state.members[answer.member]
        length = len(answer.log)
        if not answer.was_leader or member.journal[:length] != answer.log:
            back = Member(journal=member.journal, read_number=member.read_number)
            return with_member(state, number, back)
        told = frozenset((at, member.journal[at]) for at in range(length))
        is_read = member.read_since is not None and answer.read_number == member.read_number
        since, front = member.read_since, max(member.replicated, length)
        member = member._replace(replicated=front, read_since=None if is_read else since)
        state = with_member(state, number, member)._replace(
            acknowledged=state.acknowledged | told)
        return self.replied(state, front, since) if is_read and since is not None else state


def broken_promise(state: State) -> str:
    """What a state breaks; empty where it breaks nothing."""
    for position, entry in sorted(state.acknowledged):
        if position >= len(state.log) or state.log[position] != entry:
            return f"entry {entry} was acknowledged at {position}, and the store has {state.log}"
    if state.leader is not None:
        member = state.members[state.leader[0]]
        if member.role == Role.LEADING and member.election == state.leader[1]:
            for position, entry in sorted(state.acknowledged):
                if position >= len(member.journal) or member.journal[position] != entry:
                    return f"the leader has {member.journal}, without entry {entry} at {position}"
    return state.stale_read


def search(protocol: Protocol, bounds: Bounds, most_states: int = 5_000_000) -> Searched:
    """Goes through all states in order of their distance from the begin.

    Raises OverflowError where there are more than `most_states`.
    """
    machine, searched = Machine(protocol, bounds), Searched()
    begin = machine.begin()
    came_from: dict[State, tuple[State, str] | None] = {begin: None}
    waiting = deque([begin])
    while waiting:
        state = waiting.popleft()
        searched.states += 1
        searched.broken = broken_promise(state)
        if searched.broken:
            searched.steps = steps_to(state, came_from)
            return searched
        for words, after in machine.steps(state):
            if after not in came_from:
                came_from[after] = (state, words)
                waiting.append(after)
        if len(came_from) > most_states:
            raise OverflowError(f"more than {most_states} states")
    return searched


def steps_to(state: State, came_from: dict[State, tuple[State, str] | None]) -> list[str]:
    """The steps from the begin to a state, in words."""
    steps: list[str] = []
    before = came_from[state]
    while before is not None:
        steps.append(before[1])
        before = came_from[before[0]]
    return steps[::-1]
