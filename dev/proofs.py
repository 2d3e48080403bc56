"""Serves asks on a corridor with planned trains, and tries the proofs that are written beside the replies, and changed ones.

Each reply that grants a path or tells that there is none must have its proof: at the entries that were searched, for what was asked, or for that
with an earlier end of arrival. Each proof must pass a plain model of free moves, and `check` must accept the file of them. Then single numbers of the
proofs are changed, or a member is left out; the model decides what each change comes to, and `check` must say the same: so many changes that make a
proof wrong must be refused, each by its own line.
"""
from __future__ import annotations

import argparse
import random
import subprocess
import tempfile
from collections import Counter
from collections.abc import Iterator
from dataclasses import dataclass, replace
from pathlib import Path
from typing import Any

from bench.planned import F1, asks_of, runs_of, serve, stops_of, world_of
from bench.served import World
from kidrofemba.network.blocking_times import Railway
from kidrofemba.why.members import Asked, Judge, Line, Member, Proof, busy_of, read_proofs


@dataclass(frozen=True)
class Answered:
    """A proof, the reply that it stands beside, and its place in the file of proofs."""

    proof: Proof
    reply: list[str]
    place: int


def with_stops(stops: list[str], count: int, source: random.Random) -> list[tuple[int, Asked]]:
    """Asks over some ten sections, of which each third has a stop on the way."""
    wishes = []
    for ask in asks_of(stops, 0, count, source):
        between = stops[stops.index(ask.origin) + 1:stops.index(ask.destination)]
        halts = ((source.choice(between), source.randrange(20)),) if between and ask.number % 3 == 0 else ()
        wishes.append((ask.number, Asked("F1", ask.origin, ask.destination, ask.depart, ask.arrive, halts)))
    return wishes


class Session:
    """What a session was asked and told, with its proofs, and the claims that stood at each front."""

    def __init__(self, world: World, railway: Railway, count: int, source: random.Random):
        self.world, self.railway, self.line = world, railway, Line(railway, F1)
        self.wishes = with_stops(stops_of(railway), count, source)
        text = "".join(f"ask {number} {asked.fields()}\n" for number, asked in self.wishes)
        self.replies = [reply.split() for reply in serve(world, [text], proofs=True).replies[0]]
        self.claims = [railway.stairway(F1, runs_of(words)) for words in self.replies if words[0] == "granted"]
        self.planned = busy_of((zone, begin, end) for zone, spans in railway.claims.items() for begin, end, _ in spans)
        self.judges: dict[int, Judge] = {}

    def judge(self, front: int) -> Judge:
        """Judges by the claims that stood when so many entries did."""
        if front not in self.judges:
            if len(self.judges) > 50:
                self.judges.clear()
            self.judges[front] = Judge(self.line, busy_of((claim for claims in self.claims[:front] for claim in claims), self.planned))
        return self.judges[front]

    def verdict(self, proof: Proof) -> str:
        """What `check` must report of a file with this one proof."""
        blocks = [number for member in proof.members for number in member.place.tail]
        if proof.at > len(self.claims) or max(blocks, default=0) >= len(self.line.blocks) or any(one.first > one.last for one in proof.members):
            return "proof 0 not understood"
        return "proof 0 fails" if self.judge(proof.at).fault(proof) else "proofs 1"

    def answered(self) -> list[Answered]:
        """Sets the proofs beside the replies that must have one."""
        proofs = read_proofs(self.world.path("proofs0").read_text())
        told: list[Answered] = []
        front = 0
        if len(self.replies) != len(self.wishes):
            raise SystemExit(f"{len(self.replies)} replies to {len(self.wishes)} asks")
        for (number, asked), reply in zip(self.wishes, self.replies):
            if reply[0] not in ("granted", "no-path") or int(reply[1]) != number:
                raise SystemExit(f"ask {number} was told {' '.join(reply)}")
            proof = next(proofs, None)
            wanted = asked
            if reply[0] == "granted":
                wanted = replace(asked, arrive=(asked.arrive[0], min(asked.arrive[1], runs_of(reply)[-1].leave - 1)))
            if proof is None or (proof.at, proof.number, proof.asked) != (front, number, wanted):
                raise SystemExit(f"beside {' '.join(reply)} stands {proof.text().splitlines()[0] if proof else 'no proof'}")
            told.append(Answered(proof, reply, len(told)))
            front += reply[0] == "granted"
        if next(proofs, None) is not None:
            raise SystemExit("there are more proofs than replies that have one")
        return told

    def check(self, text: str) -> str:
        """What `check` reports of a file with this text; its status must be that of the report."""
        self.world.path("tried").write_text(text)
        words = self.world.words("check", ["network", "trains", "base", "journal"], "--proof", str(self.world.path("tried")))
        done = subprocess.run(words, stderr=subprocess.PIPE, text=True)
        report = done.stderr.rstrip("\n")
        if done.returncode != (0 if report.startswith("proofs ") else 1):
            raise SystemExit(f"check ended with {done.returncode}: {report}")
        return report


def with_member(proof: Proof, at: int, member: Member) -> Proof:
    return replace(proof, members=(*proof.members[:at], member, *proof.members[at + 1:]))


def with_place(proof: Proof, at: int, **numbers: Any) -> Proof:
    member = proof.members[at]
    return with_member(proof, at, member._replace(place=member.place._replace(**numbers)))


def with_block(proof: Proof, at: int, block: int, source: random.Random) -> Proof:
    tail = list(proof.members[at].place.tail)
    tail[source.randrange(len(tail))] = block
    return with_place(proof, at, tail=tuple(tail))


def changes(one: Answered, blocks: int, source: random.Random) -> Iterator[tuple[str, Proof]]:
    """Changes of one number of a proof, and one member that is left out, each with what it is called."""
    proof, asked = one.proof, one.proof.asked
    yield "searched beside another number of entries", replace(proof, at=max(0, proof.at + source.choice((-5, -1, 1, 400))))
    yield "departs earlier", replace(proof, asked=replace(asked, depart=(max(0, asked.depart[0] - source.choice((1, 50))), asked.depart[1])))
    yield "departs later", replace(proof, asked=replace(asked, depart=(asked.depart[0], asked.depart[1] + source.choice((1, 50)))))
    if one.reply[0] == "granted":
        yield "arrives when the path does", replace(proof, asked=replace(asked, arrive=(asked.arrive[0], runs_of(one.reply)[-1].leave)))
    else:
        yield "arrives later", replace(proof, asked=replace(asked, arrive=(asked.arrive[0], asked.arrive[1] + source.choice((1, 100, 2000)))))
    if not proof.members:
        return
    at = source.randrange(len(proof.members))
    member = proof.members[at]
    yield "a window that ends earlier", with_member(proof, at, member._replace(last=member.last - 1))
    yield "a window that begins later", with_member(proof, at, member._replace(first=member.first + 1))
    yield "a window that ends later", with_member(proof, at, member._replace(last=member.last + source.choice((1, 20, 300))))
    yield "a window that begins earlier", with_member(proof, at, member._replace(first=member.first - source.choice((1, 20, 300))))
    yield "a member left out", replace(proof, members=proof.members[:at] + proof.members[at + 1:])
    yield "another block", with_block(proof, at, source.choice((source.randrange(blocks), blocks)), source)
    yield "entered otherwise", with_place(proof, at, entered=source.choice([speed for speed in (0, 19_999, 20_000) if speed != member.place.entered]))
    yield "stands or does not", with_place(proof, at, stands=not member.place.stands)
    yield "another number of stops made", with_place(proof, at, made=member.place.made + source.choice((1, 2)))


def try_changes(session: Session, answered: list[Answered], wanted: int, source: random.Random) -> tuple[Counter[str], int]:
    """Changes proofs one after another, kind by kind, until so many changes were wrong and refused; tells of which kinds, and how many were right."""
    refused: Counter[str] = Counter()
    accepted = 0
    small = [one for one in answered if len(one.proof.members) <= 2_000]
    for turn in range(200 * wanted):
        tried = list(changes(source.choice(small), len(session.line.blocks), source))
        kind, proof = tried[turn % len(tried)]
        expected = session.verdict(proof)
        if expected == "proofs 1" and accepted > refused.total() + 10:
            continue
        told = session.check(proof.text())
        if told != expected:
            raise SystemExit(f"{kind}: {told} where it must be {expected}, by {session.judge(min(proof.at, len(session.claims))).fault(proof)}\n{proof.text()}")
        if expected == "proofs 1":
            accepted += 1
        else:
            refused[kind] += 1
        if refused.total() == wanted:
            return refused, accepted
    raise SystemExit(f"only {refused.total()} of {wanted} changes were wrong")


def main() -> None:
    parser = argparse.ArgumentParser(description=__doc__)
    parser.add_argument("--asks", type=int, default=300)
    parser.add_argument("--changes", type=int, default=100)
    parser.add_argument("--sections", type=int, default=12)
    parser.add_argument("--trains", type=int, default=60)
    parser.add_argument("--seed", type=int, default=29)
    asked = parser.parse_args()
    source = random.Random(asked.seed)
    with tempfile.TemporaryDirectory() as place:
        world, railway = world_of(Path(place) / "corridor", asked.sections, asked.trains, source)
        session = Session(world, railway, asked.asks, source)
        answered = session.answered()
        for one in answered:
            fault = session.judge(one.proof.at).fault(one.proof)
            if fault is not None:
                raise SystemExit(f"the proof beside {' '.join(one.reply)} fails: {fault}")
        written = world.path("proofs0").read_text()
        if session.check(written) != f"proofs {len(answered)}":
            raise SystemExit(f"the proofs of the session are not accepted: {session.check(written)}")
        granted = sum(one.reply[0] == "granted" for one in answered)
        print(f"{len(answered)} proofs, {granted} beside paths, {len(answered) - granted} beside refusals: all are accepted")
        refused, accepted = try_changes(session, answered, asked.changes, source)
        print(f"{refused.total()} wrong changes refused, {accepted} harmless ones accepted:")
        for kind, count in sorted(refused.items()):
            print(f"  {count:3} {kind}")
        last = answered[-1]
        text = "".join(one.proof.text() for one in answered[:-1]) + replace(last.proof, members=()).text()
        wanted = session.verdict(replace(last.proof, members=())).replace("proof 0", f"proof {last.place}").replace("proofs 1", f"proofs {len(answered)}")
        if session.check(text) != wanted:
            raise SystemExit(f"a file whose last proof has no members: {session.check(text)} where it must be {wanted}")


if __name__ == "__main__":
    main()
