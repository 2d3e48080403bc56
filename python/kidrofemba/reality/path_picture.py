"""A picture of a sold path by distance: the speed of its train with the limits, and below its time,
with the claims of zones as bars and the train as a line."""
from __future__ import annotations

from collections.abc import Callable
from typing import TYPE_CHECKING

if TYPE_CHECKING:
    from kidrofemba.reality.verify import Verdict, Verifier

WIDTH, SPEED_PX, TIME_PX, LEFT, TOP, APART = 1100, 180, 420, 70, 40, 50
#: From metres, metres a second or seconds to a place in the picture.
Scale = Callable[[float], float]
GREY, BLUE, RED, BAR = "#888888", "#1f5fa8", "#b03020", "#cfdcec"


def picture_of(verdict: Verdict, verifier: Verifier) -> str:
    """The picture as SVG."""
    course = verdict.course
    if course is None:
        return _svg([_text(LEFT, TOP, f"the train stalls {verdict.stalls_m or 0:.0f} m on")])
    settings, blocks = verifier.base.settings, verifier.blocks
    total = course.places[-1]
    top_kmh = 10 * (int(max(max(leg.running.speeds) for leg in course.legs) * 0.36) + 1)
    claims = [row.claim for row in verdict.rows if row.claim is not None]
    first = min([begin for begin, _ in claims] + [verdict.entry.runs[0].enter])
    last = max([end for _, end in claims] + [verdict.entry.runs[-1].leave])

    def x(place: float) -> float:
        return LEFT + place / total * WIDTH

    def y(speed: float) -> float:
        return TOP + SPEED_PX - speed * 3.6 / top_kmh * SPEED_PX

    def z(second: float) -> float:
        share = (second / settings.tick_s - first) / max(1, last - first)
        return TOP + SPEED_PX + APART + share * TIME_PX

    parts = _axes(x, y, total, top_kmh)
    parts += _bars(verdict, x, z, settings.tick_s, [blocks[run.block].cells for run in
                                                    verdict.entry.runs], course.places)
    here = 0.0
    for length, limit in course.limits:
        level = y(min(limit * 3.6, top_kmh) / 3.6)
        parts.append(f'<path d="M{x(here):.1f} {level:.1f}H{x(here + length):.1f}" '
                     f'stroke="{RED}" fill="none"/>')
        here += length
    for leg in course.legs:
        row = list(zip(leg.running.places, leg.running.speeds, leg.running.times))
        speeds = " ".join(f"{x(leg.begin_m + place):.1f},{y(speed):.1f}" for place, speed, _ in row)
        times = " ".join(f"{x(leg.begin_m + place):.1f},{z(leg.depart_s + time):.1f}"
                         for place, _, time in row)
        parts += [f'<polyline points="{points}" fill="none" stroke="{BLUE}" stroke-width="1.6"/>'
                  for points in (speeds, times)]
    clock = verifier.base.clock
    entry = verdict.entry
    told = (f"{entry.owner} {entry.number}, {verdict.name}: early {verdict.early_s:.0f} s, late "
            f"{verdict.late_s:.0f} s (less than 0: to spare); from "
            f"{clock.text(entry.runs[0].enter)} to {clock.text(entry.runs[-1].leave)}")
    parts.append(_text(LEFT, 22, told, 14))
    parts += [_text(LEFT - 62, z(tick * settings.tick_s) + 4, clock.text(tick))
              for tick in range(first, last + 1, max(1, (last - first) // 8))]
    return _svg(parts)


def _axes(x: Scale, y: Scale, total: float, top_kmh: int) -> list[str]:
    parts = []
    for speed in range(0, top_kmh + 1, 20):
        at = y(speed / 3.6)
        parts.append(f'<path d="M{LEFT} {at:.1f}h{WIDTH}" stroke="#dddddd"/>')
        parts.append(_text(LEFT - 62, at + 4, f"{speed} km/h"))
    step = next(one for one in (1, 2, 5, 10, 20, 50, 100) if total / 1000 / one <= 15)
    for kilometre in range(0, int(total / 1000) + 1, step):
        at = x(kilometre * 1000.0)
        parts.append(f'<path d="M{at:.1f} {TOP}v{SPEED_PX + APART + TIME_PX}" stroke="#eeeeee"/>')
        parts.append(_text(at - 12, TOP + SPEED_PX + APART / 2 + 4, f"{kilometre} km"))
    return parts


def _bars(verdict: Verdict, x: Scale, z: Scale, tick_s: int,
          cells: list[tuple[tuple[int, int], ...]], places: list[float]) -> list[str]:
    """The claim of each zone of each block, where the block lies; what is missing of it is red."""
    parts, at = [], 0
    for run, own in enumerate(cells):
        for part, _ in enumerate(own):
            row = verdict.rows[at]
            at += 1
            begin, end = places[run], places[run + 1]
            low = begin + (end - begin) * part / len(own)
            high = begin + (end - begin) * (part + 1) / len(own)
            spans = [(row.need.begin_s, row.need.end_s, RED)]
            if row.claim is not None:
                spans.append((row.claim[0] * tick_s, row.claim[1] * tick_s, BAR))
            for first, last, colour in spans:
                parts.append(
                    f'<rect x="{x(low):.1f}" y="{z(first):.1f}" width="{x(high) - x(low):.1f}" '
                    f'height="{max(0.0, z(last) - z(first)):.1f}" fill="{colour}" '
                    f'stroke="{GREY}" stroke-width="0.3"/>')
    return parts


def _text(x: float, y: float, told: str, size: int = 11) -> str:
    told = told.replace("&", "&amp;").replace("<", "&lt;")
    return f'<text x="{x:.1f}" y="{y:.1f}" font-size="{size}">{told}</text>'


def _svg(parts: list[str]) -> str:
    height = TOP + SPEED_PX + APART + TIME_PX + 30
    return (f'<svg xmlns="http://www.w3.org/2000/svg" width="{LEFT + WIDTH + 30}" '
            f'height="{height}" font-family="sans-serif">\n<rect width="100%" height="100%" '
            'fill="white"/>\n' + "\n".join(parts) + "\n</svg>\n")
