#!/usr/bin/env python3
"""Draws a stretch before and after its compression as one SVG file.

    draw_capacity.py CAPACITY OUT.svg [--base BASE.json] [--grant I=TABLE]..

CAPACITY is the text of a capacity (docs/CAPACITY.md). The claims of `base T` are read from the base file, those of
`entry I` from the table of that grant's stairway. Time runs down, zones stand side by side; the trains of the chain have a
dark edge, and a line joins each link to the next. It needs Python 3 and nothing else.
"""
import json
import sys

COLOURS = ["#4c78a8", "#f58518", "#54a24b", "#e45756", "#72b7b2", "#b279a2", "#9d755d", "#eeca3b"]
WIDTH, GAP, TOP, HEIGHT = 48, 90, 60, 640


def read_capacity(path):
    """The stretch, the trains with their shifts, and the links of the chain."""
    head, trains, links = None, [], []
    for line in open(path, encoding="ascii"):
        words = line.split()
        if words[0] == "capacity":
            head = dict(first=int(words[2]), last=int(words[3]), start=int(words[5]), end=int(words[6]),
                        occupied=int(words[10]), rate=int(words[12]))
        elif words[0] == "train":
            trains.append((words[1] + " " + words[2], int(words[6])))
        elif words[0] == "link":
            zone = int(words[4]) if words[3] == "zone" else None
            links.append((words[1] + " " + words[2], zone, int(words[-1])))
    return head, trains, links


def joined(claims):
    """Claims without those that touch or overlap on a zone."""
    done = []
    for zone, start, end in sorted(claims):
        if done and done[-1][0] == zone and start <= done[-1][2]:
            done[-1] = (zone, done[-1][1], max(end, done[-1][2]))
        else:
            done.append((zone, start, end))
    return done


def read_claims(arguments):
    """The claims of each owner, by its text."""
    claims = {}
    for option, value in zip(arguments[::2], arguments[1::2]):
        if option == "--base":
            for number, train in enumerate(json.load(open(value, encoding="utf-8"))["trains"]):
                claims["base %d" % number] = joined((one["zone"], one["from"], one["to"]) for one in train["requirements"])
        elif option == "--grant":
            entry, path = value.split("=", 1)
            rows = [line.split() for line in open(path, encoding="ascii")][1:]
            claims["entry " + entry] = joined((int(row[0]), int(row[1]), int(row[2])) for row in rows)
    return claims


def first_zone(claims, zones):
    """The zone of the claim that begins first on these zones, the lowest at a tie."""
    return min((start, zone) for zone, start, end in claims if zone in zones)[1]


def panel(left, title, head, trains, claims, links, shifted, scale):
    """One timetable: its frame, a box for each claim, and the chain where the trains are shifted."""
    zones = range(head["first"], head["last"] + 1)
    out = ['<text x="%d" y="24" font-weight="bold">%s</text>' % (left, title)]
    for zone in zones:
        x = left + (zone - head["first"]) * WIDTH
        out.append('<rect x="%d" y="%d" width="%d" height="%d" fill="none" stroke="#ddd"/>' % (x, TOP, WIDTH, HEIGHT))
        out.append('<text x="%d" y="%d" text-anchor="middle">%d</text>' % (x + WIDTH // 2, TOP - 6, zone))
    chained = {owner for owner, _, _ in links}
    for number, (owner, shift) in enumerate(trains):
        moved = shift if shifted else 0
        edge = "#222" if owner in chained else "none"
        for zone, start, end in claims[owner]:
            if zone in zones:
                x = left + (zone - head["first"]) * WIDTH + 4
                y, tall = scale(start + moved), scale(end + moved) - scale(start + moved)
                out.append('<rect x="%d" y="%.1f" width="%d" height="%.1f" fill="%s" fill-opacity="0.75" stroke="%s">'
                           '<title>%s zone %d from %d to %d</title></rect>'
                           % (x, y, WIDTH - 8, tall, COLOURS[number % len(COLOURS)], edge, owner, zone, start + moved, end + moved))
    if shifted:
        points = []
        for owner, zone, at in links:
            place = first_zone(claims[owner], zones) if zone is None else zone
            points.append((left + (place - head["first"] + 0.5) * WIDTH, scale(at)))
        if points:
            out.append('<polyline points="%s" fill="none" stroke="#222" stroke-width="2"/>'
                       % " ".join("%.1f,%.1f" % point for point in points))
    return out


def main():
    if len(sys.argv) < 3 or len(sys.argv) % 2 == 0:
        sys.exit(__doc__)
    head, trains, links = read_capacity(sys.argv[1])
    claims = read_claims(sys.argv[3:])
    missing = [owner for owner, _ in trains if owner not in claims]
    if missing:
        sys.exit("no claims are given for " + ", ".join(missing))
    ticks = [tick + moved for owner, shift in trains for zone, start, end in claims[owner]
             if head["first"] <= zone <= head["last"] for tick in (start, end) for moved in (0, shift)]
    low, high = min(ticks, default=head["start"]), max(ticks, default=head["end"])
    scale = lambda tick: TOP + HEIGHT * (tick - low) / max(high - low, 1)
    wide = (head["last"] - head["first"] + 1) * WIDTH
    lines = ['<svg xmlns="http://www.w3.org/2000/svg" width="%d" height="%d" font-family="sans-serif" font-size="12">'
             % (2 * wide + 3 * GAP, TOP + HEIGHT + 50), '<rect width="100%" height="100%" fill="white"/>']
    lines += panel(GAP, "before", head, trains, claims, links, False, scale)
    lines += panel(2 * GAP + wide, "after", head, trains, claims, links, True, scale)
    for tick in (low, high):
        lines.append('<text x="%d" y="%.1f" text-anchor="end">%d</text>' % (GAP - 8, scale(tick) + 4, tick))
    lines.append('<text x="%d" y="%d">occupied %d ticks, rate %d of 1000</text>'
                 % (GAP, TOP + HEIGHT + 28, head["occupied"], head["rate"]))
    lines.append("</svg>")
    with open(sys.argv[2], "w", encoding="utf-8") as out:
        out.write("\n".join(lines) + "\n")


if __name__ == "__main__":
    main()
