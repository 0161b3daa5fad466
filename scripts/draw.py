#!/usr/bin/env python3
"""Draws zones of an index as a picture (SVG), from what the command 'tzb map' writes. It needs nothing but Python.

    python3 scripts/draw.py FILE ZONE... [--box WEST SOUTH EAST NORTH] [--title TEXT] [--note LNG LAT TEXT] [--output PATH]

Where rsvg-convert is there, --png PATH makes a PNG of it too. docs/map.md says how the picture in docs/ was made.
"""

import argparse
import json
import math
import os
import shutil
import subprocess
import sys
from html import escape

ROOT = os.path.dirname(os.path.dirname(os.path.abspath(__file__)))
WIDTH = 1000
MARGIN = 44
HEAD = 6
FILLS = ["#f6d5a8", "#c9dfb5", "#b8d4ea", "#f0c3c0", "#d8cbe8", "#f3ebb0", "#bfe3dc", "#e3cfc0"]
STROKES = ["#8a5a14", "#45702a", "#2b5f8c", "#93403b", "#64488c", "#84761b", "#2a766a", "#76533a"]


def zone_map(tzb, file, zone):
    """The polygons of a zone, each a list of rings, in degrees."""
    done = subprocess.run([tzb, "map", file, "--", zone], capture_output=True, text=True)
    if done.returncode != 0:
        sys.exit(done.stderr.strip())
    return json.loads(done.stdout)["coordinates"]


def bounds(zones):
    points = [p for polygons in zones for rings in polygons for p in rings[0]]
    xs, ys = [x for x, _ in points], [y for _, y in points]
    return min(xs), min(ys), max(xs), max(ys)


class Frame:
    """The part of the earth that is shown, and where a place of it stands in the picture."""

    def __init__(self, box):
        self.west, self.south, self.east, self.north = box
        middle = math.radians((self.south + self.north) / 2)
        self.scale = (WIDTH - 2 * MARGIN) / (self.east - self.west)
        self.up = self.scale / math.cos(middle)
        self.height = (self.north - self.south) * self.up + 2 * MARGIN + HEAD

    def place(self, lng, lat):
        return MARGIN + (lng - self.west) * self.scale, MARGIN + HEAD + (self.north - lat) * self.up

    def shows(self, point):
        return self.west <= point[0] <= self.east and self.south <= point[1] <= self.north


def path(polygons, frame):
    """The 'd' of an SVG path: each ring as it runs, without steps that are too small to be seen."""
    parts = []
    for ring in (ring for rings in polygons for ring in rings):
        places = [tuple(round(n, 1) for n in frame.place(*point)) for point in ring[:-1]]
        seen = [place for i, place in enumerate(places) if i == 0 or place != places[i - 1]]
        parts.append("M" + "L".join(f"{x:g},{y:g}" for x, y in seen) + "Z")
    return "".join(parts)


def inside(point, rings):
    """Whether a place lies in a polygon, its holes left out."""
    x, y = point
    odd = False
    for ring in rings:
        for (ax, ay), (bx, by) in zip(ring, ring[1:]):
            if (ay > y) != (by > y) and x < ax + (y - ay) * (bx - ax) / (by - ay):
                odd = not odd
    return odd


def label_place(polygons, frame):
    """Of many places in the zone and in the frame, the one that lies farthest from every border; and how far, in pixels."""
    best, best_room = None, 0
    for rings in polygons:
        west, south, east, north = bounds([[rings]])
        west, east = max(west, frame.west), min(east, frame.east)
        south, north = max(south, frame.south), min(north, frame.north)
        if west >= east or south >= north or (east - west) * frame.scale < 12:
            continue
        borders = [frame.place(*p) for ring in rings for p in ring[:: max(1, len(ring) // 400)]]
        for i in range(1, 24):
            for j in range(1, 24):
                point = west + (east - west) * i / 24, south + (north - south) * j / 24
                if inside(point, rings):
                    x, y = frame.place(*point)
                    edges = [x - MARGIN, WIDTH - MARGIN - x]
                    room = min([math.hypot((x - bx) / 2, y - by) for bx, by in borders] + edges)
                    if room > best_room:
                        best, best_room = (x, y), room
    return best, best_room


def step_of(degrees):
    return next(step for step in (0.1, 0.2, 0.5, 1, 2, 5, 10, 20, 30) if degrees / step <= 9 or step == 30)


def grid_lines(frame):
    """Lines of longitude and latitude, each with its degrees at the frame."""
    step = step_of(max(frame.east - frame.west, frame.north - frame.south))
    lines = []
    for n in range(math.ceil(frame.west / step), math.floor(frame.east / step) + 1):
        (x, top), (_, bottom) = frame.place(n * step, frame.north), frame.place(n * step, frame.south)
        lines.append(f'<path class="grid" d="M{x:.1f},{top:.1f}V{bottom:.1f}"/>')
        lines.append(f'<text class="degrees" x="{x:.1f}" y="{bottom + 18:.1f}">{degrees(n * step, "E", "W")}</text>')
    for n in range(math.ceil(frame.south / step), math.floor(frame.north / step) + 1):
        (left, y), (right, _) = frame.place(frame.west, n * step), frame.place(frame.east, n * step)
        lines.append(f'<path class="grid" d="M{left:.1f},{y:.1f}H{right:.1f}"/>')
        lines.append(f'<text class="degrees" x="{left - 22:.1f}" y="{y + 4:.1f}">{degrees(n * step, "N", "S")}</text>')
    return lines


def degrees(value, plus, minus):
    return f"{abs(value):g}°" + (plus if value > 0 else minus if value < 0 else "")


def label(place, text, size):
    x, y = place
    return f'<text class="name" font-size="{size}" x="{x:.1f}" y="{y + size / 3:.1f}">{escape(text)}</text>'


def picture(zones, frame, title, notes):
    """The whole SVG. Its fill rule is 'nonzero': a hole stays empty because it runs the other way than its outer ring."""
    left, top = frame.place(frame.west, frame.north)
    right, bottom = frame.place(frame.east, frame.south)
    box = f'x="{left:.1f}" y="{top:.1f}" width="{right - left:.1f}" height="{bottom - top:.1f}"'
    out = [
        f'<svg xmlns="http://www.w3.org/2000/svg" viewBox="0 0 {WIDTH} {frame.height:.0f}" font-family="DejaVu Sans, sans-serif">',
        "<style>.grid{fill:none;stroke:#b9c6cf;stroke-width:.7}.degrees{font-size:12px;fill:#52616b;text-anchor:middle}"
        ".name{fill:#222;text-anchor:middle}.zone{fill-rule:nonzero;stroke-width:1.2;stroke-linejoin:round}</style>",
        f'<rect width="100%" height="100%" fill="#fff"/><text x="{MARGIN}" y="30" font-size="20" fill="#222">{escape(title)}</text>',
        f'<clipPath id="frame"><rect {box}/></clipPath><rect {box} fill="#eef4f8"/>',
        *grid_lines(frame),
        '<g clip-path="url(#frame)">',
    ]
    for number, (name, polygons) in enumerate(zones):
        fill, stroke = FILLS[number % len(FILLS)], STROKES[number % len(STROKES)]
        out.append(f'<path class="zone" fill="{fill}" stroke="{stroke}" d="{path(polygons, frame)}"><title>{escape(name)}</title></path>')
    for name, polygons in zones:
        place, room = label_place(polygons, frame)
        if place:
            out.append(label(place, name, 16 if room > 20 else 11))
    out += [label(frame.place(float(lng), float(lat)), text, 11) for lng, lat, text in notes]
    out += ["</g>", f'<rect {box} fill="none" stroke="#52616b"/>', "</svg>", ""]
    return "\n".join(out)


def arguments():
    words = argparse.ArgumentParser(description=__doc__, formatter_class=argparse.RawDescriptionHelpFormatter)
    words.add_argument("file")
    words.add_argument("zone", nargs="+", help="by number or by name")
    words.add_argument("--box", nargs=4, type=float, metavar=("WEST", "SOUTH", "EAST", "NORTH"), help="what is shown, in degrees")
    words.add_argument("--title", default="")
    words.add_argument("--note", nargs=3, action="append", default=[], metavar=("LNG", "LAT", "TEXT"), help="words at a place")
    words.add_argument("--output", default="map.svg")
    words.add_argument("--png")
    words.add_argument("--tzb", default=os.path.join(ROOT, "tzb"), help="the command; else the repository's")
    return words.parse_args()


def main():
    asked = arguments()
    zones = [(zone, zone_map(asked.tzb, asked.file, zone)) for zone in asked.zone]
    frame = Frame(asked.box or bounds(polygons for _, polygons in zones))
    with open(asked.output, "w", encoding="utf-8") as out:
        out.write(picture(zones, frame, asked.title, asked.note))
    if asked.png:
        if not shutil.which("rsvg-convert"):
            sys.exit("there is no rsvg-convert (Debian: librsvg2-bin), so no PNG was made")
        subprocess.run(["rsvg-convert", "-o", asked.png, asked.output], check=True)


if __name__ == "__main__":
    main()
