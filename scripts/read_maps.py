#!/usr/bin/env python3
"""Has every zone's map read by programs that others wrote, GDAL (ogrinfo) and shapely, and holds what they read to the file.

    apt-get install gdal-bin python3-shapely
    /usr/bin/python3 scripts/read_maps.py [FILE] [--tzb PROGRAM]

The rings are taken from the file by scripts/index_file.py, which is no part of the reader. Every coordinate is compared, as a whole
number. The last line says what was read; the status is 1 where anything differs.
"""

import argparse
import json
import os
import re
import subprocess
import sys
import tempfile
from collections import Counter
from decimal import Decimal

from index_file import IndexFile, doubled_area
from shapely.geometry import shape

ROOT = os.path.dirname(os.path.dirname(os.path.abspath(__file__)))
NUMBER = r"-?(?:0|[1-9]\d*)\.\d{5}"
FORM = re.compile(rf'\{{"type":"MultiPolygon","coordinates":\[[][,]*(?:\[{NUMBER},{NUMBER}\][][,]*)+\}}\n')


def why_refused(polygons):
    """What document 02's refusal 48 says of the first ring that is out of form, or nothing."""
    for polygon, rings in enumerate(polygons):
        for ring, points in enumerate(rings):
            positions, area = len(points) + 1, doubled_area(points)
            if not 4 <= positions <= 10_000 or area == 0:
                return f"polygon {polygon}, ring {ring}: {positions:,} positions, doubled area {area:,}"
    return None


def as_drawn(points, is_hole):
    """The ring as a map has to have it: turned about its first point where it runs the wrong way, and closed."""
    right = (doubled_area(points) < 0) == is_hole
    points = points if right else points[:1] + points[:0:-1]
    return points + points[:1]


def whole(coordinate):
    """A coordinate in degrees as a whole number of hundred-thousandths. What is none stays what it is, and differs."""
    number = Decimal(str(coordinate)) * 100_000
    return int(number) if number == int(number) else coordinate


def positions(ring):
    return [tuple(whole(n) for n in point) for point in ring]


def by_json(text):
    coordinates = json.loads(text, parse_float=Decimal)["coordinates"]
    return [[positions(ring) for ring in rings] for rings in coordinates]


def by_shapely(text, met):
    """Shapely's own polygons, and which way each ring runs by its judgement."""
    drawn = shape(json.loads(text))
    met["valid by shapely"] += drawn.is_valid
    for polygon in drawn.geoms:
        met["outer rings counterclockwise by shapely"] += polygon.exterior.is_ccw
        met["holes clockwise by shapely"] += sum(not ring.is_ccw for ring in polygon.interiors)
    return [[positions(ring.coords) for ring in [polygon.exterior, *polygon.interiors]] for polygon in drawn.geoms]


def by_ogrinfo(path):
    """What ogrinfo prints of the file: one feature, a multipolygon, and its coordinates."""
    said = subprocess.run(["ogrinfo", "-al", path], capture_output=True, text=True, check=True)
    if said.stderr or "Geometry: Multi Polygon\n" not in said.stdout or "Feature Count: 1\n" not in said.stdout:
        return said.stderr or said.stdout[:500]
    polygons = re.search(r"^  MULTIPOLYGON \(\(\((.*)\)\)\)$", said.stdout, re.M).group(1).split(")),((")
    rings = [[ring.split(",") for ring in polygon.split("),(")] for polygon in polygons]
    return [[positions(point.split() for point in ring) for ring in polygon] for polygon in rings]


def read_zone(asked, zone, polygons, folder, met):
    """Draws a zone and has it read by all. What differs, in words; or nothing."""
    path = os.path.join(folder, f"{zone}.geojson")
    drawn = subprocess.run([asked.tzb, "map", asked.file, str(zone), "--output", path], capture_output=True, text=True)
    why = why_refused(polygons)
    if why:
        met["zones refused"] += 1
        print(f"zone {zone} is refused: {why}")
        return None if drawn.returncode == 1 and ": refusal 48: " in drawn.stderr else f"it should be 48: {drawn}"
    if drawn.returncode != 0:
        return drawn.stderr
    with open(path, encoding="ascii") as file:
        text = file.read()
    expected = [[as_drawn(points, ring > 0) for ring, points in enumerate(rings)] for rings in polygons]
    met["zones drawn"] += 1
    met["polygons"] += len(expected)
    met["rings"] += sum(len(rings) for rings in expected)
    met["holes"] += sum(len(rings) - 1 for rings in expected)
    met["positions"] += sum(len(ring) for rings in expected for ring in rings)
    met["bytes"] += len(text)
    if not FORM.fullmatch(text):
        return "the text has another form"
    read = {"json": by_json(text), "shapely": by_shapely(text, met), "ogrinfo": by_ogrinfo(path)}
    return ", ".join(f"{reader} reads something else" for reader, got in read.items() if got != expected) or None


def main():
    words = argparse.ArgumentParser(description=__doc__, formatter_class=argparse.RawDescriptionHelpFormatter)
    words.add_argument("file", nargs="?", default=os.path.join(ROOT, "sample/real-ne.tzb"))
    words.add_argument("--tzb", default=os.path.join(ROOT, "tzb"), help="the command; else the repository's")
    asked = words.parse_args()
    index = IndexFile(asked.file)
    met, differ = Counter(), 0
    with tempfile.TemporaryDirectory() as folder:
        for zone in range(index.zone_count):
            wrong = read_zone(asked, zone, index.polygons(zone), folder, met)
            if wrong:
                differ += 1
                print(f"zone {zone} ({index.name(zone)}): {wrong}")
    outer = met["rings"] - met["holes"]
    if met["outer rings counterclockwise by shapely"] != outer or met["holes clockwise by shapely"] != met["holes"]:
        differ += 1
    print(", ".join(f"{count:,} {what}" for what, count in met.items()))
    print(f"{differ} differences")
    sys.exit(differ > 0)


if __name__ == "__main__":
    main()
