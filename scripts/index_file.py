"""Reads the rings of an index file (.tzb), by document 01 and nothing else: no code of the reader is used here.

It is for holding the reader's maps against the file. It looks at no checksum and refuses nothing: give it a file that
'tzb check' accepts.
"""

import struct

NAMES, TZDIR, POLYDIR, RINGDIR, RINGOPS, GROUPDIR, CHUNKDIR, POINTS = 1, 2, 3, 4, 5, 6, 7, 9
TURNED = 1 << 31


class IndexFile:
    def __init__(self, path):
        with open(path, "rb") as file:
            self.data = file.read()
        self.sections = {}
        for place in range(self.word(20)):
            kind, start, length, _ = struct.unpack_from("<4I", self.data, 64 + 16 * place)
            self.sections[kind] = (start, length)
        self.zone_count = self.word(40)
        self.drawn = {}

    def word(self, at):
        return struct.unpack_from("<I", self.data, at)[0]

    def record(self, kind, form, number):
        start, _ = self.sections[kind]
        return struct.unpack_from(form, self.data, start + struct.calcsize(form) * number)

    def name(self, zone):
        start, _ = self.sections[NAMES]
        first, last = struct.unpack_from("<2I", self.data, start + 4 + 4 * zone)
        blob = start + 8 + 4 * self.zone_count
        return self.data[blob + first : blob + last].decode()

    def polygons(self, zone):
        """The zone's polygons, each a list of rings, the outer one first: as they are stored, open, in whole numbers."""
        first, count = self.record(TZDIR, "<IHxx16x", zone)
        return [self.rings(polygon) for polygon in range(first, first + count)]

    def rings(self, polygon):
        first, count = self.record(POLYDIR, "<IHxx16x", polygon)
        return [self.ring(ring) for ring in range(first, first + count)]

    def ring(self, ring):
        """Points in ring order, groups turned where flagged; an entry equal to the exit before it appears once."""
        first, _, count = self.record(RINGDIR, "<IIHxx16x", ring)
        points = []
        for place in range(first, first + count):
            (op,) = self.record(RINGOPS, "<I", place)
            group = self.group(op & ~TURNED)
            group = group[::-1] if op & TURNED else group
            points += group[1:] if points and points[-1] == group[0] else group
        # The closing position is written once, by whoever writes the ring: the last entry can equal the first.
        return points[:-1] if len(points) > 1 and points[-1] == points[0] else points

    def group(self, group):
        if group not in self.drawn:
            first, _, count = self.record(GROUPDIR, "<IIHxx32x", group)
            self.drawn[group] = [p for chunk in range(first, first + count) for p in self.chunk(chunk)]
        return self.drawn[group]

    def chunk(self, chunk):
        offset, count = self.record(CHUNKDIR, "<IHxx16x", chunk)
        at = self.sections[POINTS][0] + offset
        points, x, y = [], 0, 0
        for _ in range(count):
            dx, at = self.number(at)
            dy, at = self.number(at)
            x, y = x + dx, y + dy
            points.append((x, y))
        return points

    def number(self, at):
        """A number in zigzag form, seven bits a byte, and the place behind it."""
        value, shift = 0, 0
        while True:
            byte = self.data[at]
            value |= (byte & 0x7F) << shift
            at, shift = at + 1, shift + 7
            if byte < 0x80:
                return (value >> 1) ^ -(value & 1), at


def doubled_area(ring):
    """Twice the area, exact: above 0 where the ring runs counterclockwise."""
    return sum(a[0] * b[1] - b[0] * a[1] for a, b in zip(ring, ring[1:] + ring[:1]))
