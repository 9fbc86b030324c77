"""Compares the built search with that of another encoder and with a plain one. See compare_search.sh."""

import os
import random
import subprocess
import sys

from common import Counts
from inter_pictures import film, lists_of, pictures_of, planes_of, write_film

folder, reference, program = sys.argv[1:]
PARTS = [(0, 0, 16, 16), (0, 0, 16, 8), (0, 8, 16, 8), (0, 0, 8, 16), (8, 0, 8, 16), (0, 0, 8, 8), (8, 0, 8, 8), (0, 8, 8, 8), (8, 8, 8, 8)]


class Samples:
    """A plane's samples at any place, and those between them by ITU-T H.264, clause 8.4.2.2.1."""

    def __init__(self, plane, width, height):
        self.plane, self.width, self.height = plane, width, height

    def at(self, x, y):
        return self.plane[max(0, min(self.height - 1, y)) * self.width + max(0, min(self.width - 1, x))]

    def across(self, x, y):
        return sum(c * self.at(x + k - 2, y) for k, c in enumerate((1, -5, 20, 20, -5, 1)))

    def half(self, x, y, right, down):
        if right and down:
            return clip((sum(c * self.across(x, y + k - 2) for k, c in enumerate((1, -5, 20, 20, -5, 1))) + 512) >> 10)
        if right:
            return clip((self.across(x, y) + 16) >> 5)
        if down:
            return clip((sum(c * self.at(x, y + k - 2) for k, c in enumerate((1, -5, 20, 20, -5, 1))) + 16) >> 5)
        return self.at(x, y)

    def quarter(self, x, y):
        """The sample at a place in quarter samples."""
        parts = x % 4, y % 4

        def near(a, b):
            """The sample at a place in half samples."""
            return self.half(x // 4 + a // 2, y // 4 + b // 2, a % 2, b % 2)

        if parts[0] % 2 and parts[1] % 2:
            # on a diagonal: the half samples across and down that are nearest
            return (near(1, 0 if parts[1] == 1 else 2) + near(0 if parts[0] == 1 else 2, 1) + 1) >> 1
        if parts[0] % 2:
            return (near(parts[0] // 2, parts[1] // 2) + near(parts[0] // 2 + 1, parts[1] // 2) + 1) >> 1
        if parts[1] % 2:
            return (near(parts[0] // 2, parts[1] // 2) + near(parts[0] // 2, parts[1] // 2 + 1) + 1) >> 1
        return near(parts[0] // 2, parts[1] // 2)


def clip(value):
    return min(255, max(0, value))


def plain_search(source, near, left, top, wide, high, span):
    """What the search has to find: vector, cost and count, and the refined vector and its cost."""
    cells = [(x, y) for y in range(top, top + high) for x in range(left, left + wide)]
    corners = [(x, y) for y in range(top, top + high, 8) for x in range(left, left + wide, 8)]
    vectors = [(x, y) for y in range(-span, span + 1) for x in range(-span, span + 1)]
    vectors.sort(key=lambda v: (max(abs(v[0]), abs(v[1])), v[1], v[0]))

    def total(samples, x, y, dx, dy):
        return sum(samples.at(x + i + dx, y + j + dy) for j in range(8) for i in range(8))

    own = [total(source, x, y, 0, 0) for x, y in corners]
    costs, compared, least = [], 0, None
    for dx, dy in vectors:
        cost = sum(abs(source.at(x, y) - near.at(x + dx, y + dy)) for x, y in cells)
        bound = sum(abs(sum_ - total(near, x, y, dx, dy)) for sum_, (x, y) in zip(own, corners))
        compared += least is None or bound < least
        least = cost if least is None else min(least, cost)
        costs.append(cost)
    dx, dy = vectors[costs.index(least)]
    centre = 4 * dx, 4 * dy
    for step in (2, 1):
        tried = [centre] + [(centre[0] + a * step, centre[1] + b * step) for b in (-1, 0, 1) for a in (-1, 0, 1) if a or b]
        costs = [sum(abs(source.at(x, y) - near.quarter(4 * x + a, 4 * y + b)) for x, y in cells) for a, b in tried]
        centre = tried[costs.index(min(costs))]
    return [dx, dy, least, compared, *centre, min(costs)]


def searched(source, planes, width, height, span):
    """For each plane and macroblock the rows that the program prints for its nine partitions."""
    words = [program, "search", str(width), str(height), str(span), str(len(planes))]
    lines = "".join(" ".join(map(str, samples)) + "\n" for plane in planes for samples in (source, plane))
    told = subprocess.run(words, input=lines, capture_output=True, text=True, check=True).stdout
    rows = [list(map(int, line.split())) for line in told.splitlines()]
    blocks = width // 16 * (height // 16)
    assert len(rows) == 9 * blocks * len(planes)
    return [[rows[9 * (p * blocks + b) : 9 * (p * blocks + b + 1)] for b in range(blocks)] for p in range(len(planes))]


def best_of_list(found, block, part):
    """The first of least cost of the refined vectors in a list's pictures: its cost and its motion."""
    rows = [(pictures[block][part][6] + 4 * r, r, *pictures[block][part][4:6]) for r, pictures in enumerate(found)]
    return min(rows, key=lambda row: row[:2])


ABSENT = (-1, 0, 0)


def agrees(told, first, second):
    """Whether what the other encoder says of a partition fits what was found in the lists."""
    cost, one, other = told
    if second is None:
        return told == (first[0], first[1:], ABSENT)
    if other == ABSENT:
        return (cost, one) == (first[0], first[1:]) and first[0] <= second[0]
    if one == ABSENT:
        return (cost, other) == (second[0], second[1:]) and second[0] < first[0]
    # Both: the average of the two predictions costs less than each.
    return (one, other) == (first[1:], second[1:]) and cost < min(first[0], second[0])


random.seed(3)
counts, compared, moved = Counts(), 0, 0

for noise, pan, span in ((0, 0, 3), (0, 5, 4), (2, 2, 8), (6, -7, 16), (1, 3, 32), (30, 9, 5)):
    for refs, bframes in ((1, 0), (3, 0), (2, 2)):
        width, height = random.choice([(16, 16), (48, 32), (32, 64), (80, 48)])
        pictures = film(width, height, 6, noise, pan)
        if refs == 3:
            # A picture comes again, so that it is moved to the front of the list.
            pictures[4] = pictures[2]
        paths = {name: os.path.join(folder, name) for name in ("film", "stream", "recon", "report", "dump")}
        write_film(paths["film"], width, height, pictures)
        words = ["--in", paths["film"], "--out", paths["stream"], "--recon", paths["recon"], "--report", paths["report"]]
        words += ["--bitrate", "60000000", "--qp", "28", "--refs", str(refs), "--bframes", str(bframes), "--range", str(span)]
        subprocess.run([reference, "--stage", "12", "--dump", paths["dump"], "encode"] + words, check=True)
        built = planes_of(paths["recon"], width, height)
        held, here = [], f"noise {noise} pan {pan} range {span} refs {refs} bframes {bframes}"
        for picture in pictures_of(open(paths["dump"]).read()):
            if picture.kind != "I":
                lists = lists_of(picture, held)
                source = pictures[picture.display][0]
                found = [searched(source, [built[p.display] for p in each], width, height, span) for each in lists]
                count = sum(row[3] for each in found for rows in each for block in rows for row in block)
                if count != picture.compared:
                    counts.differ(here, f"picture {picture.display}: {count} vectors are compared, not {picture.compared}")
                compared += count
                moved += bool(picture.moved)
                for block, parts in enumerate(picture.parts):
                    for part, told in enumerate(parts):
                        first = best_of_list(found[0], block, part)
                        second = best_of_list(found[1], block, part) if found[1] else None
                        if agrees(told, first, second):
                            counts.agree(f"partitions of {picture.kind} pictures")
                        else:
                            counts.differ(here, f"picture {picture.display} macroblock {block} part {part}: {first} {second}, not {told}")
                if span <= 8:
                    block, part = random.randrange(len(picture.parts)), random.randrange(9)
                    left, top, wide, high = PARTS[part]
                    left, top = left + block % (width // 16) * 16, top + block // (width // 16) * 16
                    near = Samples(built[lists[0][0].display], width, height)
                    wanted = plain_search(Samples(source, width, height), near, left, top, wide, high, span)
                    if found[0][0][block][part] == wanted:
                        counts.agree("plain searches")
                    else:
                        counts.differ(here, f"picture {picture.display} macroblock {block} part {part}: {found[0][0][block][part]}, plain {wanted}")
            if picture.kind != "B":
                held = ([] if picture.idr else held)
                held = [picture, *held][:refs]
print(f"{compared} vectors were compared, as the encoder says; {moved} lists had a picture moved to the front")
assert len(counts.agreed) == 3, "a kind of picture, or the plain search, wasn't compared"
counts.finish("searches")
