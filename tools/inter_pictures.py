"""Films that are made here, and what a reference encoder's dump says of their P and B pictures: kinds, lists, plans, counts."""

import random
import re

part_line = re.compile(r"\s*part (\d) cost (\d+) \[(-?\d+) \((-?\d+),(-?\d+)\) \| (-?\d+) \((-?\d+),(-?\d+)\)\]")
picture_line = re.compile(r"picture coded \d+ display (\d+) kind (\w) idr (\w+) .* poc (\d+) .* moved (\S+) .* compared (\d+) ")


class Picture:
    """A picture as the other encoder coded it: for each macroblock its nine partitions."""

    def __init__(self, words):
        self.display, self.kind, self.idr, self.poc = int(words[0]), words[1], words[2] == "true", int(words[3])
        self.moved = None if words[4] == "None" else int(re.search(r"\d+", words[4])[0])
        self.compared, self.parts = int(words[5]), []


def pictures_of(dump):
    pictures = []
    for line in dump.splitlines():
        words = picture_line.match(line)
        if words:
            pictures.append(Picture(words.groups()))
        words = part_line.match(line)
        if words:
            number, cost, *motion = map(int, words.groups())
            if number == 0:
                pictures[-1].parts.append([])
            pictures[-1].parts[-1].append((cost, tuple(motion[:3]), tuple(motion[3:])))
    return pictures


def lists_of(picture, held):
    """The pictures in which each list's vectors point, of those that are held, the last one first."""
    if picture.kind == "P":
        first = list(held)
        if picture.moved:
            first.insert(0, first.pop(picture.moved))
        return first, []
    before = sorted((p for p in held if p.poc < picture.poc), key=lambda p: -p.poc)
    after = sorted((p for p in held if p.poc > picture.poc), key=lambda p: p.poc)
    return before, after[:1]


def film(width, height, count, noise, pan):
    """The luma and the chroma samples of each picture of a film whose parts move differently."""

    def rows(w, h, f):
        return bytes(min(255, max(0, f(x, y) + random.randint(-noise, noise))) for y in range(h) for x in range(w))

    texture = [[random.randint(0, 60) for _ in range(64)] for _ in range(64)]
    pictures = []
    for t in range(count):

        def luma(x, y):
            move = pan * t if (x // 24 + y // 24) % 3 else 0
            x = 4 * x - move
            left, part, row = x // 8, x % 8, texture[(y - t) // 3 % 64]
            return 60 + (row[left % 64] * (8 - part) + row[(left + 1) % 64] * part) // 8 + y

        chroma = rows(width // 2, height // 2, lambda x, y: 128 + x - t) + rows(width // 2, height // 2, lambda x, y: 120 + y)
        pictures.append((rows(width, height, luma), chroma))
    return pictures


def write_film(path, width, height, pictures):
    with open(path, "wb") as out:
        out.write(b"YUV4MPEG2 W%d H%d F25:1 Ip C420\n" % (width, height))
        for luma, chroma in pictures:
            out.write(b"FRAME\n" + luma + chroma)


def samples_of(path, width, height):
    """The samples of each picture of a film: luma, and then both chroma planes."""
    data = open(path, "rb").read()
    place, pictures = data.index(b"\n") + 1, []
    while place < len(data):
        place = data.index(b"\n", place) + 1
        size = width * height
        pictures.append((data[place : place + size], data[place + size : place + size * 3 // 2]))
        place += size * 3 // 2
    return pictures


def planes_of(path, width, height):
    """The luma samples of each picture of a film."""
    return [luma for luma, _ in samples_of(path, width, height)]
