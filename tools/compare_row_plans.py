"""Compares the built planner of P and B pictures with another encoder. See compare_row_plans.sh."""

import os
import random
import re
import subprocess
import sys

from common import Counts
from inter_pictures import film, lists_of, pictures_of, samples_of, write_film

folder, reference, program, *films = sys.argv[1:]


def numbers_of(picture):
    return " ".join(" ".join(map(str, plane)) for plane in picture) + "\n"


def planned(source, references, kind, width, height, span, t8x8, first_rows):
    """For each macroblock its nine partitions as the program prints them, and how many vectors were compared."""
    words = [program, "row_plans", *map(str, [width, height, span, t8x8, int(kind == "B"), len(references), *first_rows])]
    lines = "".join(map(numbers_of, references)) + numbers_of(source)
    told = subprocess.run(words, input=lines, capture_output=True, text=True, check=True).stdout
    parts, compared = [], 0
    for line in told.splitlines():
        if line.startswith("compared"):
            compared += int(line.split()[1])
        else:
            cost, *motion = map(int, line.split())
            parts.append((cost, tuple(motion[:3]), tuple(motion[3:])))
    return [parts[k : k + 9] for k in range(0, len(parts), 9)], compared


def compare(here, pictures, width, height, span, refs, bframes, slices, t8x8, qp):
    """Codes a film by the other encoder and plans each of its P and B pictures over the pictures that the encoder built."""
    paths = {name: os.path.join(folder, name) for name in ("film", "stream", "recon", "report", "dump")}
    write_film(paths["film"], width, height, pictures)
    words = ["--in", paths["film"], "--out", paths["stream"], "--recon", paths["recon"], "--report", paths["report"]]
    words += ["--bitrate", "60000000", "--qp", str(qp), "--refs", str(refs), "--bframes", str(bframes), "--range", str(span)]
    words += ["--slices", str(slices), "--t8x8", "on" if t8x8 else "off"]
    subprocess.run([reference, "--stage", "12", "--dump", paths["dump"], "encode"] + words, check=True)
    dump = open(paths["dump"]).read()
    first_rows = sorted({int(row) for row in re.findall(r"slice \d+ rows (\d+)", dump)})
    built, held = samples_of(paths["recon"], width, height), []
    for picture in pictures_of(dump):
        if picture.kind != "I":
            first, second = lists_of(picture, held)
            references = [built[p.display] for p in [*reversed(first), *second]]
            parts, compared = planned(pictures[picture.display], references, picture.kind, width, height, span, int(t8x8), first_rows)
            if compared == picture.compared:
                counts.agree(f"counts of {picture.kind} pictures")
            else:
                counts.differ(here, f"picture {picture.display}: {compared} vectors are compared, not {picture.compared}")
            for block, (ours, theirs) in enumerate(zip(parts, picture.parts, strict=True)):
                if ours == theirs:
                    counts.agree(f"macroblocks of {picture.kind} pictures")
                else:
                    counts.differ(here, f"picture {picture.display} macroblock {block}: {ours}, not {theirs}")
        if picture.kind != "B":
            held = [picture, *([] if picture.idr else held)][:refs]


random.seed(7)
counts = Counts()
for noise, pan, span in ((0, 0, 1), (0, 5, 4), (2, 2, 8), (6, -7, 16), (1, 3, 32), (30, 9, 5), (255, 0, 6)):
    for refs, bframes in ((1, 0), (3, 0), (4, 1), (2, 2), (3, 4)):
        width, height = random.choice([(16, 16), (48, 32), (32, 64), (80, 48)])
        pictures = film(width, height, 7, noise, pan)
        if refs == 3:
            # A picture comes again, so that it is moved to the front of the list.
            pictures[4] = pictures[2]
        slices, t8x8, qp = random.randint(1, height // 16), random.random() < 0.5, random.choice([10, 28, 40])
        here = f"noise {noise} pan {pan} range {span} refs {refs} bframes {bframes} slices {slices} qp {qp}"
        compare(here, pictures, width, height, span, refs, bframes, slices, t8x8, qp)
for path in films:
    head = open(path, "rb").readline().decode()
    width, height = int(re.search(r" W(\d+)", head)[1]), int(re.search(r" H(\d+)", head)[1])
    pictures = samples_of(path, width, height)[:4]
    compare(path, pictures, width, height, 16, 2, 1, 1, True, 26)
counts.finish("plans")
