# Compares `tool_compare filter` with the filter in plain_filter.py, on pictures of a reference encoder and on random ones.
import os, random, re, subprocess, sys

folder, reference, program = sys.argv[1:]
from common import MACROBLOCK_TYPES, Counts
from plain_filter import deblock

STILL = [[(-1, (0, 0)), (-1, (0, 0))] for _ in range(4)]


def proved(planes, records, lists, width, height):
    """The planes after the built program."""
    text = [f"{16 * width} {16 * height}"] + [" ".join(map(str, entries)) for entries in lists]
    text += [" ".join(map(str, row)) for plane in planes for row in plane]
    for mb in records:
        numbers = [MACROBLOCK_TYPES.index(mb["kind"]), int(mb["transform8"]), mb["qp"]]
        for (r0, v0), (r1, v1) in mb["motion"]:
            numbers += [r0, r1, *v0, *v1]
        numbers += [int(any(16 * b <= place < 16 * b + 16 for place in mb["levels"])) for b in range(16)]
        text.append(" ".join(map(str, numbers)))
    out = subprocess.run([program, "filter"], input="\n".join(text) + "\n", capture_output=True, text=True)
    if out.returncode:
        sys.exit(f"the program refuses a picture: status {out.returncode}")
    rows = [list(map(int, line.split())) for line in out.stdout.splitlines()]
    sizes = [len(plane) for plane in planes]
    return [rows[sum(sizes[:c]):sum(sizes[:c + 1])] for c in range(3)]


def plain(planes, records, lists, width, height):
    planes = [[list(row) for row in plane] for plane in planes]
    deblock(planes, records, lists, width, height)
    return planes


def film(path, width, height, pictures, rng):
    with open(path, "wb") as f:
        f.write(b"YUV4MPEG2 W%d H%d\n" % (width, height))
        for _ in range(pictures):
            f.write(b"FRAME\n")
            for w, h in ((width, height), (width // 2, height // 2), (width // 2, height // 2)):
                noise = rng.choice((3, 8, 20))
                base = [[rng.randrange(60, 200) for _ in range(w // 8 + 2)] for _ in range(h // 8 + 2)]
                f.write(bytes(max(0, min(255, base[y // 16 if noise < 8 else y // 8][x // 8] + rng.randrange(-noise, noise + 1))) for y in range(h) for x in range(w)))


def pictures_of(path, width, height):
    data = open(path, "rb").read()
    at, out = data.index(b"\n") + 1, []
    while at < len(data):
        at = data.index(b"\n", at) + 1
        planes = []
        for w, h in ((width, height), (width // 2, height // 2), (width // 2, height // 2)):
            planes.append([list(data[at + y * w:at + y * w + w]) for y in range(h)])
            at += w * h
        out.append(planes)
    return out


def records_of(path):
    """The records of each coded picture, in coded order."""
    out = []
    for line in open(path):
        if line.startswith("picture"):
            out.append([])
        elif match := re.match(r"  mb \d+ \(\d+,\d+\) (\w+) t8 (\d) .* qp (\d+)", line):
            kind = match[1]
            out[-1].append({"kind": kind, "intra": MACROBLOCK_TYPES.index(kind) < 4, "pcm": kind == "Pcm", "transform8": match[2] == "1",
                            "qp": int(match[3]), "levels": [], "motion": STILL})
        elif line.startswith("   luma "):
            out[-1][-1]["levels"] = [int(word.split(":")[0]) for word in line.split()[1].split(",")]
    return out


def encode(stage, source, settings):
    dump, recon = os.path.join(folder, f"dump{stage}"), os.path.join(folder, f"recon{stage}")
    subprocess.run([reference, "--stage", str(stage), "--dump", dump, "encode", "--in", source, "--out", os.path.join(folder, "stream"),
                    "--recon", recon, *settings], check=True, capture_output=True)
    return records_of(dump), recon


def intra_pictures(rng):
    """Films of IDR pictures: coded without the filter and with it, they have the same records."""
    for width, height, qp, transform in ((64, 48, 20, 1), (64, 48, 30, 1), (80, 32, 36, 0), (48, 64, 42, 1), (48, 48, 51, 1), (32, 32, 0, 1)):
        source = os.path.join(folder, "film")
        film(source, width, height, 3, rng)
        settings = ["--qp", str(qp), "--t8x8", "on" if transform else "off"]
        before, unfiltered = encode(5, source, settings)
        after, filtered = encode(6, source, settings)
        assert before == after, "the records differ"
        for records, given, wanted in zip(after, pictures_of(unfiltered, width, height), pictures_of(filtered, width, height)):
            kind = "pictures of the reference encoder that the filter changes" if given != wanted else "pictures that it leaves"
            for name, call in (("the plain filter", plain), ("the program", proved)):
                if call(given, records, [[0] * 4, [0] * 4], width // 16, height // 16) == wanted:
                    counts.agree(f"{name}: {kind}")
                else:
                    counts.differ(f"{name} from the reference encoder at QP {qp}")


def random_record(rng):
    kind = rng.choice(MACROBLOCK_TYPES)
    intra = MACROBLOCK_TYPES.index(kind) < 4
    motion = STILL
    if not intra:
        def one():
            used = rng.choice((1, 2, 3))
            near = [tuple(rng.choice((0, 3, 4, -3, -4, 8)) for _ in range(2)) for _ in range(2)]
            return [(rng.randrange(4) if used >> l & 1 else -1, near[l]) for l in range(2)]
        motion = [one() for _ in range(4)]
        if rng.random() < 0.5:
            motion = [motion[0]] * 4
    blocks = [b for b in range(16) if not intra and rng.random() < rng.choice((0, 0.1, 0.5))]
    return {"kind": kind, "intra": intra, "pcm": kind == "Pcm", "transform8": kind != "Pcm" and rng.random() < 0.4, "qp": rng.randrange(20, 52),
            "levels": [16 * b for b in blocks], "motion": motion}


def random_pictures(rng, count):
    """Random records, inter ones among them, and lists in which a picture stands more than once."""
    for _ in range(count):
        width, height = rng.randrange(1, 5), rng.randrange(1, 5)
        lists = [[rng.choice((4, 7, -2)) for _ in range(4)] for _ in range(2)]
        records = [random_record(rng) for _ in range(width * height)]
        spread = rng.choice((2, 6, 15))
        planes = []
        for scale in (16, 8, 8):
            planes.append([[max(0, min(255, 120 + (x // 4 * 5 + y // 4 * 3) % spread + rng.randrange(spread))) for x in range(scale * width)] for y in range(scale * height)])
        if proved(planes, records, lists, width, height) == plain(planes, records, lists, width, height):
            counts.agree("the program and the plain filter: random pictures")
        else:
            counts.differ("a random picture")


counts, rng = Counts(), random.Random(11)
intra_pictures(rng)
random_pictures(rng, 60)
counts.finish("filtered pictures")
