"""Compares the built `encode` and `trial` with a reference encoder's: see compare_encode.sh."""
import os
import random
import shutil
import subprocess
import sys

from common import film_samples

folder, reference, program, random_runs, seed = sys.argv[1:]
random.seed(int(seed))


def planes(width, height, sample):
    """A picture whose luma is sample(x, y) and whose chroma follows it."""
    luma = bytes(sample(x, y) & 255 for y in range(height) for x in range(width))
    cb = bytes((sample(2 * x, 2 * y) // 2 + 64) & 255 for y in range(height // 2) for x in range(width // 2))
    cr = bytes((255 - sample(2 * x, 2 * y)) & 255 for y in range(height // 2) for x in range(width // 2))
    return luma + cb + cr


def noise(width, height, most):
    return bytes(random.randrange(most + 1) for _ in range(width * height * 3 // 2))


def texture(x, y):
    return (x * 31 ^ y * 57 ^ (x * y // 3)) % 200 + 20


# each kind gives picture t of a film
KINDS = {
    "grey": lambda w, h, t: bytes([128]) * (w * h * 3 // 2),
    "white": lambda w, h, t: bytes([255]) * (w * h * 3 // 2),
    "flat": lambda w, h, t: bytes([(37 + 50 * t) % 256]) * (w * h) + bytes([90]) * (w * h // 4) + bytes([200]) * (w * h // 4),
    "to the right": lambda w, h, t: planes(w, h, lambda x, y: (3 * x + 5 * t) % 256),
    "downwards": lambda w, h, t: planes(w, h, lambda x, y: (4 * y + t) % 256),
    "moving texture": lambda w, h, t: planes(w, h, lambda x, y: texture(x + 2 * t, y + t)),
    "still texture": lambda w, h, t: planes(w, h, texture),
    "half texture": lambda w, h, t: planes(w, h, lambda x, y: (texture((2 * x + t) // 2, y) + texture((2 * x + t + 1) // 2, y)) // 2),
    "checks of 4": lambda w, h, t: planes(w, h, lambda x, y: 30 + 190 * ((x // 4 + y // 4 + t) % 2)),
    "stripes": lambda w, h, t: planes(w, h, lambda x, y: 40 + 170 * (((x + t) // 3) % 2)),
    "bars": lambda w, h, t: planes(w, h, lambda x, y: 220 - 160 * (((y - t) // 5) % 2)),
    "noise": lambda w, h, t: noise(w, h, 255),
    "faint noise": lambda w, h, t: bytes(100 + n for n in noise(w, h, 6)),
    "circle": lambda w, h, t: planes(w, h, lambda x, y: 210 if (x - w // 2 + 2 * t) ** 2 + (y - h // 2 + t) ** 2 < (w * w) // 9 else 60 + x),
    "waves": lambda w, h, t: planes(w, h, lambda x, y: 128 + (x * x // 7 + y * x // 5 + 11 * t) % 90 - 40),
    "a cut": lambda w, h, t: planes(w, h, (lambda x, y: texture(x + t, y)) if t < 3 else (lambda x, y: 200 - texture(y, x - t))),
}


def film(width, height, pictures, more=b""):
    return b"YUV4MPEG2 W%d H%d%s\n" % (width, height, more) + b"".join(b"FRAME\n" + p for p in pictures)


def read(path):
    if not os.path.exists(path):
        return None
    with open(path, "rb") as file:
        return file.read()


NAMES = ("stream", "recon", "report")
PARTS = ("status", "output", "line", "stream", "reconstruction", "report")
failed = decoded = decoded_twice = compared = 0
statuses = {}
ffmpeg = shutil.which("ffmpeg")
gstreamer = shutil.which("gst-launch-1.0")
if gstreamer and subprocess.run(["gst-inspect-1.0", "openh264dec"], capture_output=True).returncode != 0:
    gstreamer = None
source = os.path.join(folder, "film.y4m")


def write(data):
    with open(source, "wb") as file:
        file.write(data)


def run(command, name, words):
    """What a run answers and leaves: the words' names become files of this run's own."""
    outs = {n: os.path.join(folder, name + "." + n) for n in NAMES}
    for path in outs.values():
        if os.path.exists(path):
            os.remove(path)
    ran = subprocess.run(command + [outs.get(w, w) for w in words], capture_output=True)
    return (ran.returncode, ran.stdout, ran.stderr) + tuple(read(outs[n]) for n in NAMES)


def compare(title, words):
    """Both do the same. The reference takes more than one worker from stage 14 on, with no other change."""
    global failed, compared
    stage = "14" if "--workers" in words else "12"
    ours = run([program], "ours", words)
    theirs = run([reference, "--stage", stage], "theirs", words)
    compared += 1
    statuses[theirs[0]] = statuses.get(theirs[0], 0) + 1
    if ours != theirs:
        failed += 1
        differing = [part for part, a, b in zip(PARTS, ours, theirs) if a != b]
        print(f"differs: {title}: {', '.join(differing)}; {ours[0]} {ours[2]!r}, reference {theirs[0]} {theirs[2]!r}")
        print(f"  words: {' '.join(words)}")
    return ours


def decoded_by(command, stream):
    """What a decoder makes of a stream."""
    inside, outside = os.path.join(folder, "decoded.264"), os.path.join(folder, "decoded")
    with open(inside, "wb") as file:
        file.write(stream)
    if os.path.exists(outside):
        os.remove(outside)
    subprocess.run(command(inside, outside), check=True, stdout=subprocess.DEVNULL)
    return read(outside)


def by_ffmpeg(inside, outside):
    return [ffmpeg, "-v", "error", "-y", "-f", "h264", "-i", inside, "-fps_mode", "passthrough", "-f", "rawvideo", "-pix_fmt", "yuv420p", outside]


def by_gstreamer(inside, outside):
    return [gstreamer, "-q", "filesrc", f"location={inside}", "!", "h264parse", "!", "openh264dec", "!", "video/x-raw,format=I420", "!", "filesink", f"location={outside}"]


def decode(title, head, ours):
    """The stream, decoded by others, is the reconstruction; also the whole pictures before a refusal."""
    global failed, decoded, decoded_twice
    if not ffmpeg or not ours[3]:
        return
    samples = film_samples(ours[4], head)
    decoded += 1
    if decoded_by(by_ffmpeg, ours[3]) != samples:
        failed += 1
        print(f"ffmpeg decodes otherwise: {title}")
    # GStreamer ends the rows of its planes at multiples of 4 bytes, and shows nothing of a stream of one picture.
    if gstreamer and b" B qp " not in ours[5] and head[0] % 8 == 0 and len(samples) >= 3 * head[0] * head[1]:
        decoded_twice += 1
        if decoded_by(by_gstreamer, ours[3]) != samples:
            failed += 1
            print(f"OpenH264 decodes otherwise: {title}")


PLACES = ["--in", source, "--out", "stream", "--recon", "recon", "--report", "report"]
ENCODE = ["encode"] + PLACES
OUTPUTS = ["--out", "stream", "--recon", "recon", "--report", "report"]

# every kind of film, at the defaults and at settings that differ from film to film
for number, (kind, picture) in enumerate(KINDS.items()):
    for width, height, count in [(16, 16, 4), (48, 32, 5), (34, 50, 6)]:
        write(film(width, height, [picture(width, height, t) for t in range(count)]))
        for words in [
            ["--bitrate", "1000000"],
            ["--bitrate", "200000", "--qp", str(number * 3), "--refs", str(1 + number % 4), "--bframes", "0", "--t8x8", "off"],
            ["--bitrate", "3000000", "--qp", str(51 - number * 3), "--bframes", str(1 + number % 4), "--idr", str(2 + number % 5), "--range", str(1 + 2 * number)],
        ]:
            title = f"{kind}, {width}x{height} {' '.join(words)}"
            decode(title, (width, height), compare(title, ENCODE + words))

# each option at other values than its default, and at more than one size
for width, height in [(32, 48), (64, 32), (18, 34)]:
    write(film(width, height, [KINDS["moving texture"](width, height, t) for t in range(7)], b" F30:1"))
    for words in (
        [["--qp", q] for q in ("0", "13", "38", "51")]
        + [["--refs", r] for r in ("2", "3", "4")]
        + [["--refs", "1", "--bframes", "0"], ["--refs", "1"]]
        + [["--bframes", b] for b in ("0", "1", "3", "4")]
        + [["--idr", i] for i in ("1", "2", "5", "600")]
        + [["--range", r] for r in ("1", "7", "32")]
        + [["--slices", s] for s in ("2", "3", "4", "17")]
        + [["--workers", w] for w in ("2", "64")]
        + [["--level", level] for level in ("10", "30", "51", "9", "62")]
        + [["--cpb", c] for c in ("40000", "1000000", "100000000", "100000016", "16")]
        + [["--delay", d] for d in ("0", "1", "45000", "90000", "4294967295")]
        + [["--t8x8", t] for t in ("on", "off")]
    ):
        title = f"{width}x{height} {' '.join(words)}"
        decode(title, (width, height), compare(title, ENCODE + ["--bitrate", "1000000"] + words))

# larger pictures, at the defaults too
for width, height, kind, words in [
    (176, 144, "moving texture", []),
    (176, 144, "circle", ["--slices", "9", "--qp", "37"]),
    (352, 288, "waves", ["--slices", "5", "--qp", "22", "--t8x8", "off"]),
    (48, 256, "noise", ["--slices", "16", "--qp", "30", "--range", "4"]),
    (2048, 16, "to the right", ["--qp", "30"]),
    (16, 1600, "downwards", ["--qp", "30", "--slices", "16"]),
]:
    write(film(width, height, [KINDS[kind](width, height, t) for t in range(4)]))
    title = f"{kind}, {width}x{height} {' '.join(words)}"
    decode(title, (width, height), compare(title, ENCODE + ["--bitrate", "4000000"] + words))

# buffers that are just large enough, and such that are too small
grey = film(16, 16, [KINDS["grey"](16, 16, 0)] * 2)
for data, words in [
    (grey, ["--bitrate", "64"]),
    (grey, ["--bitrate", "64", "--cpb", "2048", "--idr", "1"]),
    (grey, ["--bitrate", "1000000", "--cpb", "40048", "--delay", "1802"]),
    (grey, ["--bitrate", "1000000", "--cpb", "40032"]),
    (film(32, 32, [noise(32, 32, 255) for _ in range(8)]), ["--bitrate", "100000", "--cpb", "8000"]),
    (film(32, 32, [noise(32, 32, 255) for _ in range(8)]), ["--bitrate", "30000", "--cpb", "2000"]),
    (film(48, 48, [KINDS["a cut"](48, 48, t) for t in range(8)]), ["--bitrate", "50000", "--cpb", "4096", "--delay", "1000"]),
]:
    write(data)
    compare(f"buffer {' '.join(words)}", ENCODE + words)

# words that are refused, and such that are read in another form
write(grey)
RATE = ["--bitrate", "1000000"]
for words in [
    [], ["encode"], ["shop"], ["Encode"] + PLACES + RATE, ENCODE, ENCODE[:-1] + RATE, ENCODE + RATE[:1], ENCODE + ["--bitrate", "63"],
    ENCODE + ["--bitrate", "64"], ENCODE + ["--bitrate", "127"], ENCODE + ["--bitrate", "360000000"], ENCODE + ["--bitrate", "360000001"],
    ENCODE + ["--bitrate=1000000"], ENCODE + ["--bitrate=1000000", "--qp=30"], ENCODE + RATE + RATE, ENCODE + RATE + ["--qp", "52"],
    ENCODE + RATE + ["--qp", "-1"], ENCODE + RATE + ["--qp", ""], ENCODE + RATE + ["--qp", "+26"], ENCODE + RATE + ["--qp", "026"],
    ENCODE + RATE + ["--refs", "0"], ENCODE + RATE + ["--refs", "5"], ENCODE + RATE + ["--bframes", "5"], ENCODE + RATE + ["--idr", "0"],
    ENCODE + RATE + ["--idr", "601"], ENCODE + RATE + ["--range", "0"], ENCODE + RATE + ["--range", "33"], ENCODE + RATE + ["--slices", "0"],
    ENCODE + RATE + ["--slices", "256"], ENCODE + RATE + ["--slices", "2"], ENCODE + RATE + ["--workers", "0"], ENCODE + RATE + ["--workers", "65"],
    ENCODE + RATE + ["--level", "256"], ENCODE + RATE + ["--t8x8", "yes"], ENCODE + RATE + ["--t8x8", "On"], ENCODE + RATE + ["x"],
    ENCODE + RATE + ["--help"], ENCODE + RATE + ["--version"], ENCODE + RATE + ["--seed", "1"], ["store"] + PLACES,
    ["store", "--in", source, "--out", "stream"], ["store", f"--in={source}", "--out", "stream"], ["store", "--in", source], ["trial"] + OUTPUTS + RATE,
]:
    compare(f"words {words}", words)

# trial
for words in [
    ["--seed", "0", "--width", "16", "--height", "16", "--pictures", "0"], ["--seed", "7", "--width", "64", "--height", "64", "--pictures", "9", "--slices", "4"],
    ["--seed", "18446744073709551615", "--width", "34", "--height", "18", "--pictures", "5"], ["--seed", "1", "--width", "17", "--height", "16", "--pictures", "2"],
    ["--seed", "18446744073709551616", "--width", "16", "--height", "16", "--pictures", "1"], ["--seed", "1", "--width", "1922", "--height", "16", "--pictures", "1"],
    ["--seed", "1", "--width", "16", "--height", "16", "--pictures", "301"], ["--seed", "1", "--width", "16", "--height", "16", "--pictures", "3", "--refs", "1"],
]:
    ours = compare(f"trial {words}", ["trial"] + OUTPUTS + RATE + words)
    if ours[0] == 0:
        decode(f"trial {words}", (int(words[3]), int(words[5])), ours)

# films that are refused, and where their faults stand
whole = film(32, 32, [noise(32, 32, 255) for _ in range(6)])
for title, data in {
    "cut in its second picture": whole[: 20 + 1542 + 700],
    "cut in its fifth picture": whole[: -1600],
    "cut at its end": whole[:-1],
    "bytes behind it": whole + b"F",
    "other bytes behind it": whole + b"G",
    "no head": b"RIFF",
    "nothing": b"",
    "no pictures": b"YUV4MPEG2 W16 H16\n",
    "an odd size": b"YUV4MPEG2 W17 H16\n",
    "too small": b"YUV4MPEG2 W14 H16\n",
    "no height": b"YUV4MPEG2 W16\n",
    "interlaced": b"YUV4MPEG2 W16 H16 It\n",
    "other chroma": b"YUV4MPEG2 W16 H16 C444\n",
    "a rate too high": b"YUV4MPEG2 W16 H16 F173:1\n",
    "another word for a picture": whole.replace(b"FRAME\n", b"FRAMES", 1),
    "words behind FRAME": whole.replace(b"FRAME\n", b"FRAME Ip\n", 2),
}.items():
    write(data)
    for words in ([], ["--slices", "3"], ["--bframes", "0", "--idr", "2"]):
        compare(f"film: {title} {' '.join(words)}", ENCODE + RATE + words)

# places that can't be opened, in order
write(grey)
nowhere = os.path.join(folder, "nowhere", "file")
for missing in range(1, 16):
    names = [nowhere if missing >> k & 1 else name for k, name in enumerate((source, "stream", "recon", "report"))]
    compare(f"no {missing}", ["encode", "--in", names[0], "--out", names[1], "--recon", names[2], "--report", names[3]] + RATE)
compare("no input, bad settings", ["encode", "--in", nowhere] + OUTPUTS + RATE + ["--refs", "1"])
compare("no input, settings against the film", ["encode", "--in", nowhere] + OUTPUTS + RATE + ["--slices", "99"])
compare("no output, settings against the film", ["encode", "--in", source, "--out", nowhere, "--recon", "recon", "--report", "report"] + RATE + ["--slices", "99"])

# random runs
print(f"random runs: {random_runs} by the seed {seed}")
for number in range(int(random_runs)):
    width, height = 2 * random.randrange(8, 40), 2 * random.randrange(8, 40)
    kind = random.choice(list(KINDS))
    pictures = [KINDS[kind](width, height, t) for t in range(random.randrange(0, 11))]
    rate_of_film = random.choice([b"", b" F25:1", b" F30000:1001", b" F50:2", b" F12:1 Ip", b" F0:0"])
    data = film(width, height, pictures, rate_of_film)
    if random.random() < 0.1:
        data = data[: random.randrange(len(data) + 1)]
    write(data)
    rate = int(2 ** random.uniform(12, 23))
    words = ["--bitrate", str(rate)]

    def maybe(chance, name, value):
        if random.random() < chance:
            words.extend([name, str(value)])

    maybe(0.6, "--qp", random.randrange(52))
    maybe(0.5, "--refs", random.randrange(1, 5))
    maybe(0.5, "--bframes", random.randrange(5))
    maybe(0.5, "--idr", random.choice([1, 2, 3, 5, 7, 250]))
    maybe(0.5, "--range", random.randrange(1, 33))
    maybe(0.4, "--slices", random.randrange(1, 5))
    maybe(0.2, "--workers", random.randrange(1, 9))
    maybe(0.4, "--t8x8", random.choice(["on", "off"]))
    maybe(0.3, "--cpb", int(rate * 2 ** random.uniform(-4, 1)) + 16)
    maybe(0.05, "--delay", random.randrange(100000))
    maybe(0.03, "--level", random.choice([10, 13, 20, 30, 40, 51]))
    title = f"random run {number}: {kind}, {width}x{height}, {len(pictures)} pictures"
    decode(title, (width, height), compare(title, ENCODE + words))

told = ", ".join(f"{count} with status {status}" for status, count in sorted(statuses.items()))
print(f"compared {compared} runs with the reference ({told}), {decoded} streams decoded by ffmpeg, {decoded_twice} by OpenH264, {failed} differ")
sys.exit(1 if failed or not compared else 0)
