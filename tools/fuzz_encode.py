"""Gives the built program broken words, films and outputs, and compares it with a reference encoder: see fuzz_encode.sh."""
import os
import random
import resource
import shutil
import subprocess
import sys

folder, reference, program, runs, seed, real = sys.argv[1:]
random.seed(int(seed))
source = os.path.join(folder, "film.y4m")
NAMES = ("stream", "recon", "report")
PARTS = ("status", "output", "line", "stream", "reconstruction", "report")
LONGEST = 60  # seconds that a run may take
counts = {"compared": 0, "differ": 0}
statuses = {}


def read(path):
    if not os.path.exists(path):
        return None
    with open(path, "rb") as file:
        return file.read()


def write(data):
    with open(source, "wb") as file:
        file.write(data)


def outputs(name):
    return {n: os.path.join(folder, name + "." + n) for n in NAMES}


def run(command, name, words, **limits):
    """What a run answers and leaves: the words' names of outputs become files of this run's own."""
    outs = outputs(name)
    for path in outs.values():
        if os.path.exists(path):
            os.remove(path)
    ran = subprocess.run(command + [outs.get(w, w) for w in words], capture_output=True, timeout=LONGEST, **limits)
    return (ran.returncode, ran.stdout, ran.stderr) + tuple(read(outs[n]) for n in NAMES)


def differ(title, words, what):
    counts["differ"] += 1
    print(f"differs: {title}: {what}")
    print(f"  words: {words!r}")
    kept = os.path.join(os.environ.get("TMPDIR", "/tmp"), f"fuzz_encode.{seed}.{counts['differ']}.y4m")
    if os.path.exists(source):
        shutil.copy(source, kept)
        print(f"  film: {kept}")


def stage(words):
    """The reference takes more than one worker at its last stage alone."""
    return "14" if any(w.startswith("--workers") for w in words) else "12"


def compare(title, words):
    """Both do the same, and end by themselves."""
    counts["compared"] += 1
    try:
        ours = run([program], "ours", words)
        theirs = run([reference, "--stage", stage(words)], "theirs", words)
    except subprocess.TimeoutExpired as late:
        differ(title, words, f"{late.cmd[0]} took more than {LONGEST} seconds")
        return
    statuses[theirs[0]] = statuses.get(theirs[0], 0) + 1
    if ours != theirs:
        differing = [part for part, a, b in zip(PARTS, ours, theirs) if a != b]
        differ(title, words, f"{', '.join(differing)}; {ours[0]} {ours[2]!r}, reference {theirs[0]} {theirs[2]!r}")


PLACES = ["--in", source, "--out", "stream", "--recon", "recon", "--report", "report"]
ENCODE = ["encode"] + PLACES
RATE = ["--bitrate", "1000000"]


def samples(width, height, pictures):
    return [bytes(random.choice((16, 90, 128, 200, 255)) if random.random() < 0.1 else 128 for _ in range(width * height * 3 // 2)) for _ in range(pictures)]


def film(width, height, pictures, more=b""):
    return b"YUV4MPEG2 W%d H%d%s\n" % (width, height, more) + b"".join(b"FRAME\n" + p for p in samples(width, height, pictures))


# ---- films cut at every byte of their heads and first pictures
for data in (film(16, 16, 2, b" F25:1 Ip A1:1 C420mpeg2"), film(18, 16, 2)):
    for end in range(min(len(data), 2 * 450) + 1):
        write(data[:end])
        compare(f"a film of {len(data)} bytes, cut behind {end}", ENCODE + RATE)

# ---- sizes and rates at their limits
for width in (0, 2, 14, 15, 16, 17, 18, 4094, 4096, 4098, 99999, 999999999, 1000000000):
    for height in (0, 2, 14, 16, 17, 2304, 2306, 999999999):
        write(b"YUV4MPEG2 W%d H%d\n" % (width, height))
        compare(f"an empty film of {width}x{height}", ENCODE + RATE)
for rate in ("0:0", "0:1", "1:0", "1:1", "172:1", "173:1", "10000000:10000000", "10000001:10000000", "172000:1001", "1000000000:1", "25:", ":25", "25", "-1:1"):
    write(b"YUV4MPEG2 W16 H16 F%s\nFRAME\n" % rate.encode() + bytes(384))
    compare(f"a film with the rate {rate}", ENCODE + RATE)

# ---- random runs
LETTERS = b"WHFICAXYZ \n\t0123456789:.-+p?tbm"
TOKENS = [b" W16", b" W18", b" H16", b" H34", b" W0", b" H99999", b" F25:1", b" F30000:1001", b" F0:0", b" F1:0", b" F173:1", b" Ip", b" I?", b" It", b" Ib", b" A1:1", b" C420", b" C420jpeg",
          b" C420mpeg2", b" C420paldv", b" C422", b" C", b" X", b" XYSCSS=420MPEG2", b"  ", b" w16", b" W+16", b" W16x", b" F25", b" I", b"\0", b"\xff\xfe"]
real_film = read(real) if real else None


def head_of_random():
    text = b"YUV4MPEG2" if random.random() < 0.95 else random.choice((b"YUV4MPEG1", b"YUV4MPEG", b"yuv4mpeg2", b"RIFF", b"YUV4MPEG2YUV4MPEG2"))
    width, height = 2 * random.randrange(8, 25), 2 * random.randrange(8, 25)
    tokens = [b" W%d" % width, b" H%d" % height] + random.sample(TOKENS, random.choice((0, 0, 1, 2, 5)))
    random.shuffle(tokens)
    if random.random() < 0.02:
        tokens.append(b" X" + b"y" * random.choice((900, 990, 1000, 1100)))
    return text + b"".join(tokens) + (b"\n" if random.random() < 0.98 else b""), width, height


def frame_of_random():
    return random.choice((b"FRAME\n",) * 12 + (b"FRAME Ip\n", b"FRAME \n", b"FRAMES\n", b"FRAM\n", b"FRAME", b"frame\n", b"FRAME" + b" x" * random.choice((10, 500, 510, 600)) + b"\n"))


def broken(data):
    """A film with some bytes changed, taken out, put in or doubled, or cut."""
    data = bytearray(data)
    for _ in range(random.choice((0, 0, 1, 1, 2, 8))):
        if not data:
            break
        # most of what is told apart stands in the head and at the lines of pictures
        at = random.randrange(min(len(data), 80)) if random.random() < 0.6 else random.randrange(len(data))
        kind = random.randrange(5)
        if kind == 0:
            data[at] = random.choice(LETTERS) if random.random() < 0.7 else random.randrange(256)
        elif kind == 1:
            del data[at : at + random.choice((1, 1, 2, 10, 300))]
        elif kind == 2:
            data[at:at] = bytes(random.choice(LETTERS) for _ in range(random.choice((1, 1, 2, 10, 300))))
        elif kind == 3:
            part = data[at : at + random.choice((1, 6, 40, 500))]
            data[at:at] = part
        else:
            del data[random.randrange(len(data)) :]
    return bytes(data)


def random_film():
    if real_film and random.random() < 0.05:
        start = real_film.index(b"\n") + 1
        whole = real_film[: start + random.randrange(3 * (len(real_film) - start) // 20 + 1)]
        return broken(whole)
    head, width, height = head_of_random()
    text = head + b"".join(frame_of_random() + p for p in samples(width, height, random.randrange(6)))
    return broken(text) if random.random() < 0.7 else text


VALUES = ["", "0", "1", "2", "3", "4", "5", "16", "26", "51", "52", "63", "64", "65", "255", "256", "600", "601", "65536", "1000000", "4294967295", "4294967296", "18446744073709551616", "-1", "+2", "007", "1e3", "0x10", " 1", "on", "off", "é"]
OPTIONS = ["--bitrate", "--cpb", "--delay", "--qp", "--refs", "--bframes", "--idr", "--range", "--slices", "--workers", "--level", "--t8x8", "--in", "--out", "--recon", "--report", "--seed", "--width", "--height", "--pictures", "--help", "--version", "-h", "--", "--quiet"]


def settings_of_random():
    words = ["--bitrate", str(int(2 ** random.uniform(6, 23)))]
    for name, value in (("--qp", random.randrange(52)), ("--refs", random.randrange(1, 5)), ("--bframes", random.randrange(5)), ("--idr", random.choice((1, 2, 3, 250))), ("--range", random.choice((1, 4, 8))),
                        ("--slices", random.choice((1, 1, 2, 3, 17))), ("--workers", random.randrange(1, 4)), ("--t8x8", random.choice(("on", "off"))), ("--cpb", int(2 ** random.uniform(4, 22))),
                        ("--delay", int(2 ** random.uniform(0, 17))), ("--level", random.choice((0, 9, 10, 13, 30, 51, 62)))):
        if random.random() < (0.15 if name in ("--delay", "--level") else 0.3):
            words += [name, str(value)]
    return words


def broken_words(words):
    words = list(words)
    for _ in range(random.choice((0, 0, 0, 1, 1, 2, 4))):
        at = random.randrange(len(words) + 1)
        kind = random.randrange(6)
        if kind == 0:
            del words[at : at + random.choice((1, 2))]
        elif kind == 1:
            words[at:at] = [random.choice(OPTIONS), random.choice(VALUES)]
        elif kind == 2:
            words[at:at] = [random.choice(OPTIONS)]
        elif kind == 3 and at < len(words):
            words[at] = random.choice(VALUES) if not words[at].startswith(("--", os.sep)) else random.choice(OPTIONS)
        elif kind == 4 and at + 1 < len(words):
            words[at : at + 2] = [words[at] + "=" + words[at + 1]]
        else:
            words[at:at] = words[at : at + 2]
    # an output's name may have become another word: nothing outside the folder is written
    return [w for w in words if w in NAMES or w == source or os.sep not in w]


print(f"random runs: {runs} by the seed {seed}", flush=True)
os.chdir(folder)
for number in range(int(runs)):
    write(random_film())
    kind = random.random()
    if kind < 0.7:
        words = ENCODE + settings_of_random()
    elif kind < 0.85:
        words = ["store", "--in", source, "--out", "stream"]
    else:
        words = ["trial", "--seed", str(random.randrange(2**64)), "--width", str(random.choice((16, 18, 32, 34, 15, 0))), "--height", str(random.choice((16, 32, 48, 14))), "--pictures", str(random.randrange(5)),
                 "--out", "stream", "--recon", "recon", "--report", "report"] + settings_of_random()
    if random.random() < 0.3:
        words = broken_words(words)
    # a broken word may name an output that isn't one of the three: such runs would write beside each other
    if sum(w in NAMES for w in words) and any(w in ("--out", "--recon", "--report") and (i + 1 == len(words) or words[i + 1] not in NAMES) for i, w in enumerate(words)):
        continue
    compare(f"random run {number}", words)

# ---- outputs that can't be written, and limits: what each has to answer stands in the README's table of statuses
grey = b"YUV4MPEG2 W64 H64\n" + (b"FRAME\n" + bytes(128 for _ in range(64 * 96))) * 8
noise = b"YUV4MPEG2 W64 H64\n" + b"".join(b"FRAME\n" + bytes(random.randrange(256) for _ in range(64 * 96)) for _ in range(8))


def expect(title, words, status, line, **limits):
    counts["compared"] += 1
    try:
        got = run([program], "ours", words, **limits)
    except subprocess.TimeoutExpired:
        differ(title, words, f"took more than {LONGEST} seconds")
        return
    if got[0] not in status or (line is not None and got[2] not in line):
        differ(title, words, f"{got[0]} {got[2]!r}, and not {status} {line!r}")


def with_output(name, place):
    return ["encode", "--in", source] + [w for n, o in (("stream", "--out"), ("recon", "--recon"), ("report", "--report")) for w in (o, place if n == name else n)] + ["--bitrate", "3000000"]


inside = os.path.join(folder, "a folder")
os.makedirs(inside, exist_ok=True)
for name in NAMES:
    write(noise)
    if os.path.exists("/dev/full"):
        expect(f"a full disk for {name}", with_output(name, "/dev/full"), (7,), (f"write failed: {name}\n".encode(),))
    expect(f"a folder for {name}", with_output(name, inside), (8,), (f"open failed: {name}\n".encode(),))
    expect(f"a missing folder for {name}", with_output(name, os.path.join(folder, "nowhere", name)), (8,), (f"open failed: {name}\n".encode(),))
    expect(f"an empty name for {name}", with_output(name, ""), (8,), (f"open failed: {name}\n".encode(),))
    # what was read of the input before it was emptied is all that there is of it
    expect(f"the input's own name for {name}", with_output(name, source), (0, 3, 6), None)
write(noise)
expect("a folder for the input", ["encode", "--in", inside] + with_output("", "")[3:], (6, 8), (b"read failed\n", b"open failed: input\n"))
expect("no input", ["encode", "--in", os.path.join(folder, "nowhere.y4m")] + with_output("", "")[3:], (8,), (b"open failed: input\n",))


def limited(kind, most):
    def limit():
        resource.setrlimit(kind, (most, most))
    return limit


import signal

for most in (0, 1, 100, 5000, 20000):
    write(noise)

    def small_files(most=most):
        signal.signal(signal.SIGXFSZ, signal.SIG_IGN)
        resource.setrlimit(resource.RLIMIT_FSIZE, (most, most))

    expect(f"files of at most {most} bytes", with_output("", ""), (7,), tuple(f"write failed: {n}\n".encode() for n in NAMES), preexec_fn=small_files)
for most in (8, 16, 24, 32, 40, 48, 64, 96, 128, 256):
    write(grey)
    expect(f"{most} MiB of memory", with_output("", ""), (0, 9, 127, -11, -6) if most < 16 else (0, 9), None, preexec_fn=limited(resource.RLIMIT_AS, most << 20))
for name in NAMES:
    # a pipe whose reader is gone
    write(noise)
    reader, writer = os.pipe()
    os.close(reader)
    counts["compared"] += 1
    words = with_output(name, f"/dev/fd/{writer}")
    try:
        ran = subprocess.run([program] + [outputs("ours").get(w, w) for w in words], capture_output=True, timeout=LONGEST, pass_fds=(writer,))
        if ran.returncode not in (7, 8, -signal.SIGPIPE):
            differ(f"a closed pipe for {name}", words, f"{ran.returncode} {ran.stderr!r}")
        elif ran.returncode < 0:
            print(f"a closed pipe for {name} ends the run by the signal SIGPIPE")
    except subprocess.TimeoutExpired:
        differ(f"a closed pipe for {name}", words, "took too long")
    os.close(writer)

told = ", ".join(f"{count} with status {status}" for status, count in sorted(statuses.items()))
print(f"compared {counts['compared']} runs ({told}) by the seed {seed}, {counts['differ']} differ")
sys.exit(1 if counts["differ"] or not counts["compared"] else 0)
