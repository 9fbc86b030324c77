"""Compares what stands round the slices of a stream with a reference encoder's. See compare_heads.sh."""

import os
import random
import re
import subprocess
import sys

from common import Counts

folder, reference, program = sys.argv[1:]
random.seed(17)
counts = Counts()
RUNS, LEVEL_RUNS = 160, 300
KINDS = "IPB"
LEVELS = [10, 11, 12, 13, 20, 21, 22, 30, 31, 32, 40, 41, 42, 50, 51]
RATES = [(25, 1), (30000, 1001), (24, 1), (50, 2), (60, 1), (172, 1), (1, 1), (1, 3), (7, 2), (24000, 1001), (9999999, 999983)]
SEQUENCE_SET, PICTURE_SET, MESSAGES, FILLER = 7, 8, 6, 12
picture_line = re.compile(r"picture coded (\d+) display \d+ kind \w .* moved (\S+) ")


def path(name):
    return os.path.join(folder, name)


def read(name):
    with open(path(name), "rb") as file:
        return file.read()


def write_film(width, height, num, den, pictures):
    with open(path("film"), "wb") as file:
        file.write(b"YUV4MPEG2 W%d H%d F%d:%d\n" % (width, height, num, den))
        for picture in pictures:
            file.write(b"FRAME\n" + picture)


def made(width, height, count):
    """Pictures with a texture that moves or stands still, and some that are all noise or all grey."""
    noise, pan, shade = random.choice([0, 3, 20, 120]), random.randint(-3, 3), random.choice([0, 1, 4])
    texture = bytes(random.randint(60, 180) for _ in range(64 * 64))
    for t in range(count):
        grey = random.random() < 0.1
        luma = (texture[64 * (y // shade % 64 if shade else 0) + ((x + pan * t) // (shade or 1)) % 64] for y in range(height) for x in range(width))
        luma = bytes(128 if grey else max(0, min(255, sample + random.randint(-noise, noise))) for sample in luma)
        yield luma + bytes([100]) * (width * height // 4) + bytes([150]) * (width * height // 4)


def refer(words):
    """What a run of the reference encoder answers, and its report."""
    names = ("stream", "recon", "report", "dump")
    for name in names:
        if os.path.exists(path(name)):
            os.remove(path(name))
    command = [reference, "--stage", "12", "--dump", path("dump"), "encode", "--in", path("film"), "--out", path("stream")]
    ran = subprocess.run(command + ["--recon", path("recon"), "--report", path("report")] + words, capture_output=True, text=True)
    report = read("report").decode().splitlines() if ran.returncode != 4 else []
    return ran.returncode, ran.stderr, report


def ask(questions):
    """The answers of the encoder's parts, line by line."""
    ran = subprocess.run([program, "heads"], input="".join(q + "\n" for q in questions), capture_output=True, text=True)
    if ran.returncode:
        sys.exit(f"tool_compare ended with status {ran.returncode}: {ran.stderr}")
    return iter(ran.stdout.splitlines())


def units_of(stream):
    """The units of a stream, each with its start code (annex B): as no unit ends in a zero, one before a start code belongs to it."""
    starts = [m.start() - (m.start() > 0 and stream[m.start() - 1] == 0) for m in re.finditer(b"\0\0\1", stream)]
    return [stream[a:b] for a, b in zip(starts, starts[1:] + [len(stream)])]


def kind_of(unit):
    return unit[unit.index(1) + 1] & 31


def payload_start(unit):
    """The front of a unit's payload without the bytes 03 behind two zeros (clause 7.4.1), in hexadecimal digits."""
    front = unit[unit.index(1) + 2:][:40]
    return re.sub(b"\0\0\3", b"\0\0", front).hex().upper()


class Run:
    """Settings, and what the reference encoder made of them."""

    def __init__(self, number):
        self.number = number
        self.width, self.height = 2 * random.randint(8, 40), 2 * random.randint(8, 40)
        self.mbs = ((self.width + 15) // 16, (self.height + 15) // 16)
        self.num, self.den = random.choice(RATES)
        share = random.choice([700, 2000, 6000, 20000, 60000])
        rate = max(64, min(360000000, share * self.num // self.den + random.randint(0, 99)))
        self.rate = rate // 64 * 64
        least = (self.rate * self.den + self.num - 1) // self.num + 48
        cpb = least + random.choice([16, 40, 500, 5000, 50000, 1000000])
        self.cpb = cpb // 16 * 16
        if self.cpb < least:
            self.cpb = cpb = cpb + 16
            self.cpb = cpb // 16 * 16
        # at least a few hundred bits are there for the first picture, so that most films are coded to their end
        most = 90000 * self.cpb // self.rate
        self.delay = random.choice([most, max(1, most // 2), random.randint(max(1, most // 3), max(1, most))])
        self.delay = min(self.delay, 4294967295)
        self.qp, self.bframes = random.choice([0, 1, 20, 26, 26, 33, 45, 51]), random.randint(0, 4)
        self.refs = random.randint(2 if self.bframes else 1, 4)
        self.idr = random.choice([1, 2, 3, 4, 5, 6, 8, 250, 600])
        self.slices = random.randint(1, self.mbs[1])
        self.t8x8 = random.random() < 0.5
        self.asked_level = random.choice([0, 0, 0, 51, 42, 40])
        self.count = random.choice([1, 2, 5, 9, 12, 14])
        words = {"bitrate": rate, "cpb": cpb, "delay": self.delay, "qp": self.qp, "refs": self.refs, "bframes": self.bframes, "idr": self.idr}
        words.update(slices=self.slices, level=self.asked_level, t8x8="on" if self.t8x8 else "off", range=random.choice([1, 2]))
        self.words = [word for name, value in words.items() for word in ("--" + name, str(value))]
        write_film(self.width, self.height, self.num, self.den, made(self.width, self.height, self.count))
        self.status, self.line, self.report = refer(self.words)
        if self.report:
            self.first = self.report[0].split()
            self.pictures = [line.split() for line in self.report[1:] if not line.startswith("pictures")]
            self.take_units(units_of(read("stream")))
            moved = [line.group(2) for line in map(picture_line.match, read("dump").decode().splitlines()) if line]
            # the picture with index k in list 0 has the number of the present one, less k + 1
            self.moved = [0 if m == "None" else int(re.search(r"\d+", m)[0]) + 1 for m in moved]

    def title(self):
        return f"run {self.number}: W{self.width} H{self.height} F{self.num}:{self.den} {self.count} pictures, {' '.join(self.words)}:"

    def take_units(self, units):
        """Parts a stream's units into those of each picture: each picture begins with a unit with a long start code that no parameter set stands before."""
        self.access_units = []
        for unit in units:
            kind = kind_of(unit)
            if kind == SEQUENCE_SET or (kind == MESSAGES and unit.startswith(b"\0\0\0\1")):
                self.access_units.append([])
            self.access_units[-1].append(unit)

    def need(self):
        return f"level {self.mbs[0]} {self.mbs[1]} {self.num} {self.den} {self.rate} {self.cpb} {self.refs}"

    def coded_bits(self, n):
        return sum(8 * len(unit) for unit in self.access_units[n] if kind_of(unit) != FILLER)

    def first_questions(self):
        yield self.need()
        yield f"plan {self.count} {self.idr} {self.bframes}"
        units = [(KINDS.index(p[2]), self.coded_bits(n)) for n, p in enumerate(self.pictures)]
        if self.status == 5:
            # the picture that doesn't fit: its bits are only told in the line, and are more than there are
            units.append((0, 4294967295))
        numbers = " ".join(f"{kind} {bits}" for kind, bits in units)
        yield f"ledger {self.rate} {self.cpb} {self.delay} {self.num} {self.den} {self.qp} {numbers}".rstrip()

    def take_first(self, answers):
        self.levels = list(map(int, next(answers).split()))
        self.plan = [next(answers).split() for _ in range(self.count)]
        self.ledger = [list(map(int, next(answers).split())) for _ in self.pictures]
        self.refused = next(answers).split() if self.status == 5 else []

    def second_questions(self):
        """Of each picture what is asked, with the kind of what is answered."""
        level = int(self.first[7])
        held, idrs, last_idr = [], 0, 0
        for n, picture in enumerate(self.pictures):
            display, kind, frame_num, poc = self.plan[n]
            display, frame_num, poc = int(display), int(frame_num), int(poc)
            have, start_qp, delay, filler = self.ledger[n]
            is_idr = kind == "I"
            # clause D.2.3: both in clock ticks of half a picture, the removal counted from the buffering period before
            removal, output = 2 * (n - last_idr), 2 * (display - n + (self.bframes != 0))
            if is_idr:
                yield n, "SPS", f"sps {self.width} {self.height} {level} {self.refs} {self.num} {self.den} {self.rate} {self.cpb} {int(self.bframes != 0)}"
                yield n, "PPS", f"pps {int(self.t8x8)}"
                held, last_idr = [], n
            yield n, "messages with a buffering period" if is_idr else "messages", f"sei {delay if is_idr else 0} {removal} {output}"
            before = [p for p in held if p < poc]
            refs0 = {"I": 0, "P": len(held), "B": len(before)}[kind]
            numbers = f"{frame_num} {idrs % 2 if is_idr else 0} {poc} {refs0} {int(kind == 'B')} {self.moved[n]} {picture[4]}"
            for s in range(self.slices):
                first = s * self.mbs[1] // self.slices * self.mbs[0]
                yield n, f"headers of {kind} slices", f"slice {KINDS.index(kind)} {first} {numbers}"
            if filler:
                yield n, "filler units", f"filler {filler}"
            idrs += is_idr
            if kind != "B":
                # the window that slides over the reference pictures (clause 8.2.5.3)
                held = (held + [poc])[-self.refs:]

    def compare_report(self):
        check = self.check
        check("first lines of reports", self.first, f"rate {self.rate} cpb {self.cpb} delay {self.delay} level {self.first[7]} slices {self.slices}".split())
        least, *fitting = self.levels
        check("levels", int(self.first[7]), self.asked_level or least)
        check("levels that fit", True, int(self.first[7]) in fitting)
        check("pictures told and written", len(self.pictures), len(self.access_units))
        for n, picture in enumerate(self.pictures):
            _, display, kind, _, qp, trial, _, bits, _, filler, _, have = picture
            check("places and kinds in coded order", [display, kind], self.plan[n][:2])
            check("bits of coded pictures", int(bits), self.coded_bits(n))
            check("available bits", int(have), self.ledger[n][0])
            check("bits of filler", int(filler), 8 * self.ledger[n][3])
            start, qp = self.ledger[n][1], int(qp)
            if trial == "coarsest":
                check("QP of coarsest pictures", qp, 51)
            else:
                # the trials rise by 3 below 51, and then is 51
                check("QP of first trials" if qp == start else "QP of later trials", True, qp in [*range(start, 51, 3), 51])
        if self.status == 5:
            words = self.line.split()
            check("available bits of refused pictures", [words[1], words[6]], [self.plan[len(self.pictures)][0], self.refused[0]])
            check("refused pictures", True, int(words[3]) > int(self.refused[0]))

    def check(self, kind, theirs, ours):
        if theirs == ours:
            counts.agree(kind)
        else:
            counts.differ(self.title(), kind, "reference:", theirs, "encoder:", ours)

    def compare_units(self, answers):
        """Compares each unit with the answer to its question, in order."""
        left = [list(units) for units in self.access_units]
        for n, kind, question in self.second_questions():
            answer = next(answers, "")
            if not left[n]:
                counts.differ(self.title(), f"picture {n} has no more units, asked was {question}")
                continue
            unit = left[n].pop(0)
            theirs = unit.hex().upper()
            if question.startswith("slice"):
                # behind the header stands the slice's data; the unit's first bytes say whether it is an IDR picture, and what refers to it
                kinds = {"I": 0x65, "P": 0x41, "B": 0x01}
                check_header = unit[unit.index(1) + 1] == kinds[kind.split()[2]] and not unit.startswith(b"\0\0\0\1")
                self.check("header bytes of slices", True, check_header)
                theirs = payload_start(unit)[:len(answer)]
            self.check(kind, theirs, answer)
        for n, units in enumerate(left):
            if units:
                counts.differ(self.title(), f"picture {n} has {len(units)} more units")


def compare_levels():
    """Levels of films without pictures, of any size, at a level that is asked for or none."""
    asked = []
    for _ in range(LEVEL_RUNS):
        width, height = 2 * random.randint(8, 2048), 2 * random.randint(8, 1152)
        if random.random() < 0.5:
            width, height = 16 * random.randint(1, 60), 16 * random.randint(1, 40)
        num, den = random.choice(RATES)
        refs, level = random.randint(1, 4), random.choice([0, 0, 9, 14, random.choice(LEVELS), random.choice(LEVELS)])
        rate = min(360000000, 64 * 2 ** random.randint(0, 22) + 64 * random.randint(0, 9))
        cpb = (rate * den + num - 1) // num + 64 + random.choice([0, rate, 3 * rate])
        if random.random() < 0.3:
            # at the very bounds of a level
            rate = cpb = random.choice([96000, 288000, 576000, 1152000, 3000000, 6000000, 15000000, 21000000, 30000000]) + random.choice([-64, 0, 64])
        rate, cpb = rate // 64 * 64, cpb // 16 * 16
        if cpb * num < rate * den + 48 * num or cpb > 100000000 or rate > 360000000:
            continue
        write_film(width, height, num, den, [])
        words = ["--bitrate", str(rate), "--cpb", str(cpb), "--refs", str(refs), "--bframes", "0", "--level", str(level)]
        status, line, report = refer(words)
        told = int(report[0].split()[7]) if report else None
        need = f"level {(width + 15) // 16} {(height + 15) // 16} {num} {den} {rate} {cpb} {refs}"
        asked.append((need, level, status, told, words))
    answers = ask(need for need, *_ in asked)
    for need, level, status, told, words in asked:
        least, *fitting = map(int, next(answers).split())
        wanted = level if level in fitting else 0 if level else least
        if (told or 0) == wanted and status == (0 if wanted else 4):
            counts.agree("levels of films without pictures" if wanted else "levels that are refused")
        else:
            counts.differ(need, words, "reference:", status, told, "encoder:", least, fitting)


runs = [Run(number) for number in range(RUNS)]
for run in runs:
    if run.status not in (0, 5):
        counts.differ(run.title(), "reference:", run.status, run.line)
runs = [run for run in runs if run.status in (0, 5)]
answers = ask(question for run in runs for question in run.first_questions())
for run in runs:
    run.take_first(answers)
    run.compare_report()
answers = ask(question for run in runs for _, _, question in run.second_questions())
for run in runs:
    run.compare_units(answers)
    counts.agree("settings")
compare_levels()
counts.finish("heads, units and numbers")
