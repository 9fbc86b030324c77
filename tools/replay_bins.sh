#!/bin/bash
# Codes the bins of real streams by the built coder and compares each slice's data byte for byte: a reference encoder writes
# streams of a film that is made here, with I, P and B slices, and says which bins each has; the states of the contexts are
# kept here, by the standard's tables.
#
# usage: tools/replay_bins.sh
. "$(dirname "$0")/common.sh"
need_reference
build tool_compare
tables=$PWD/tools/context_states.txt

python3 - "$folder" "$reference" "$program" "$tables" <<'PY'
import os, random, subprocess, sys
from common import Bits, Counts, units

folder, reference, program, tables = sys.argv[1:]

# The pairs m, n of tables 9-12 to 9-33 of ITU-T H.264 and the states of table 9-45.
pairs = {"I": {}, "P": {}}
next_lps = []
for line in open(tables):
    words = line.split()
    if not words or words[0] == "#":
        continue
    if words[0] == "lps":
        next_lps = [int(word) for word in words[1:]]
        continue
    first, last = map(int, words[1].split("-"))
    numbers = [tuple(map(int, word.split(","))) for word in words[2:]]
    assert len(numbers) == last - first + 1, line
    for kind in pairs:
        if words[0] in ("all", kind):
            pairs[kind].update(zip(range(first, last + 1), numbers))
assert len(next_lps) == 64

def start_state(pair, qp):  # clause 9.3.1.1
    m, n = pair
    pre = min(126, max(1, (m * min(51, max(0, qp)) >> 4) + n))
    return [63 - pre, 0] if pre <= 63 else [pre - 64, 1]

def follow(ctx, bit):  # clause 9.3.3.2.1.1
    state, mps = ctx
    if bit == mps:
        ctx[0] = state + 1 if state < 62 else state
    else:
        ctx[0] = next_lps[state]
        ctx[1] = 1 - mps if state == 0 else mps

def has_filter_field(payload):  # deblocking_filter_control_present_flag (7.3.2.2)
    b = Bits(payload)
    b.ue(), b.ue(), b.u(2)
    assert b.ue() == 0
    b.ue(), b.ue(), b.u(3), b.se(), b.se(), b.se()
    return b.u(1) == 1

def slice_of(header, payload, filter_field):  # 7.3.3, with frame_num and pic_order_cnt_lsb of 16 bits
    b = Bits(payload)
    first = b.ue()
    kind = "PBI"[b.ue() % 5]
    b.ue(), b.u(16)
    if header & 31 == 5:
        b.ue()
    b.u(16)
    if kind == "B":
        b.u(1)
    if kind != "I":
        if b.u(1):
            b.ue()
            if kind == "B":
                b.ue()
        for _ in range(2 if kind == "B" else 1):
            if b.u(1):
                while b.ue() != 3:
                    b.ue()
    if header & 31 == 5:
        b.u(2)
    elif header >> 5:
        assert b.u(1) == 0
    if kind != "I":
        assert b.ue() == 0
    qp = 26 + b.se()
    if filter_field:
        assert b.ue() == 1
    while b.at % 8:
        assert b.u(1) == 1
    return first, kind, qp, payload[b.at // 8:]

def slices_of_stream(stream):
    filter_field = False
    for header, payload in units(stream):
        if header & 31 == 8:
            filter_field = has_filter_field(payload)
        if header & 31 in (1, 5):
            yield slice_of(header, payload, filter_field)

# The bins of each slice, from its first macroblock's address on.
def slices_of_bins(text):
    first, bins = None, []
    for line in text.splitlines():
        words = line.split()
        if words[0] != "mb":
            assert not bins, "a slice that doesn't end"
            continue
        if not bins:
            first = int(words[1])
        bins += words[2:]
        if words[-1] == "t1":  # otherwise t1 says that samples follow
            yield first, bins
            bins = []
    assert not bins, "a slice that doesn't end"

def lines_of(kind, qp, bins):
    contexts = {place: start_state(pair, qp) for place, pair in pairs["I" if kind == "I" else "P"].items()}
    contexts[276] = None
    for word in bins:
        if word[0] in "bt":
            yield f"{word[0]} {word[1]}"
        else:
            place, bit = map(int, word.split(":"))
            ctx = contexts[place]
            yield f"c {ctx[0]:02} {ctx[1]} {bit}"
            follow(ctx, bit)

# The codes one after another, with the 384 samples of a macroblock between two of them.
def agrees(codes, data):
    for place, code in enumerate(codes):
        if not data.startswith(code):
            return False
        data = data[len(code):]
        if place + 1 < len(codes):
            data = data[384:]
    return not data

def film(width, height, pictures, noise):
    rows = lambda w, h, f: bytes(min(255, max(0, f(x, y) + random.randint(-noise, noise))) for y in range(h) for x in range(w))
    out = b"YUV4MPEG2 W%d H%d\n" % (width, height)
    for t in range(pictures):
        out += b"FRAME\n" + rows(width, height, lambda x, y: 60 + 2 * x + y + 40 * (((x - 3 * t) // 8 + (y - t) // 8) % 2))
        out += rows(width // 2, height // 2, lambda x, y: 128 + (x - t) // 2) + rows(width // 2, height // 2, lambda x, y: 120 + y)
    return out

random.seed(1)
counts = Counts()
for noise in (0, 6, 40):
    source = os.path.join(folder, "film")
    with open(source, "wb") as f:
        f.write(film(64, 48, 6, noise))
    for stage in (5, 6, 7, 8, 9):
        for words in (["--qp", "28"], ["--qp", "4", "--slices", "3"], ["--qp", "45", "--t8x8", "off"]):
            paths = {name: os.path.join(folder, name) for name in ("bins", "stream", "recon")}
            subprocess.run([reference, "--stage", str(stage), "--bins", paths["bins"], "encode", "--in", source, "--out", paths["stream"],
                            "--recon", paths["recon"]] + words, check=True)
            written = list(slices_of_stream(open(paths["stream"], "rb").read()))
            told = list(slices_of_bins(open(paths["bins"]).read()))
            assert [s[0] for s in written] == [s[0] for s in told], "other slices"
            for (first, kind, qp, data), (_, bins) in zip(written, told):
                lines = "".join(line + "\n" for line in lines_of(kind, qp, bins))
                run = subprocess.run([program, "bins"], input=lines.encode(), capture_output=True)
                codes = [bytes.fromhex(line.decode()) for line in run.stdout.split()]
                if run.returncode == 0 and agrees(codes, data):
                    counts.agree(f"stage {stage}, {kind}")
                else:
                    counts.differ(f"stage {stage} {' '.join(words)} noise {noise}, {kind} slice at macroblock {first}: {run.returncode} {run.stderr!r}")
counts.finish("slices")
PY
