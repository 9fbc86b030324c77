"""Compares the macroblocks that a reference encoder wrote with those of the macroblock layer: the records that it dumps are written
by `tool_compare slices`, and each slice's data must be its bytes.

usage: compare_macroblocks.py FOLDER REFERENCE PROGRAM
"""
import os, random, re, subprocess, sys

from common import MACROBLOCK_TYPES, Bits, Counts, units

folder, reference, program = sys.argv[1:4]


def slices_of_stream(stream, unfiltered):
    """First macroblock, QP, type (0 for I, 1 for P, 2 for B), lengths of the lists and data of each slice (7.3.3, with frame_num and
    pic_order_cnt_lsb of 16 bits, and disable_deblocking_filter_idc where the loop filter is off)."""
    for header, payload in units(stream):
        if header & 31 not in (1, 5):
            continue
        b = Bits(payload)
        first = b.ue()
        kind = {2: 0, 0: 1, 1: 2}[b.ue() % 5]
        b.ue(), b.u(16)
        if header & 31 == 5:
            b.ue()
        b.u(16)
        refs = [0, 0]
        if kind == 2:
            assert b.u(1) == 1  # direct_spatial_mv_pred_flag
        if kind:
            assert b.u(1) == 1  # num_ref_idx_active_override_flag
            for which in range(kind):
                refs[which] = b.ue() + 1
            for which in range(kind):
                if b.u(1):
                    while b.ue() != 3:
                        b.ue()
        if header & 31 == 5:
            b.u(2)
        elif header >> 5:
            assert b.u(1) == 0  # adaptive_ref_pic_marking_mode_flag
        if kind:
            assert b.ue() == 0  # cabac_init_idc
        qp = 26 + b.se()
        if unfiltered:
            assert b.ue() == 1
        while b.at % 8:
            assert b.u(1) == 1
        yield first, qp, kind, refs, payload[b.at // 8:]

def listed(text, size, out, start):
    for item in text.split(","):
        if item:
            place, level = item.split(":")
            assert int(place) < size
            out[start + int(place)] = int(level)

def slices_of_dump(text):
    """For each slice its macroblocks: 461 numbers each."""
    mbs = None
    for line in text.splitlines():
        words = line.split()
        if words[0] == "slice":
            if mbs:
                yield mbs
            mbs = []
        elif words[0] == "mb":
            kind = MACROBLOCK_TYPES.index(words[3])
            at = words.index("cbp")
            luma, chroma = words[at + 1].split("/")
            record = [kind, int(words[5]), int(words[words.index("chroma_mode") + 1]), int(luma), int(chroma)] + [0] * 416
            record += [-1, 0, 0] * 8 + [0] * 16
            mbs.append(record)
        elif words[0] == "modes":
            modes = [int(x) for x in re.findall(r"\d+", line)]
            record[5:5 + len(modes)] = modes
        elif words[0] == "motion":
            block, *numbers = [int(x) for x in re.findall(r"-?\d+", line)]
            record[421 + 6 * block:427 + 6 * block] = numbers[:6]
            for which in range(2):
                record[445 + 8 * which + 2 * block:447 + 8 * which + 2 * block] = numbers[6 + 2 * which:8 + 2 * which]
        elif words[0] == "luma_dc":
            listed(words[1] if len(words) > 1 else "", 16, record, 21)
        elif words[0] == "luma":
            listed(words[1] if len(words) > 1 else "", 256, record, 37)
        elif words[0] == "chroma_dc":
            listed(words[2] if len(words) > 2 else "", 4, record, 293 + 4 * int(words[1]))
        elif words[0] == "chroma_ac":
            listed(words[3] if len(words) > 3 else "", 15, record, 301 + 60 * int(words[1]) + 15 * int(words[2]))
    if mbs:
        yield mbs

def film(width, height, pictures, noise, edge, head):
    rows = lambda w, h, f: bytes(min(255, max(0, f(x, y) + random.randint(-noise, noise))) for y in range(h) for x in range(w))
    out = b"YUV4MPEG2 W%d H%d%s\n" % (width, height, head)
    for t in range(pictures):
        out += b"FRAME\n" + rows(width, height, lambda x, y: 60 + 2 * x + y + edge * (((x - 3 * t) // 8 + (y - t * t // 4) // 8) % 2))
        out += rows(width // 2, height // 2, lambda x, y: 128 + (x - t) // 2) + rows(width // 2, height // 2, lambda x, y: 120 + y)
    return out

def runs(number, qp):
    """The reference's words: at an early stage for I slices alone, unfiltered; then with P and B slices."""
    refs = 1 + (qp // 2 + number) % 4
    words = ["--qp", qp, "--slices", (1, 2, 4)[qp % 3], "--t8x8", "on" if (qp // 3 + number) % 3 else "off"]
    yield True, ["--stage", 5], words
    bframes = 0 if refs == 1 else (qp + number) % 5
    yield False, ["--stage", 12], words + ["--refs", refs, "--bframes", bframes, "--range", 8, "--bitrate", 4000000, "--report", os.path.join(folder, "report")]

def main():
    random.seed(2)
    counts, kinds = Counts(), {}
    films = [(48, 64, 0, 40), (64, 64, 4, 60), (80, 64, 30, 10), (48, 80, 127, 0), (32, 64, 1, 0)]
    paths = {name: os.path.join(folder, name) for name in ("dump", "out", "recon", "still", "moving")}
    for number, (width, height, noise, edge) in enumerate(films):
        with open(paths["still"], "wb") as f:
            f.write(film(width, height, 1, noise, edge, b""))
        with open(paths["moving"], "wb") as f:
            f.write(film(width, height, 9, noise, edge, b" F25:1"))
        for qp in range(52):
            for early, stage, words in runs(number, qp):
                words = stage + ["--dump", paths["dump"], "encode", "--in", paths["still" if early else "moving"], "--out", paths["out"], "--recon", paths["recon"]] + words
                subprocess.run([reference, *map(str, words)], check=True, capture_output=True)
                written = list(slices_of_stream(open(paths["out"], "rb").read(), early))
                told = list(slices_of_dump(open(paths["dump"]).read()))
                assert len(written) == len(told), "other slices"
                lines = ""
                for (first, slice_qp, kind, lists, _), mbs in zip(written, told):
                    lines += f"{(width + 15) // 16} {first} {len(mbs)} {slice_qp} {int('on' in words)} {kind} {lists[0]} {lists[1]}\n"
                    lines += "".join(" ".join(map(str, mb)) + "\n" for mb in mbs)
                    for mb in mbs:
                        name = MACROBLOCK_TYPES[mb[0]] + (" of 8x8 transforms" if mb[1] and mb[0] != MACROBLOCK_TYPES.index("Intra8") else "")
                        kinds[name] = kinds.get(name, 0) + 1
                run = subprocess.run([program, "slices"], input=lines.encode(), capture_output=True)
                codes = [bytes.fromhex(line.decode()) for line in run.stdout.split() if re.fullmatch(b"[0-9A-F]+", line)]
                codes += [b""] * (len(written) - len(codes))
                for (first, slice_qp, kind, lists, data), code in zip(written, codes):
                    if code == data:
                        counts.agree(f"{'IPB'[kind]} slices of QP {slice_qp // 13 * 13} to {slice_qp // 13 * 13 + 12}")
                    else:
                        counts.differ(f"{width}x{height}, {words}, {'IPB'[kind]} slice of QP {slice_qp} at macroblock {first}: {run.returncode} {run.stderr[-200:]!r}")
    print(", ".join(f"{kinds[kind]} {kind}" for kind in sorted(kinds)))
    counts.finish("slices")

main()
