#!/bin/bash
# Compares `store` with a reference encoder, byte for byte in stream, status and printed line, on films that it makes: random samples,
# runs of 00 00 0x that need emulation prevention bytes, sizes that are padded, and heads and pictures that are refused. Where ffmpeg is
# installed, stored films are decoded back too, and films that it writes are stored.
#
# usage: tools/compare_store.sh
. "$(dirname "$0")/common.sh"
need_reference
build encode_cli

python3 - "$folder" "$reference" "$program" <<'PY'
import os, random, shutil, subprocess, sys
from common import Counts

folder, reference, program = sys.argv[1:]
random.seed(1)

def film(width, height, pictures, kind):
    out = b"YUV4MPEG2 W%d H%d F30000:1001 Ip C420jpeg\n" % (width, height)
    for _ in range(pictures):
        n = width * height * 3 // 2
        if kind == "random":
            samples = random.randbytes(n)
        elif kind == "zeros":
            samples = bytes(n)
        else:  # runs of 00 00 0x
            samples = b"".join(random.choice([b"\0\0\0", b"\0\0\1", b"\0\0\2", b"\0\0\3", b"\0", b"\0\0\4", b"\7"]) for _ in range(n))[:n]
        out += b"FRAME\n" + samples
    return out

grey = b"YUV4MPEG2 W16 H16\nFRAME\n" + b"\x80" * 384
cases = [("grey", grey), ("empty", b"YUV4MPEG2 W16 H16\n"), ("cut", grey[:-1]), ("no head", b"RIFF"), ("nothing", b""),
         ("nine digits", b"YUV4MPEG2 W000000016 H16\nFRAME\n" + b"\1" * 384), ("no line feed", b"YUV4MPEG2 W16 H16"), ("extra byte", grey + b"F"),
         ("extra picture", grey + b"FRAMES"), ("cut in its second picture", grey + grey[18:-3]), ("another word", grey.replace(b"FRAME\n", b"FRAMES"))]
# heads with a picture behind them
for head in [b"W17 H16", b"W16 H17", b"W16", b"H16", b"W14 H16", b"W16 H2306", b"W4098 H16", b"W16 H16 F0:1", b"W16 H16 F173:1", b"W16 H16 F0:0", b"W16 H16 F50:2", b"W16 H16 It",
             b"W16 H16 I?", b"W16 H16 C422", b"W16 H16 C420p10", b"W16 H16 C420paldv", b"W16 H16 C", b"W32 H16 W16", b"H16 W16", b"W16 H16 A128:117 XYSCSS=420MPEG2 w3 ",
             b" W16  H16 ", b"Wx H16 W16", b"W16 H16\r", b"W16 H16 X" + b"a" * 1004, b"W16 H16 X" + b"a" * 1005]:
    cases.append((f"head {head[:40]}", b"YUV4MPEG2 " + head + b"\nFRAME\n" + b"\1" * 384))
cases.append(("no space", b"YUV4MPEG2W16 H16\n"))
for line in [b"FRAME Ip", b"FRAME ", b"FRAME\r", b" FRAME", b"FRAM", b"FRAME " + b"a" * 1017, b"FRAME " + b"a" * 1018]:
    cases.append((f"picture behind {line[:20]}", grey + line + b"\n" + b"\2" * 384))
for width, height in [(16, 16), (18, 18), (34, 20), (22, 46), (30, 50), (32, 16), (48, 80), (176, 144), (352, 288), (354, 290), (16, 2304), (16, 2302), (4096, 16), (4082, 16)]:
    for pictures in (1, 2, 3):
        for kind in ("random", "zeros", "runs"):
            cases.append((f"{width}x{height} {pictures} {kind}", film(width, height, pictures, kind)))

ffmpeg = shutil.which("ffmpeg")
if ffmpeg:
    for size in ("16x16", "18x18", "354x290"):
        for form in ("yuv420p", "yuvj420p", "yuv422p", "yuv444p", "gray", "yuv420p10le"):
            words = ["-v", "error", "-f", "lavfi", "-i", f"testsrc2=s={size}:r=30000/1001", "-frames:v", "2", "-strict", "-1", "-pix_fmt", form, "-f", "yuv4mpegpipe", "-"]
            cases.append((f"{size} {form} of ffmpeg", subprocess.run([ffmpeg] + words, check=True, capture_output=True).stdout))
counts = Counts()
for name, data in cases:
    paths = {k: os.path.join(folder, k) for k in ("film", "ours", "theirs", "shown")}
    for path in paths.values():
        if os.path.exists(path):
            os.remove(path)
    with open(paths["film"], "wb") as f:
        f.write(data)
    ours = subprocess.run([program, "store", "--in", paths["film"], "--out", paths["ours"]], capture_output=True)
    theirs = subprocess.run([reference, "store", "--in", paths["film"], "--out", paths["theirs"]], capture_output=True)
    read = lambda p: open(p, "rb").read() if os.path.exists(p) else None
    if (ours.returncode, ours.stderr, ours.stdout, read(paths["ours"])) != (theirs.returncode, theirs.stderr, theirs.stdout, read(paths["theirs"])):
        counts.differ(f"{name}: {ours.returncode} {ours.stderr!r}, reference {theirs.returncode} {theirs.stderr!r}")
        continue
    counts.agree("films that the reference stores")
    stream = read(paths["ours"])
    if ffmpeg and ours.returncode == 0 and stream:
        subprocess.run([ffmpeg, "-v", "error", "-y", "-i", paths["ours"], "-f", "rawvideo", "-pix_fmt", "yuv420p", paths["shown"]], check=True)
        at = data.index(b"\n") + 1
        sizes = {piece[:1]: int(piece[1:]) for piece in data[9:at].split() if piece[:1] in (b"W", b"H")}
        n = sizes[b"W"] * sizes[b"H"] * 3 // 2
        wanted = b""
        while at < len(data):
            at = data.index(b"\n", at) + 1
            wanted += data[at:at + n]
            at += n
        if read(paths["shown"]) != wanted:
            counts.differ(f"{name}, as ffmpeg decodes it")
        else:
            counts.agree("films that ffmpeg decodes")
counts.finish("comparisons")
PY
