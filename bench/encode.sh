#!/bin/bash
# Times `encode` on a film at a constant rate beside a reference encoder and, where it is installed, beside x264 at the same rate, buffer,
# references and B pictures, with an exhaustive search and at its preset `medium` (one thread), all in this run. Prints pictures per second,
# ratios, the sizes of the streams and, where ffmpeg is installed, how far the shown luma is from the film's (PSNR).
#
# usage: bench/encode.sh [FILM [RATE]]
# Without FILM a film of 352x288 with 60 pictures is made: by ffmpeg where it is
# installed, else a plain one of moving texture. RATE is in bits a second, 1000000 where it isn't given.
. "$(dirname "$0")/../tools/common.sh"
need_reference
build encode_cli
film=${1:-$folder/film.y4m}
if [ $# -lt 1 ]; then
    if command -v ffmpeg >/dev/null; then
        # a rotating, zooming fractal beside a test picture: both smooth and busy parts, and motion
        ffmpeg -v error -f lavfi -i "mandelbrot=size=176x288:rate=25" -f lavfi -i "testsrc2=size=176x288:rate=25" \
            -filter_complex hstack -frames:v 60 -pix_fmt yuv420p -f rawvideo "$folder/raw"
    else
        python3 - "$folder/raw" <<'PY'
import sys
with open(sys.argv[1], "wb") as f:
    for t in range(60):
        f.write(bytes((x * x // 90 + y * x // 70 + (x // 11 ^ y // 7) * 3 + 2 * t) % 230 + 10 for y in range(288) for x in range(352)))
        f.write(bytes(100 + (x + t) % 50 for y in range(144) for x in range(176)) + bytes(120 + (y + t) % 30 for y in range(144) for x in range(176)))
PY
    fi
    python3 - "$folder/raw" "$film" <<'PY'
import sys
raw = open(sys.argv[1], "rb").read()
size = 352 * 288 * 3 // 2
with open(sys.argv[2], "wb") as f:
    f.write(b"YUV4MPEG2 W352 H288 F25:1\n")
    for i in range(0, len(raw), size):
        f.write(b"FRAME\n" + raw[i:i + size])
PY
fi
python3 - "$film" "$folder" "$reference" "$program" "${2:-1000000}" <<'PY'
import os, re, shutil, subprocess, sys, time
film, folder, reference, program, rate = sys.argv[1:]
with open(film, "rb") as f:
    head = f.readline()
    pictures = f.read().count(b"FRAME\n")
names = {name: os.path.join(folder, name) for name in ("stream", "recon", "report")}
words = ["encode", "--in", film, "--out", names["stream"], "--recon", names["recon"], "--report", names["report"], "--bitrate", rate]
runs = {"rambovitu": [program, *words], "reference": [reference, "--stage", "12", *words]}
if shutil.which("x264"):
    kilobits = str(int(rate) // 1000)
    common = ["x264", "--quiet", "--no-progress", "--threads", "1", "--profile", "high", "--keyint", "250", "--ref", "2", "--bframes", "2", "--bitrate", kilobits,
              "--vbv-maxrate", kilobits, "--vbv-bufsize", kilobits, "-o", names["stream"], film]
    search = ["--me", "esa", "--merange", "16", "--subme", "2", "--b-adapt", "0", "--b-pyramid", "none", "--rc-lookahead", "0", "--trellis", "0", "--no-psy", "--weightp", "0"]
    for name, more in (("esa, subme 2", search), ("esa, subme 2, every P macroblock searched", [*search, "--no-fast-pskip"]), ("medium", [])):
        runs["x264, " + name] = common[:1] + more + common[1:]
def distance():
    """PSNR of luma, as ffmpeg decodes the stream."""
    if not shutil.which("ffmpeg"):
        return ""
    done = subprocess.run(["ffmpeg", "-v", "info", "-i", names["stream"], "-i", film, "-lavfi", "[0][1]psnr", "-f", "null", "-"], capture_output=True, text=True)
    found = re.search(r"PSNR y:([0-9.a-z]+)", done.stderr)
    return f"  luma {found[1]} dB" if found else ""
best, size, told = {}, {}, {}
for _ in range(3):
    for name, command in runs.items():
        start = time.perf_counter()
        subprocess.run(command, check=True, stdout=subprocess.DEVNULL, stderr=subprocess.DEVNULL)
        taken = time.perf_counter() - start
        best[name] = min(best.get(name, taken), taken)
        size[name] = os.path.getsize(names["stream"])
        told[name] = told.get(name) or distance()
        os.remove(names["stream"])
for name in runs:
    print(f"{name:48} {pictures / best[name]:8.1f} pictures/s  {size[name]:10} bytes{told[name]}")
for name in list(runs)[1:]:
    print(f"speed against {name}: {best[name] / best['rambovitu']:.2f}")
PY
