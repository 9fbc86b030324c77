#!/bin/bash
# Compares `encode` and `trial` with a reference encoder, byte for byte in stream, reconstruction, report, status and printed line: films of
# many kinds and sizes at many settings, each option at more than one value, small buffers, words and films that are refused, and random runs.
# Where ffmpeg is installed, each stream is decoded by it and compared with the reconstruction, and where GStreamer's openh264dec is, those
# without B pictures by that one too. Exit status 1 on any difference.
#
# usage: tools/compare_encode.sh [RUNS [SEED]]
# RUNS is how many random runs there are, 60 where it isn't given; SEED is their seed, which is printed.
. "$(dirname "$0")/common.sh"
need_reference
build encode_cli
python3 tools/compare_encode.py "$folder" "$reference" "$program" "${1:-60}" "${2:-20}"
