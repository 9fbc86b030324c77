#!/bin/bash
# Compares what the encoder's parts write and say round the slices with the streams and the reports of a reference encoder, on films that are
# made here at random settings: parameter sets, messages, slice headers and filler units byte for byte, and levels, the coded order with
# frame_num and POC, the bits that are there before each picture, the filler behind it, and the quantisation parameters that are tried.
# Levels are also compared on sizes up to the largest. Exit status 1 on any difference.
#
# usage: tools/compare_heads.sh
. "$(dirname "$0")/common.sh"
need_reference
build tool_compare
python3 tools/compare_heads.py "$folder" "$reference" "$program"
