#!/bin/bash
# Compares macroblocks with a reference encoder's: it writes I, P and B pictures of small films at all quantisation parameters, with 1, 2 and
# 4 slices, with and without 8x8 transforms, with 1 to 4 references and 0 to 4 B pictures in a row, and dumps its records;
# `tool_compare slices` writes the records again, and each slice's data must be the same bytes.
#
# usage: tools/compare_macroblocks.sh
. "$(dirname "$0")/common.sh"
need_reference
build tool_compare
python3 tools/compare_macroblocks.py "$folder" "$reference" "$program"
