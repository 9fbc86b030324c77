#!/usr/bin/env python3
"""Shows that the decoder's definitions import nothing of the encoder and no code.

It follows the imports of `decode` and `slices_read` (crates/spec_decoder/specs/Frames.antt) from name to name, as
tools/list_definitions.py does, and the libraries of spec_decoder in crates.txt from crate to crate. Each must lead to crates of
definitions alone: their names begin with spec_, and enc_tables has the types and tables that they share. None of them may be one of
the encoder's: what it writes, chooses, plans and searches, and the laws about that.

A definition that is reached must not be one of those by which an encoder writes: strings of bins, fields, codes, payloads, levels.

usage: tools/check_decoder.py            exit status 1 where something is reached that isn't the decoder's
       tools/check_decoder.py --names    prints each definition that is reached, too
"""

import re
import sys

import list_definitions
from list_definitions import ROOT, Reader, crate_of

ROOTS = [("spec_decoder", "Frames", "decode"), ("spec_decoder", "Frames", "slices_read")]

# The crates of definitions by which the encoder's contracts speak, and of laws about what it writes.
ENCODER = {
    "spec_buffer", "spec_choice", "spec_coded", "spec_coding", "spec_decoding", "spec_encoding", "spec_inter_plans", "spec_inter_records",
    "spec_film_coder", "spec_kernels", "spec_pictures", "spec_plan", "spec_record_laws", "spec_report", "spec_search", "spec_stream",
    "spec_tasks", "spec_words",
}

# Libraries of which the types that definitions speak of take derives alone: they give a fault its text, and no definition names them.
DERIVES = {"thiserror"}

# Files of definitions by which something is written, in crates that the decoder shares with the encoder.
WRITERS = {
    ("spec_cabac", "Code"), ("spec_headers", "HeadFields"), ("spec_headers", "MessageFields"), ("spec_macroblock", "Strings"),
    ("spec_residual", "Forward"), ("spec_residual", "Levels"), ("spec_slice_data", "Coding"), ("spec_slice_payload", "Writing"),
}


def is_definitions(crate):
    return crate == "enc_tables" or crate.startswith("spec_")


def libraries():
    lines = (ROOT / "crates.txt").read_text(encoding="utf-8").splitlines()
    split = [line.split(":") for line in lines if re.match(r"\w", line)]
    return {head.split()[0]: names.split() for head, names in split}


def below(crate, known):
    found, left = [], [crate]
    while left:
        for name in known.get(left.pop(), []):
            if name not in found:
                found.append(name)
                left.append(name)
    return found


def main():
    words = sys.argv[1:]
    if words not in ([], ["--names"]):
        sys.exit(__doc__)
    faults = []
    for crate in below("spec_decoder", libraries()):
        if crate in DERIVES:
            continue
        if not is_definitions(crate):
            faults.append(f"crates.txt: spec_decoder stands on {crate}, which is code")
        elif crate in ENCODER:
            faults.append(f"crates.txt: spec_decoder stands on {crate}, which is the encoder's")
    reader = Reader()
    items = reader.reached([reader.of_path(f"{crate}.specs.{module}", name) for crate, module, name in ROOTS], set())
    for item in items:
        crate, file = crate_of(item.file), item.file.path.stem
        where = f"{item.name} ({item.file.path.relative_to(ROOT)})"
        if not is_definitions(crate):
            faults.append(f"decode rests on {where}, which is code")
        elif crate in ENCODER:
            faults.append(f"decode rests on {where}, which is the encoder's")
        elif (crate, file) in WRITERS:
            faults.append(f"decode rests on {where}, by which something is written")
        if words:
            print(where)
    print("\n".join(faults) or f"{len(items)} definitions of {len({crate_of(item.file) for item in items})} crates: none is the encoder's or code")
    sys.exit(1 if faults else 0)


if __name__ == "__main__":
    assert list_definitions.ROOT == ROOT
    main()
