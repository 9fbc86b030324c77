"""What the scripts that compare with a reference encoder have in common: reading of streams, and what was compared."""
import re
import sys

# The types of macroblocks, as a reference encoder's dump names them, in the order of `MbKind`: programs take a type as its place.
MACROBLOCK_TYPES = ["Pcm", "Intra4", "Intra8", "Intra16", "P16", "P16x8", "P8x16", "P8x8", "PSkip", "B16", "B16x8", "B8x16", "B8x8", "BDirect", "BSkip"]


class Bits:
    """Bits that are read from the front, as ITU-T H.264 reads them (clauses 7.2 and 9.1)."""

    def __init__(self, data):
        self.text, self.at = "".join(f"{byte:08b}" for byte in data), 0

    def u(self, n):
        self.at += n
        assert self.at <= len(self.text)
        return int(self.text[self.at - n : self.at] or "0", 2)

    def ue(self):
        zeros = 0
        while self.u(1) == 0:
            zeros += 1
        return 2**zeros - 1 + self.u(zeros)

    def se(self):
        k = self.ue()
        return (k + 1) // 2 if k % 2 else -(k // 2)


def without_prevention(payload):
    """A unit's payload without the bytes 03 behind two zeros (clause 7.4.1)."""
    out, zeros = bytearray(), 0
    for byte in payload:
        if zeros >= 2 and byte == 3:
            zeros = 0
            continue
        out.append(byte)
        zeros = zeros + 1 if byte == 0 else 0
    return bytes(out)


def units(stream):
    """The header and the payload of each unit of a stream (annex B)."""
    for part in re.split(b"\x00*\x00\x00\x01", stream)[1:]:
        yield part[0], without_prevention(part[1:].rstrip(b"\0"))


class Counts:
    """How much agrees, by kind, and how much differs."""

    def __init__(self):
        self.agreed, self.differing = {}, 0

    def agree(self, kind, count=1):
        self.agreed[kind] = self.agreed.get(kind, 0) + count

    def differ(self, *words):
        self.differing += 1
        if self.differing <= 10:
            print("differs:", *words)

    def finish(self, what):
        """Tells the counts, and ends the script: with status 1 where anything differs or nothing was compared."""
        for kind, count in sorted(self.agreed.items()):
            print(f"{kind}: {count} agree")
        total = sum(self.agreed.values())
        print(f"{total} {what} agree, {self.differing} differ")
        sys.exit(1 if self.differing or not total else 0)


def film_samples(film, head):
    """The samples of a film's pictures, without its head and theirs; head is its width and its height."""
    size = head[0] * head[1] * 3 // 2
    start = film.index(b"\n") + 1
    return b"".join(film[i + 6 : i + 6 + size] for i in range(start, len(film), size + 6))
