#!/usr/bin/env python3
"""Lists the definitions that the contract of `run` rests on, in reading order, with the number of their lines.

It begins with the names in the contract of `run` (crates/encode_cli/src/run.rt) and follows the imports of each file from name to name:
definitions of specs/, and types and tables that stand in src/. What isn't reached isn't listed. Each file comes after those that it
imports; a definition stands in the first part of the list that needs it.

usage: tools/list_definitions.py            prints the list
       tools/list_definitions.py --write    puts it into docs/READING-GUIDE.md, between its two marks
       tools/list_definitions.py --check    exit status 1 where the list there is another one
       tools/list_definitions.py --names    prints each definition by its name, file and lines
"""

import pathlib
import re
import sys

ROOT = pathlib.Path(__file__).resolve().parent.parent
CRATES = ROOT / "crates"
GUIDE = ROOT / "docs" / "READING-GUIDE.md"
BEGIN = "<!-- tools/list_definitions.py: begin -->"
END = "<!-- tools/list_definitions.py: end -->"
RUN = CRATES / "encode_cli" / "src" / "run.rt"

# The parts of the list: a heading, and the names that the part begins with. The last one takes what the contract of `run` names besides.
PARTS = [
    ("What a decoder shows and reads", [("spec_decoder", "Frames", "decode"), ("spec_decoder", "Frames", "slices_read")]),
    (
        "What an encoding and a stored stream are",
        [
            ("spec_decoding", "Encodings", "coded_pictures"),
            ("spec_encoding", "Encoding", "encoded_stream"),
            ("spec_encoding", "Encoding", "reconstruction"),
            ("spec_stream", "Stored", "stored_stream"),
        ],
    ),
    ("What a run does: words, films, the outside, answers", None),
]

NAME = re.compile(r"(?<![\w.])([A-Za-z_]\w*(?:\.[A-Za-z_]\w*)*)")


class Item:
    """A definition, or a type or table of src/: where it stands and which names it uses."""

    def __init__(self, file, name, first, last, text):
        self.file, self.name, self.first, self.last, self.text = file, name, first, last, text

    @property
    def lines(self):
        return self.last - self.first + 1


class File:
    """A file of specs/ or src/: its items by name, its imports, and the sentence at its head."""

    def __init__(self, path):
        self.path = path
        self.items, self.names, self.modules, self.variants = {}, {}, {}, {}
        self.lines = path.read_text().splitlines()
        if path.suffix == ".antt":
            self.read_definitions()
        else:
            self.read_types()

    def add(self, name, first, last):
        # The comment or attributes right above belong to the item.
        while first > 0 and re.match(r"\s*(--|//|#\[)", self.lines[first - 1]) and not re.match(r"-- ----", self.lines[first - 1]):
            first -= 1
        if first == 0 and self.path.suffix == ".antt":
            first += 1  # the sentence at the head of the file
        while last > first and not self.lines[last].strip():
            last -= 1
        self.items[name] = Item(self, name, first, last, "\n".join(self.lines[first : last + 1]))

    def read_use(self, line):
        found = re.match(r"(?:ghost )?(?:pub )?use (?:Rattle\.)?([\w.:]+?)(?:(?:\.|::)\{(.*?)\}| as (\w+))?;?$", line.strip())
        if not found:
            return
        path, names, alias = found.groups()
        if alias:
            self.modules[alias] = path
        for name in (names or "").split(","):
            words = name.split()
            if words:
                self.names[words[-1]] = (path, words[0])

    def read_definitions(self):
        starts = []
        for number, line in enumerate(self.lines):
            if line.startswith("use "):
                self.read_use(line)
            head = re.match(r"(?:(?:abbrev|unfoldable) )?(?:pub )?(?:(?:record|data) )?([A-Za-z_]\w*)\b.*", line)
            if head and re.match(r"(abbrev|unfoldable|pub record|pub data|record|data)\b", line):
                starts.append((number, head[1]))
        for (first, name), following in zip(starts, starts[1:] + [(len(self.lines), "")]):
            last = following[0] - 1
            while last > first and re.match(r"\s*(--|$)", self.lines[last]):
                last -= 1
            self.add(name, first, last)
            if re.match(r"(pub )?data\b", self.lines[first]):
                for line in self.lines[first + 1 : last + 1]:
                    variant = re.match(r"  (\w+) :", line)
                    if variant:
                        self.variants[variant[1]] = name

    def read_types(self):
        for number, line in enumerate(self.lines):
            if re.match(r"(ghost )?use ", line):
                self.read_use(line)
            head = re.match(r"pub (?:struct|enum|const|static|trait) (\w+)", line)
            if head:
                last = number
                while not re.match(r"[})\]]*;$|\}$", self.lines[last].strip() if last == number else self.lines[last]) and not (
                    last == number and line.rstrip().endswith((";", "}"))
                ):
                    last += 1
                self.add(head[1], number, last)

    def sentence(self):
        """The comment at the head, up to its first full stop or colon."""
        words = []
        for line in self.lines:
            if not re.match(r"(--|//!?|///)( |$)", line):
                break
            words.append(re.sub(r"^(--|//!?|///) ?", "", line))
        text = re.split(r"(?<=\.)\s", " ".join(words))[0].rstrip(".")
        # A longer sentence ends at its colon.
        return text if len(text) <= 120 else text.split(": ")[0]


class Reader:
    """Files by their path, and from each item the items that it names."""

    def __init__(self):
        self.files = {}

    def file(self, path):
        if path not in self.files:
            self.files[path] = File(path) if path.is_file() else None
        return self.files[path]

    def of_source(self, path, name, file):
        """The type or table that code imports from its own crate or from another one of the repository."""
        first = path.split("::")[0]
        crate = crate_of(file) if first in ("crate", "super", "self") else first
        for source in sorted((CRATES / crate / "src").rglob("*.rt")):
            if name in self.file(source).items:
                return self.file(source).items[name]
        return None

    def of_path(self, path, name, file=None):
        """The item that an imported name means, if it is one of the repository's."""
        if file is not None and file.path.suffix == ".rt" and "." not in path:
            return self.of_source(path, name, file)
        words = path.split(".")
        if len(words) < 3 or words[1] != "specs" or not (CRATES / words[0]).is_dir():
            return None
        crate = words[0]
        if words[2] in ("declared", "contracts"):
            # A type or table of src/: the path ends with its name, or the name of the file in front of `TheConstants`.
            rest = [word for word in words[3:] if word not in ("TheVariants", "TheConstants")]
            wanted = [name] + rest[::-1]
            for source in sorted((CRATES / crate / "src").rglob("*.rt")):
                for word in wanted:
                    if word in self.file(source).items and (len(rest) == 0 or source.stem in rest + ["lib", "main"]):
                        return self.file(source).items[word]
            return None
        file = self.file(CRATES / crate / "specs" / (words[2] + ".antt"))
        if file is None:
            sys.exit(f"no file for {path}")
        for word in words[3:] + [name]:
            if word in file.items:
                return file.items[word]
        if name in file.variants:
            return file.items[file.variants[name]]
        sys.exit(f"{path} has no {name}")

    def named(self, item):
        """The items that an item's text names."""
        file = item.file
        text = re.sub(r"--.*|//.*", "", item.text)
        for word in NAME.findall(text):
            head, *rest = word.split(".")
            if head in file.modules and rest:
                found = self.of_path(file.modules[head], rest[0], file)
            elif head in file.names:
                found = self.of_path(*file.names[head], file)
            elif head in file.items and file.items[head] is not item:
                found = file.items[head]
            elif head in file.variants:
                found = file.items[file.variants[head]]
            else:
                continue
            if found is not None and found is not item:
                yield found

    def reached(self, items, known):
        """The items that these rest on, themselves among them, without those that are known already."""
        left, found = list(items), {}
        while left:
            item = left.pop()
            if item in known or item in found:
                continue
            found[item] = None
            left.extend(self.named(item))
        return list(found)


def contract_of_run(reader):
    """The names in the contract of `run`, as an item of its file."""
    file = reader.file(RUN)
    first = next(k for k, line in enumerate(file.lines) if line.startswith("pub fn run"))
    last = next(k for k in range(first, len(file.lines)) if file.lines[k] == "{")
    item = Item(file, "run", first, last - 1, "\n".join(file.lines[first:last]))
    file.names["Outcome"] = ("encode_cli.specs.declared.outcome", "Outcome")
    file.names["Studio"] = ("enc_edge.specs.declared.studio", "Studio")
    file.names["Gate"] = ("enc_edge.specs.declared.studio", "Gate")
    return item


def crate_order():
    lines = (ROOT / "crates.txt").read_text().splitlines()
    return [line.split(":")[0].split()[0] for line in lines if re.match(r"\w", line)]


def in_order(reader, items):
    """Files with their items: crates as crates.txt has them, within a crate each file after those that it names."""
    order = {crate: number for number, crate in enumerate(crate_order())}
    by_file = {}
    for item in items:
        by_file.setdefault(item.file, []).append(item)
    placed = []

    def place(file, above):
        if file in placed or file in above:
            return
        for item in sorted(by_file[file], key=lambda item: item.first):
            for other in reader.named(item):
                if other.file in by_file and other.file is not file and crate_of(other.file) == crate_of(file):
                    place(other.file, above + [file])
        placed.append(file)

    for file in sorted(by_file, key=lambda file: (order.get(crate_of(file), len(order)), str(file.path))):
        place(file, [])
    return [(file, sorted(by_file[file], key=lambda item: item.first)) for file in placed]


def crate_of(file):
    return file.path.relative_to(CRATES).parts[0]


def parts():
    reader, known, found = Reader(), set(), []
    for heading, roots in PARTS:
        if roots is None:
            items = list(reader.named(contract_of_run(reader)))
        else:
            items = [reader.of_path(f"{crate}.specs.{module}", name) for crate, module, name in roots]
        reached = reader.reached(items, known)
        known.update(reached)
        found.append((heading, in_order(reader, reached)))
    return found


def table():
    out, total = [], 0
    for heading, files in parts():
        lines = sum(item.lines for _, items in files for item in items)
        total += lines
        out += [f"**{heading}** ({lines} lines)", "", "| crate | file | what it says | definitions | lines |", "|---|---|---|---|---|"]
        crate = None
        for file, items in files:
            path = file.path.relative_to(ROOT)
            name = crate_of(file)
            first = f"`{name}` " if name != crate else ""
            crate = name
            shown = path.stem if path.suffix == ".antt" else path.name
            lines = sum(item.lines for item in items)
            sentence = file.sentence().replace("|", "\\|") or ", ".join(f"`{item.name}`" for item in items)
            out.append(f"| {first}| [{shown}](../{path}) | {sentence} | {len(items)} | {lines} |")
        out.append("")
    return [f"{total} lines in all.", ""] + out[:-1]


def main():
    words = sys.argv[1:]
    if words == ["--names"]:
        for heading, files in parts():
            print(f"# {heading}")
            for file, items in files:
                for item in items:
                    print(f"{item.name} {file.path.relative_to(ROOT)} {item.first + 1}-{item.last + 1}")
        return
    text = "\n".join(table())
    if not words:
        print(text)
        return
    guide = GUIDE.read_text()
    if guide.count(BEGIN) != 1 or guide.count(END) != 1:
        sys.exit("docs/READING-GUIDE.md has no marks for the list of definitions")
    before, rest = guide.split(BEGIN)
    there, behind = rest.split(END)
    if words == ["--write"]:
        GUIDE.write_text(f"{before}{BEGIN}\n{text}\n{END}{behind}")
    elif words == ["--check"]:
        if there.strip() != text.strip():
            sys.exit("docs/READING-GUIDE.md has another list of definitions: tools/list_definitions.py --write mends it")
    else:
        sys.exit(__doc__)


if __name__ == "__main__":
    main()
