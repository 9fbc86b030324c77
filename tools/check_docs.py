#!/usr/bin/env python3
"""Checks the documents against the repository, and prints each fault with its file and line. Exit status 1 where there is one.

- docs/CRATES.md has each crate of crates.txt once and in its order, with all columns, in one of its layers; the calls that it names are
  public calls of the crate.
- Each link leads to a file that is there, and to a heading that is there. Where it leads to code or definitions, what its text names
  in code letters is defined in that file: a function, a type, a clause, a definition, a field of a record.
- Each path of the repository, each crate, and each `crate::call` that stands in code letters is there.
- docs/READING-GUIDE.md has the list of definitions that tools/list_definitions.py makes.
- README.md has at most 100 lines, and no file names a path of a machine.

usage: tools/check_docs.py
       tools/check_docs.py --row NAME..     prints a row of docs/CRATES.md to begin with, for a crate that has none
"""

import pathlib
import re
import subprocess
import sys

ROOT = pathlib.Path(__file__).resolve().parent.parent
CRATES = ROOT / "crates"
DOCUMENTS = ["README.md", "bench/README.md"] + sorted(f"docs/{path.name}" for path in (ROOT / "docs").glob("*.md"))
# Notes tell what was learned at their time, of crates and names as they were then: only their links are checked.
NOTES = re.compile(r"docs/(PROOF-NOTES|notes-.*)\.md")
LAYERS = {"outside", "film", "picture", "macroblock", "bits", "shared", "beside"}
MOST_LINES = 100
LINK = re.compile(r"\[((?:[^\[\]`]|`[^`]*`)+)\]\(([^()\s]+)\)")
MACHINE_PATH = re.compile(r"(?<![\w.])/(?:work|home|root|opt|mnt|Users|srv)/")

faults = []


def fault(place, text):
    faults.append(f"{place}: {text}")


def crates():
    """The names of crates.txt, in its order."""
    lines = (ROOT / "crates.txt").read_text().splitlines()
    return [re.match(r"\w+", line)[0] for line in lines if re.match(r"\w+[^#]*:", line)]


def is_defined(name, path):
    """Whether a file of code or definitions defines a name: a function, a type, a clause, a definition, a field, a case."""
    text = path.read_text()
    if path.suffix == ".antt":
        word = re.escape(name.split(".")[-1])
        return re.search(rf"^(?:(?:abbrev|unfoldable) )?(?:pub )?(?:(?:record|data) )?{word}\b", text, re.M) or re.search(
            rf"^ +(?:pub )?{word} :", text, re.M
        )
    whole, _, last = name.rpartition("::")
    word = re.escape(last)
    if whole and not re.search(rf"\b(?:struct|enum|trait) {re.escape(whole)}\b|\bimpl\b.*\b{re.escape(whole)}\b", text):
        return None
    return re.search(rf"\b(?:fn|struct|enum|trait|const|static|mod) {word}\b|\b(?:ensures|requires) {word} \{{|^    {word}\b", text, re.M)


def exported(crate):
    """What a library shows to others; of a program every function."""
    names = set()
    main = CRATES / crate / "src" / "main.rt"
    if main.is_file():
        for path in main.parent.rglob("*.rt"):
            names |= set(re.findall(r"\b(?:fn|struct|enum|trait) (\w+)", path.read_text()))
        return names
    text = (CRATES / crate / "src" / "lib.rt").read_text()
    names |= set(re.findall(r"^pub (?:const )?(?:fn|struct|enum|trait|const|static) (\w+)", text, re.M))
    for group in re.findall(r"^pub use [\w:]+::(?:\{([^}]*)\}|(\w+))", text, re.M):
        names |= set(re.findall(r"\w+", " ".join(group)))
    return names


def slugs(path):
    """The headings of a document as they stand in links."""
    found = set()
    for line in path.read_text().splitlines():
        head = re.match(r"#+ +(.*)", line)
        if head:
            text = re.sub(r"[`*\[\]]|\(.*?\)", "", head[1]).strip().lower()
            found.add(re.sub(r" ", "-", re.sub(r"[^\w\- ]", "", text)))
    return found


def check_link(place, document, label, target):
    if re.match(r"[a-z]+://", target):
        return
    name, _, heading = target.partition("#")
    path = (document.parent / name).resolve() if name else document
    if not path.exists():
        fault(place, f"{target} isn't there")
        return
    if heading and heading not in slugs(path):
        fault(place, f"{target} has no such heading")
    if path.suffix not in (".rt", ".antt"):
        return
    for token in re.findall(r"`([^`]+)`", label):
        if not is_defined(token, path):
            fault(place, f"{target} doesn't define {token}")
    if re.fullmatch(r"(?:\w+ )?[A-Z]\w*", label) and label.split()[-1] != path.stem:
        fault(place, f"{label} leads to {path.name}")


def check_token(place, token, names):
    """A path of the repository, a crate, or a call by its crate, in code letters."""
    path = re.match(r"(?:tools|docs|bench|crates)/[\w./-]+|\./rambovitu\b", token)
    if path and not (ROOT / path[0]).exists():
        fault(place, f"{path[0]} isn't there")
    if re.fullmatch(r"spec_\w+", token) and token not in names:
        fault(place, f"{token} is no crate")
    call = re.fullmatch(r"(\w+)((?:::\w+)+)", token)
    if call and call[1] in names:
        last = call[2].split("::")[-1]
        sources = list((CRATES / call[1] / "src").rglob("*.rt"))
        if not any(is_defined(last, source) for source in sources):
            fault(place, f"{call[1]} has no {last}")


def check_document(name, names):
    document = ROOT / name
    inside = False
    for number, line in enumerate(document.read_text().splitlines(), 1):
        place = f"{name}:{number}"
        if line.startswith("```"):
            inside = not inside
        if inside or line.startswith("    "):
            continue
        for label, target in LINK.findall(line):
            check_link(place, document, label, target)
        if not NOTES.fullmatch(name):
            for token in re.findall(r"`([^`]+)`", line):
                check_token(place, token, names)


def check_crates(names):
    """The table of crates."""
    name = "docs/CRATES.md"
    found = []
    for number, line in enumerate((ROOT / name).read_text().splitlines(), 1):
        row = re.match(r"\| \[(\w+)\]\(\.\./crates/(\w+)\) \|", line)
        if not row:
            continue
        place, crate = f"{name}:{number}", row[1]
        found.append(crate)
        if row[1] != row[2]:
            fault(place, f"{row[1]} leads to {row[2]}")
        if crate not in names:
            fault(place, f"{crate} isn't in crates.txt")
            continue
        cells = [cell.strip() for cell in line.split("|")[1:-1]]
        if len(cells) != 6:
            fault(place, f"{crate} has {len(cells)} columns, not 6")
            continue
        if cells[1] not in LAYERS:
            fault(place, f"{cells[1]} is no layer")
        if not cells[2]:
            fault(place, f"what {crate} does isn't told")
        shown = exported(crate)
        for label, _ in LINK.findall(cells[4]):
            for token in re.findall(r"`([^`]+)`", label):
                if token.split("::")[0] not in shown:
                    fault(place, f"{token} is no public call of {crate}")
    for crate in names:
        if crate not in found:
            fault(name, f"{crate} has no row")
    for crate in sorted(set(found)):
        if found.count(crate) > 1:
            fault(name, f"{crate} has {found.count(crate)} rows")
    wanted = [crate for crate in names if crate in found]
    there = [crate for crate in found if crate in names]
    for one, other in zip(there, wanted):
        if one != other:
            fault(name, f"{one} stands where crates.txt has {other}")
            break


def check_machine_paths():
    listed = subprocess.run(["git", "-C", str(ROOT), "ls-files"], capture_output=True, text=True, check=True).stdout
    for name in listed.splitlines():
        path = ROOT / name
        if path == pathlib.Path(__file__).resolve() or not path.is_file():
            continue
        try:
            text = path.read_text()
        except UnicodeDecodeError:
            continue
        for number, line in enumerate(text.splitlines(), 1):
            if MACHINE_PATH.search(line):
                fault(f"{name}:{number}", "a path of a machine")


def row(crate):
    """A row of the table of crates to begin with: files of definitions and public calls as they are."""
    lib = CRATES / crate / "specs" / "Lib.antt"
    modules = re.findall(r"^(?:pub )?mod (\w+)", lib.read_text(), re.M) if lib.is_file() else []
    files = ", ".join(f"[{name}](../crates/{crate}/specs/{name}.antt)" for name in modules)
    calls, shown = [], exported(crate)
    for path in sorted((CRATES / crate / "src").rglob("*.rt")):
        names = [name for name in re.findall(r"^pub (?:fn|struct|enum|trait) (\w+)", path.read_text(), re.M) if name in shown]
        if names:
            calls.append(f"[{', '.join(f'`{name}`' for name in names)}](../{path.relative_to(ROOT)}): ..")
    return f"| [{crate}](../crates/{crate}) | LAYER | .. | {files} | {'<br>'.join(calls)} | |"


def main():
    names = crates()
    if sys.argv[1:2] == ["--row"]:
        for crate in sys.argv[2:]:
            print(row(crate))
        return
    if sys.argv[1:]:
        sys.exit(__doc__)
    check_crates(names)
    for name in DOCUMENTS:
        check_document(name, names)
    lines = len((ROOT / "README.md").read_text().splitlines())
    if lines > MOST_LINES:
        fault("README.md", f"{lines} lines, more than {MOST_LINES}")
    check_machine_paths()
    listed = subprocess.run([sys.executable, str(ROOT / "tools" / "list_definitions.py"), "--check"], capture_output=True, text=True)
    if listed.returncode != 0:
        fault("docs/READING-GUIDE.md", listed.stderr.strip().splitlines()[-1] if listed.stderr.strip() else "the list of definitions fails")
    for line in faults:
        print(line)
    if faults:
        sys.exit(1)
    print(f"{len(DOCUMENTS)} documents and {len(names)} crates agree")


if __name__ == "__main__":
    main()
