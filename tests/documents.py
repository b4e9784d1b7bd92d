#!/usr/bin/env python3
"""Compares the documents with the program and with each other, and ends with `N passed, M failed`.

    tests/documents.py

- docs/pan.1 is what docs/make_man.py makes of docs/COMMANDS.md, and groff shows it without a warning.
- Each link of a document leads to a file that is there, as does each path in it, and README.md names each document.
- What docs/ARCHITECTURE.md names as the definition or the code of a rule is there, as are each edit, clause, law and call
  that docs/PROVED.md names.
- docs/FAULTS.md and docs/LANGUAGE.md have each fault code of the compiler once; ./pan --help names each option.
- What README.md shows is examples/first, and the program does it. The examples of the other documents are run by tests/run.
- Each folder of examples/ is run by a row.

The program is the one that the variable PAN names, else the one that contrib/pan-program finds.
"""
import os
import re
import shutil
import subprocess
import sys
import tempfile
from pathlib import Path

from program import PROGRAM

TOP = Path(__file__).resolve().parent.parent
DOCS = TOP / "docs"
FIRST = ["types.pan", "web1.pan"]
# A code that no fault has any more.
OLD_CODES = {"F99"}


def man_page():
    ended = subprocess.run([DOCS / "make_man.py", "--check"], capture_output=True, text=True)
    yield "docs/pan.1 is made from docs/COMMANDS.md", ended.returncode == 0
    if shutil.which("groff"):
        ended = subprocess.run(["groff", "-man", "-Tutf8", "-ww", "-z", DOCS / "pan.1"], capture_output=True, text=True)
        yield "groff shows docs/pan.1 without a warning", ended.returncode == 0 and not ended.stderr


def pages():
    readmes = [TOP / folder / "README.md" for folder in (".", "editors", "tests")]
    return [*readmes, *sorted(DOCS.glob("*.md"))]


def anchors_of(page):
    """The headings of a page, as links name them."""
    heads = re.findall(r"^#+ (.*)$", page.read_text(), re.M)
    return {re.sub(r"[^\w\- ]", "", head.lower()).replace(" ", "-") for head in heads}


def links():
    for page in pages():
        bad = []
        for target in re.findall(r"\]\(([^)\s]+)\)", page.read_text()):
            if "://" in target:
                continue
            file, _, anchor = target.partition("#")
            path = page.parent / file if file else page
            if not path.exists() or (anchor and anchor not in anchors_of(path)):
                bad.append(target)
        yield f"links of {page.relative_to(TOP)} {' '.join(bad)}".rstrip(), not bad
    named = (TOP / "README.md").read_text()
    missing = [page.name for page in DOCS.glob("*.md") if f"docs/{page.name}" not in named]
    yield f"README.md names each document {' '.join(missing)}".rstrip(), not missing


# A path below a folder of the repository, and one below a crate's folder, wherever they stand in a page.
BEFORE_A_PATH = r"(?<![\w/.<>-])"
OF_THE_TOP = re.compile(BEFORE_A_PATH + r"(?:\.ci|bench|contrib|crates|dist|docs|editors|examples|tests)/[\w./*+-]+")
OF_A_CRATE = re.compile(BEFORE_A_PATH + r"(?:crates/)?([a-z]\w*)/((?:must-fail|proofs|specs|src)(?:/[\w.+]+)*)")
ENDINGS = ("", ".antt", ".rt")


def is_of_a_crate(name, rest):
    """Whether a crate has this file or folder; a file of definitions, proofs or code may stand without its ending."""
    return any((TOP / "crates" / name / f"{rest}{ending}").exists() for ending in ENDINGS)


def paths_gone(text):
    """The paths of a text that lead nowhere, but for those with NAME in them."""
    for name, rest in OF_A_CRATE.findall(text):
        if not is_of_a_crate(name, rest.rstrip(".")):
            yield f"{name}/{rest}"
    for path in OF_THE_TOP.findall(text):
        path = path.rstrip("./")
        if "NAME" not in path and not any(TOP.glob(path)) and not OF_A_CRATE.fullmatch(path):
            yield path


NAMES = r"((?:`\w+`(?:, )?)+)"


def has_definition(file, name):
    """Whether a file of definitions, `crate/specs/File`, has this one."""
    path = TOP / "crates" / f"{file}.antt"
    head = re.compile(rf"^ *(?:(?:abbrev|data|pub|record|unfoldable) )*{name} [:({{]", re.M)
    return path.exists() and head.search(path.read_text())


def rules_gone():
    """What ARCHITECTURE.md's tables name and is not there: in `crate/specs` `File` a file of definitions, in `crate`:
    `file` a file of code, in `crate/specs/File` `name` a definition."""
    rows = "\n".join(re.findall(r"^\|.*$", (DOCS / "ARCHITECTURE.md").read_text(), re.M))
    for between, folder in ((r"/specs` ", "specs"), (r"`: ", "src")):
        for crate, names in re.findall(rf"`([a-z]\w*){between}{NAMES}", rows):
            files = [f"{folder}/{name}" for name in re.findall(r"\w+", names)]
            yield from (f"{crate}/{file}" for file in files if not is_of_a_crate(crate, file))
    for file, names in re.findall(rf"`([a-z]\w*/specs/\w+)` {NAMES}", rows):
        yield from (f"{file} {name}" for name in re.findall(r"\w+", names) if not has_definition(file, name))


def paths():
    for page in pages():
        gone = sorted(set(paths_gone(page.read_text())))
        yield f"paths of {page.relative_to(TOP)} {' '.join(gone)}".rstrip(), not gone
    gone = sorted(set(rules_gone()))
    yield f"rules of docs/ARCHITECTURE.md {', '.join(gone)}".rstrip(), not gone


def edits_gone():
    """The edits of the table of wrong bodies in PROVED.md, `crate/name`, behind which other names stand for edits of the
    same crate, that are not there."""
    table = re.search(r"^\| A wrong body \| Its edit \|\n((?:\|.*\n)+)", (DOCS / "PROVED.md").read_text(), re.M)[1]
    for row in table.splitlines()[1:]:
        crate = None
        for word in re.findall(r"`([a-z_/]+)`", row.rsplit("|", 2)[1]):
            crate, name = word.split("/") if "/" in word else (crate, word)
            if not any((TOP / f"crates/{crate}/must-fail/{name}.{end}").exists() for end in ("edit", "md")):
                yield f"{crate}/{name}"


def words_of_the_crates():
    """The words of all code, definitions and proofs."""
    files = (file for part in ("src", "specs", "proofs") for file in TOP.glob(f"crates/*/{part}/**/*.*t*"))
    return {word for file in files for word in re.findall(r"\w+", file.read_text())}


def clauses_gone():
    """The names in the columns Call and Clause of PROVED.md's tables that stand in no crate; of a path and of a name that
    is cut off with an ellipsis nothing is asked here."""
    known = words_of_the_crates() | {crate.name for crate in (TOP / "crates").iterdir()}
    rows = re.findall(r"^\| [^|]+ \| ([^|]+ \| [^|]+) \| [^|]+ \|$", (DOCS / "PROVED.md").read_text(), re.M)
    for name in re.findall(r"`([^`]+)`", "\n".join(rows)):
        words = [] if "/" in name or "…" in name else re.findall(r"[A-Za-z_]\w*", name)
        yield from (word for word in words if word not in known)


def proved():
    for what, names in (("edits", edits_gone()), ("clauses", clauses_gone())):
        gone = sorted(set(names))
        yield f"{what} of docs/PROVED.md {' '.join(gone)}".rstrip(), not gone


def codes():
    source = (TOP / "crates/pan_ast/specs/Codes.antt").read_text()
    wanted = sorted(set(re.findall(r'codes "(F\d\d)"', source)) - OLD_CODES)
    yield "the compiler's codes", len(wanted) > 40
    yield "docs/FAULTS.md has each", re.findall(r"^## (F\d\d)", (DOCS / "FAULTS.md").read_text(), re.M) == wanted
    table = re.findall(r"\| (F\d\d) (?=\|)", (DOCS / "LANGUAGE.md").read_text())
    yield "docs/LANGUAGE.md has each", sorted(table) == wanted


def options():
    told = subprocess.run([TOP / "pan", "--help"], capture_output=True, text=True).stdout
    known = set(re.findall(r"^\| `(--[a-z-]+)", (DOCS / "COMMANDS.md").read_text(), re.M))
    yield "./pan --help names each option", len(known) > 2 and all(option in told for option in known)


def blocks_of(text):
    """The indented blocks of a page, each a text."""
    found = re.findall(r"(?:^    .*\n)+", text, re.M)
    return ["".join(line[4:] for line in block.splitlines(keepends=True)) for block in found]


def readme():
    """The two files of examples/first, in two blocks each; then come the texts of two runs and what they leave."""
    head, body, head_of_machine, body_of_machine, report, profile, reads, fault, *_ = blocks_of(
        (TOP / "README.md").read_text()
    )
    types, web1 = f"{head}\n{body}", f"{head_of_machine}\n{body_of_machine}"
    first = TOP / "examples" / "first"
    yield "README.md shows examples/first", [types, web1] == [(first / name).read_text() for name in FIRST]
    extra = re.search(r"With one more line, `([^`]+)`", (TOP / "README.md").read_text())[1]
    with tempfile.TemporaryDirectory() as folder:
        folder = Path(folder)
        shutil.copytree(first, folder / "site")

        def build():
            words = [PROGRAM, "build", "site", "profiles"]
            return subprocess.run(words, cwd=folder, capture_output=True, text=True, timeout=120).stdout

        yield "the report of README.md", build() == report
        yield "its profile", (folder / "profiles/web1.json").read_text() == profile
        yield "its dependencies", (folder / "profiles/web1.dep").read_text() == reads
        (folder / "site/web1.pan").write_text(web1 + extra + "\n")
        yield "its fault", fault in build() and not (folder / "profiles/web1.json").exists()


def examples():
    rows = "".join(path.read_text() for path in (TOP / "tests/rows").glob("*.row"))
    for folder in sorted((TOP / "examples").iterdir()):
        yield f"a row runs examples/{folder.name}", f"example {folder.name} -> " in rows


def main():
    passed = failed = 0
    for part in (man_page, links, paths, proved, codes, options, readme, examples):
        for name, is_well in part():
            passed, failed = passed + is_well, failed + (not is_well)
            if not is_well:
                print(f"FAILED {name}")
    print(f"{passed} passed, {failed} failed")
    return 1 if failed else 0


if __name__ == "__main__":
    sys.exit(main())
