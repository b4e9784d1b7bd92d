#!/usr/bin/env python3
"""Runs the program over the cases of tests/written, and ends with `N passed, M failed`.

    tests/written.py

- `items`, `types`, `calls` and `trees`: each line at the margin is the statements of an object template of its own,
  behind its first line, and the line under it what comes of them: the profile, or the fault with its place. Before `|`
  stand the options of the build; NAME is the object. The files of `written/files` lie beside the template.
- `layouts`: each line at the margin is a file, in which `\\n`, `\\r`, `\\t` and `\\\\` are what they are in C, and
  `$N$TEXT$` is N times TEXT; under it stands its layout, each line behind `|`, or its fault, or `laid out` where any
  layout will do.
- `states`: each line at the margin is a database below `written/databases` that no build has kept; a build with it as
  its file of rows is refused with the line under it as its note, and leaves it as it is.
- `sites`: a watcher over a folder of its own for each case. `file PATH` writes a file of the lines under it that begin
  with `|`, `gone PATH` removes one, `build` builds; under it stand the lines that it has to write, and each profile that
  then lies there. `files NAME` tells the files of an object's dependency file.

Lines that begin with `- ` say what is tried. The program is the one that the variable PAN names, else the one that
contrib/pan-program finds.
"""
import re
import shutil
import subprocess
import tempfile
from pathlib import Path

from program import PROGRAM, Watcher

WRITTEN = Path(__file__).resolve().parent / "written"
SECONDS = 120


def cases_in(name):
    """The lines at the margin, each with the lines under it."""
    cases = []
    for line in (WRITTEN / name).read_text().splitlines():
        if line.startswith("  "):
            cases[-1][1].append(line[2:])
        elif not line.startswith("- "):
            cases.append((line, []))
    return cases


def write(folder, name, text):
    path = folder / name
    path.parent.mkdir(parents=True, exist_ok=True)
    path.write_bytes(text.encode())


def told(lines, out, name):
    """What came of an object: its fault, or its profile."""
    for line in lines:
        if line.startswith(f"fault {name} "):
            return line.removeprefix(f"fault {name} ").replace(f"{name}.pan:", "")
    profile = out / f"{name}.json"
    return profile.read_text().rstrip("\n") if profile.exists() else "nothing"


def run_objects(cases, options, room):
    """Builds the objects of these cases at once, and gives what came of each."""
    source, out = room / "source", room / "out"
    shutil.copytree(WRITTEN / "files", source)
    names = [f"case{number}" for number in range(len(cases))]
    for name, statements in zip(names, cases):
        write(source, f"{name}.pan", f"object template {name};\n{statements.replace('NAME', name)}\n")
    command = [PROGRAM, "build", source, out, *options]
    ended = subprocess.run(command, capture_output=True, text=True, timeout=SECONDS)
    lines = ended.stdout.splitlines()
    return [told(lines, out, name).replace(name, "NAME") for name in names]


def wrong_objects(name):
    """Says what differs of the cases of a file of objects, and gives the counts."""
    groups = {}
    for line, wanted in cases_in(name):
        options, _, statements = line.rpartition("|") if line.startswith("--") else ("", "", line)
        groups.setdefault(options, []).append((statements, wanted))
    passed = failed = 0
    for options, cases in groups.items():
        with tempfile.TemporaryDirectory() as room:
            came = run_objects([statements for statements, _ in cases], options.split(), Path(room))
        for (statements, wanted), found in zip(cases, came):
            if [found] == wanted:
                passed += 1
            else:
                failed += 1
                print(f"{name}: {options} {statements}\n  wanted {' '.join(wanted)}\n  found  {found}")
    return passed, failed


def spelled(text):
    """The text of a file that a line spells."""
    text = re.sub(r"\\(.)", lambda it: {"n": "\n", "r": "\r", "t": "\t"}.get(it[1], it[1]), text)
    return re.sub(r"\$(\d+)\$([^$]*)\$", lambda it: int(it[1]) * it[2], text)


def run_layouts(texts, room):
    """Lays these files out, and gives what came of each."""
    source, out = room / "source", room / "out"
    for number, text in enumerate(texts):
        write(source, f"case{number}.pan", text)
    ended = subprocess.run([PROGRAM, "format", source, out], capture_output=True, text=True, timeout=SECONDS)
    faults = {}
    for line in ended.stdout.splitlines():
        if line.startswith("fault "):
            _, name, code, place = line.split(" ")
            faults[name] = f"{code} {place.removeprefix(f'{name}:')}"
        elif line.startswith("too long "):
            faults[line.removeprefix("too long ")] = "too long"
    for number in range(len(texts)):
        name = f"case{number}.pan"
        if name in faults:
            yield [faults[name]]
        else:
            yield ["|" + line for line in (out / name).read_text().split("\n")[:-1]]


def wrong_layouts(name):
    """Says what differs of the cases of a file of layouts, and gives the counts."""
    cases = cases_in(name)
    passed = failed = 0
    with tempfile.TemporaryDirectory() as room:
        came = run_layouts([spelled(text) for text, _ in cases], Path(room))
        for (text, wanted), found in zip(cases, came):
            if found == wanted or wanted == ["laid out"] and found[0].startswith("|"):
                passed += 1
            else:
                failed += 1
                print(f"{name}: {text}\n  wanted {wanted}\n  found  {found}")
    return passed, failed


def wrong_states(name):
    """Says what differs of the databases that no build has kept, and gives the counts."""
    passed = failed = 0
    for database, wanted in cases_in(name):
        with tempfile.TemporaryDirectory() as room:
            write(Path(room), "source/h.pan", "object template h;\n")
            shutil.copy(WRITTEN / "databases" / database, room)
            command = [PROGRAM, "build", "source", "out", "--state", database]
            ended = subprocess.run(command, cwd=room, capture_output=True, text=True, timeout=SECONDS)
            is_same = (Path(room) / database).read_bytes() == (WRITTEN / "databases" / database).read_bytes()
        found = ended.stderr.splitlines()
        if found == wanted and ended.stdout == "keeper fault\n" and is_same:
            passed += 1
        else:
            failed += 1
            print(f"{name}: {database}\n  wanted {wanted}\n  found  {found} {ended.stdout}")
    return passed, failed


class Site:
    """A source of its own, and a watcher over it."""

    def __init__(self, room):
        self.source, self.out = room / "source", room / "out"
        self.source.mkdir()
        self.watcher = Watcher(self.source, self.out)

    def build(self):
        """The lines of a build, and what then lies there."""
        lines = self.watcher.ask("build", "objects ")
        for path in sorted(self.out.rglob("*.json")):
            lines.append(f"profile {path.relative_to(self.out).with_suffix('')} {path.read_text().rstrip()}")
        return lines

    def files(self, name):
        path = self.out / f"{name}.dep"
        return path.read_text().splitlines() if path.exists() else []


def run_site(steps, room):
    """Plays the steps of a case, and gives those whose text differs."""
    site, wrong = Site(room), []
    for (step, *rest), wanted in steps:
        if step == "file":
            write(site.source, rest[0], "".join(line[1:] + "\n" for line in wanted))
        elif step == "gone":
            (site.source / rest[0]).unlink()
        else:
            found = site.build() if step == "build" else site.files(rest[0])
            if found != wanted:
                wrong.append((" ".join([step, *rest]), wanted, found))
    site.watcher.quit()
    return wrong


def wrong_sites(name):
    """Says what differs of the cases of a file of sites, and gives the counts."""
    sites = []
    for line, under in cases_in(name):
        if line == "new":
            sites.append([])
        else:
            sites[-1].append((line.split(" "), under))
    passed = failed = 0
    for number, steps in enumerate(sites):
        with tempfile.TemporaryDirectory() as room:
            wrong = run_site(steps, Path(room))
        passed, failed = passed + (not wrong), failed + bool(wrong)
        for step, wanted, found in wrong:
            print(f"{name}, case {number + 1}: {step}\n  wanted {wanted}\n  found  {found}")
    return passed, failed


def main():
    counts = [wrong_objects(name) for name in ("items", "types", "calls", "trees")]
    counts += [wrong_layouts("layouts"), wrong_states("states"), wrong_sites("sites")]
    passed, failed = (sum(column) for column in zip(*counts))
    print(f"{passed} passed, {failed} failed")
    return failed > 0


if __name__ == "__main__":
    raise SystemExit(main())
