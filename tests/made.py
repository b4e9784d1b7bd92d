#!/usr/bin/env python3
"""Runs the built program over sources that are made here, and ends with `N passed, M failed`.

    tests/made.py [HISTORIES]      so many random histories of a watcher (200 unless told)

- Four hundred objects that read each other in a chain, in a star and in a circle.
- A long list, each item of which takes defaults, in a time that is no square of its length.
- A source of more files than a scan takes, and a watcher of more lines than a session has.
- A watcher writes the text of a line before it reads the next one.
- Random histories of a watcher: between its builds files come, go and change. After each build the folder has to
  hold what a build from scratch makes of the same source, and the faults have to be the same; an object is compiled
  only where the dependency file of its last build names something that has changed.

The seeds are the numbers of the histories. The program is the one that the variable PAN names, else the one that
contrib/pan-program finds.
"""
import os
import random
import subprocess
import sys
import tempfile
import time
from pathlib import Path

from program import PROGRAM, Watcher

TOP = Path(__file__).resolve().parent.parent
OBJECTS = 400
ITEMS = 40_000
MOST_FILES = 50_000
MOST_LINES = 1_000_000
MOST_SECONDS = 5
BUILDS = 6


def write(folder, name, text):
    path = folder / name
    path.parent.mkdir(parents=True, exist_ok=True)
    path.write_text(text)


def shelf_of(folder):
    return {str(path.relative_to(folder)): path.read_bytes() for path in folder.rglob("*") if path.is_file()}


def build(source, out):
    """The lines of a build, and what it leaves."""
    ended = subprocess.run([PROGRAM, "build", source, out], capture_output=True, text=True, timeout=120)
    return ended.stdout.splitlines(), shelf_of(out)


def made_site(folder, reads):
    """Builds objects of which each reads the ones that are named, and gives the lines and the profiles."""
    for name, others in reads.items():
        lines = "".join(f"'/sum' = value('/sum') + value('{other}:/sum');\n" for other in others)
        write(folder / "source", f"{name}.pan", f"object template {name};\n'/sum' = 1;\n{lines}")
    return build(folder / "source", folder / "out")


def chain_star_and_circle(folder):
    names = [f"h{n:03}" for n in range(OBJECTS)]
    lines, shelf = made_site(folder / "chain", {name: names[n + 1 : n + 2] for n, name in enumerate(names)})
    yield "a chain", lines[-1] == f"objects {OBJECTS} ok {OBJECTS} faults 0 run {OBJECTS}"
    yield "each of a chain", all(
        shelf[f"{name}.json"] == b'{"sum":%d}\n' % (OBJECTS - n) for n, name in enumerate(names)
    )
    lines, shelf = made_site(folder / "star", {name: names[1:51] if n == 0 else names[:1] if n > 50 else [] for n, name in enumerate(names)})
    yield "a star", lines[-1] == f"objects {OBJECTS} ok {OBJECTS} faults 0 run {OBJECTS}"
    yield "the middle of a star", shelf["h000.json"] == b'{"sum":51}\n'
    yield "the others of a star", shelf["h399.json"] == b'{"sum":52}\n'
    lines, shelf = made_site(folder / "circle", {name: [names[(n + 1) % OBJECTS]] for n, name in enumerate(names)})
    yield "a circle", lines[-1] == f"objects {OBJECTS} ok 0 faults {OBJECTS} run {OBJECTS}"
    wanted = [f"fault {name} F31 {name}.pan:3:26 {names[(n + 1) % OBJECTS]}" for n, name in enumerate(names)]
    yield "each of a circle", lines[OBJECTS:-1] == wanted and not shelf


def many_defaults(folder):
    """Each item of a long list takes two defaults: in the square of its length that took half a minute."""
    source, out = folder / "source", folder / "out"
    write(source, "long.pan", f"""object template long;
type item = {{ 'port' : long = 80 'name' : string = 'x' }};
bind '/items' = item[];
'/items' = {{ l = list(); for (i = 0; i < {ITEMS}; i = i + 8) for (j = 0; j < 8; j = j + 1) l[i + j] = dict(); l; }};
""")
    start = time.monotonic()
    lines, shelf = build(source, out)
    yield "a long list", lines[-1] == "objects 1 ok 1 faults 0 run 1"
    item = b'{"name":"x","port":80}'
    yield "each item of a long list", shelf.get("long.json") == b'{"items":[' + b",".join([item] * ITEMS) + b"]}\n"
    yield f"a long list within {MOST_SECONDS} seconds", time.monotonic() - start < MOST_SECONDS


def too_many(folder):
    """One file more than a scan takes, of which none is read; and a line more than a session has."""
    source, out = folder / "source", folder / "out"
    write(source, "h.pan", "object template h;\n")
    for number in range(MOST_FILES):
        (source / f"{number}.txt").touch()
    ended = subprocess.run([PROGRAM, "build", source, out], capture_output=True, text=True, timeout=120)
    yield "too many files", (ended.returncode, ended.stdout, shelf_of(out)) == (11, "too much\n", {})
    lines = "\n" * MOST_LINES
    ended = subprocess.run([PROGRAM, "watch", source, out], input=lines, capture_output=True, text=True, timeout=120)
    yield "too many lines", (ended.returncode, ended.stdout) == (10, "bad line\n" * MOST_LINES + "too many lines\n")


def answers_before_it_asks(folder):
    write(folder / "source", "h.pan", "object template h;\n'/a' = 1;\n")
    watcher = Watcher(folder / "source", folder / "out")
    yield "a scan", watcher.ask("scan", "files") == ["files 1 objects 1"]
    yield "what is pending", watcher.ask("show h", "pending|profile") == ["pending"]
    yield "a build", watcher.ask("build", "objects")[-1] == "objects 1 ok 1 faults 0 run 1"
    write(folder / "source", "h.pan", "object template h;\n'/a' = 2;\n")
    yield "a build of a change", watcher.ask("build", "objects")[0] == "run h"
    yield "why", watcher.ask("why h", ".") == ["changed file h.pan"]
    yield "what is shown", watcher.ask("show h", "profile") == ['profile {"a":2}']
    yield "a watcher's end", watcher.quit() == 0


def reads_by_path(folder):
    """An object that reads a path of another one is compiled where what stands at that path has changed, and else not."""
    source = folder / "source"

    def write_b(*statements):
        write(source, "b.pan", "\n".join(["object template b;", *statements]) + "\n")

    write(source, "a.pan", "object template a;\n'/p' = value('b:/x');\n")
    write(source, "c.pan", "object template c;\n'/p' = 1;\nvalid '/p' = value('b:/y') > 0;\n")
    write(source, "d.pan", "object template d;\n'/p' = exists('b:/z');\n")
    write_b("'/x' = 1;", "'/y' = 1;")
    watcher = Watcher(source, folder / "out")
    yield "objects that read paths", watcher.ask("build", "objects")[-1] == "objects 4 ok 4 faults 0 run 4"
    write_b("'/x' = 1;", "'/y' = 1;", "'/w' = 1;")
    yield "a path that nobody reads", watcher.ask("build", "objects") == ["run b", "objects 4 ok 4 faults 0 run 1"]
    yield "why not", watcher.ask("why a", ".") == ["not run"]
    write_b("'/x' = 1;", "'/y' = 2;")
    yield "a path that a check reads", watcher.ask("build", "objects")[:-1] == ["run b", "run c"]
    yield "why by a path", watcher.ask("why c", ".") == ["changed object b"]
    write_b("'/y' = 2;")
    yield "a path that goes", watcher.ask("build", "objects") == [
        "run a",
        "run b",
        "fault a F28 a.pan:2:8 b:/x",
        "objects 4 ok 3 faults 1 run 2",
    ]
    write_b("'/x' = 1;", "'/y' = 2;")
    yield "a path that comes back", watcher.ask("build", "objects")[:-1] == ["run a", "run b"]
    write_b("'/x' = 1;", "'/y' = 2;", "'/z' = 1;")
    yield "a path at which nothing was", watcher.ask("build", "objects")[:-1] == ["run b", "run d"]
    write_b("'/x' = 5;", "'/y' = 2;", "'/z' = 1;")
    yield "a scan between", watcher.ask("scan", "files") == ["files 4 objects 4"]
    write_b("'/x' = 1;", "'/y' = 2;", "'/z' = 1;")
    yield "a value that was another one between", watcher.ask("build", "objects")[:-1] == ["run b"]
    write_b("'/x' = error('no');")
    yield "an object that fails", watcher.ask("build", "objects")[-1] == "objects 4 ok 0 faults 4 run 4"
    write_b("'/x' = 1;", "'/y' = 2;", "'/z' = 1;")
    yield "one that fails no more", watcher.ask("build", "objects")[-1] == "objects 4 ok 4 faults 0 run 4"
    yield "the end of who reads paths", watcher.quit() == 0


def random_template(random, kind, name):
    """A template that includes, looks for, and reads a few of the same small set of names."""
    lines = [f"{kind}template {name};"]
    if kind and random.random() < 0.5:
        prefixes = random.choice(["'p'", "'p', 'q'", "'q'"])
        lines.append(f"variable LOADPATH = list({prefixes});")
    for _ in range(random.randrange(4)):
        other, part = random.choice("abcde"), random.choice("xyz")
        lines.append(
            random.choice(
                [
                    f"'/{part}' = {random.randrange(3)};",
                    f"'/{part}' ?= value('{other}:/{random.choice('xyz')}');",
                    f"'/{part}' = exists('{other}:/{random.choice('xyz')}');",
                    f"include {{ if_exists('t{random.randrange(3)}') }};",
                    f"include 't{random.randrange(3)}';",
                    f"'/{part}' = file_exists('f{random.randrange(2)}');",
                    f"bind '/{part}' = long;",
                    f"valid '/{part}' = exists('{other}:/x');",
                ]
            )
        )
    return "\n".join(lines) + "\n"


def change(random, source):
    """One file comes, goes or changes."""
    name = random.choice(["a", "b", "c", "d", "e", "t0", "t1", "t2", "p/t0", "q/t1", "p/t2", "f0", "f1"])
    path = source / (name if name.startswith("f") else f"{name}.pan")
    if path.exists() and random.random() < 0.3:
        path.unlink()
    elif name.startswith("f"):
        write(source, name, str(random.randrange(3)))
    elif name in "abcde":
        write(source, f"{name}.pan", random_template(random, "object ", name))
    else:
        write(source, f"{name}.pan", random_template(random, "", name.split("/")[-1]))


def has_changed(deps, before, now, answers_before, answers_now):
    """Whether a dependency file names a file or an object that is another one now."""
    for line in deps.decode().splitlines():
        kind, name = line.split(" ", 1)
        old, new = (answers_before, answers_now) if kind == "object" else (before, now)
        # An object that has a fault may have been read all the same: others see its tree before its check.
        if old.get(name) != new.get(name) or (kind == "object" and isinstance(old.get(name), str)):
            return True
    return False


def answers_of(lines, shelf):
    """What each object came to: its profile, or its fault."""
    answers = {name[:-5]: text for name, text in shelf.items() if name.endswith(".json")}
    for line in lines:
        if line.startswith("fault "):
            answers[line.split(" ")[1]] = line
    return answers


def history(number):
    dice = random.Random(number)
    with tempfile.TemporaryDirectory() as room:
        folder = Path(room)
        source, out = folder / "source", folder / "out"
        source.mkdir()
        for _ in range(12):
            change(dice, source)
        watcher = Watcher(source, out)
        old_files, old_shelf, old_answers = {}, {}, {}
        for turn in range(BUILDS):
            said = watcher.ask("build", "objects")
            scratch_said, scratch = build(source, folder / f"scratch{turn}")
            faults = [line for line in said if line.startswith("fault ")]
            if faults != [line for line in scratch_said if line.startswith("fault ")]:
                return f"build {turn}: {said}, from scratch {scratch_said}"
            if shelf_of(out) != scratch:
                return f"build {turn}: the profiles differ from those from scratch"
            files, answers = shelf_of(source), answers_of(said, scratch)
            for line in said:
                name = line[4:] if line.startswith("run ") else ""
                deps = old_shelf.get(f"{name}.dep")
                if deps and not has_changed(deps, old_files, files, old_answers, answers):
                    return f"build {turn}: {name} was compiled, and nothing that it read has changed"
            old_files, old_shelf, old_answers = files, scratch, answers
            for _ in range(dice.randrange(4)):
                change(dice, source)
        watcher.quit()
    return ""


def main(words):
    passed = failed = 0
    for part in (chain_star_and_circle, many_defaults, too_many, answers_before_it_asks, reads_by_path):
        with tempfile.TemporaryDirectory() as room:
            for name, is_well in part(Path(room)):
                passed, failed = passed + is_well, failed + (not is_well)
                if not is_well:
                    print(f"FAILED {name}")
    for number in range(int(words[0]) if words else 200):
        why = history(number)
        passed, failed = passed + (not why), failed + bool(why)
        if why:
            print(f"FAILED history {number}: {why}")
    print(f"{passed} passed, {failed} failed")
    return 1 if failed else 0


if __name__ == "__main__":
    sys.exit(main(sys.argv[1:]))
