#!/usr/bin/env python3
"""Tries the script `./pan`, what it finds and tells, and contrib/install; ends with `N passed, M failed`.

    tests/front.py

- Words, `--help` and `--version`; how the program is found, where sources are others or none comes with them.
- The notes on standard error: slips in SOURCE, files of others in OUT, and the line behind a build.
- Accidents that would take every profile away: with --most-removed the files are still there, and a note says why.
- One program at a time works on a folder of profiles, and on a file of --state; what such a file keeps.
- What a watcher is given for the allocator.
- The layout of folders, files and standard input, and what only looks at it; what an edit touches, and what is unused.
- Faults without a publication, faults for other programs, what stands in a profile, and who set it.
- What contrib/install puts below a folder runs there, with nothing of the repository.
- Devices that are full or closed, links, names like options', words too many, signals.

The program is the one that the variable PAN names, else the one that contrib/pan-program finds.
"""
import fcntl
import json
import os
import re
import shutil
import subprocess
import sys
import tempfile
import threading
from pathlib import Path

from program import PROGRAM

TOP = Path(__file__).resolve().parent.parent
SECONDS = 120
SITE = TOP / "examples" / "site"
SUMMARY = re.compile(
    r"(\d+) machines?, (\d+) profiles?, (\d+) faults?; (\d+) changed, (\d+) new, (\d+) gone; \d+\.\d s"
)


class Ended:
    def __init__(self, ended):
        self.status, self.text, self.notes = ended.returncode, ended.stdout, ended.stderr

    def summary(self):
        """The numbers of the line behind a build; none where it was not written."""
        found = [SUMMARY.fullmatch(line) for line in self.notes.splitlines()]
        return next(([int(number) for number in match.groups()] for match in found if match), [])

    def warns(self, *words):
        return any(
            line.startswith("warning: ") and all(word in line for word in words) for line in self.notes.splitlines()
        )


def pan(folder, *words, script=TOP / "pan", given=None, **variables):
    surroundings = {**os.environ, "PAN": str(PROGRAM), "PAN_NOTES": "", **variables}
    for name in [name for name, value in surroundings.items() if value is None]:
        del surroundings[name]
    return Ended(
        subprocess.run(
            [script, *words],
            cwd=folder,
            env=surroundings,
            input=given,
            capture_output=True,
            text=True,
            timeout=SECONDS,
        )
    )


def write(folder, name, text):
    path = folder / name
    path.parent.mkdir(parents=True, exist_ok=True)
    path.write_text(text)


def machines(folder, count):
    for number in range(1, count + 1):
        write(folder, f"site/web{number}.pan", f"object template web{number};\ninclude 'common/base';\n")
    write(folder, "site/common/base.pan", "template common/base;\n'/port' = 80;\n")


def profiles(folder):
    return sorted(path.name for path in (folder / "out").glob("*.json"))


def words(folder):
    ended = pan(folder, "--help")
    yield "--help", ended.status == 0 and ended.text.startswith("pan compiles templates") and not ended.notes
    ended = pan(folder, "--version")
    lines = ended.text.splitlines()
    yield "--version", ended.status == 0 and lines[0].startswith("pan ") and re.fullmatch("sha256 [0-9a-f]{64}", lines[-1])
    ended = pan(folder, "compile", "site", "out", PAN=None, PATH="/usr/bin:/bin")
    yield "words that are none", (ended.status, ended.text) == (2, "usage fault\n")
    ended = pan(folder, "build", "site")
    yield "a word that is missing", (ended.status, ended.text) == (2, "usage fault\n") and "OUT is missing" in ended.notes
    ended = pan(folder, "build", "site", "new/out", "--max-iteration", "0")
    yield "words that are wrong make no folder", ended.status == 2 and not (folder / "new").exists()
    ended = pan(folder, "build", "site", "new/out", "--include", "../site")
    yield "a folder beside SOURCE", ended.status == 2 and "--include takes folders below SOURCE" in ended.notes
    ended = pan(folder, "build", "nowhere", "new/out")
    yield "a source that is missing makes no folder", (ended.status, ended.text) == (3, "source fault\n") and not (
        folder / "new"
    ).exists()
    machines(folder, 1)
    write(folder, "a.file", "")
    ended = [pan(folder, "build", "site", "a.file/out", *more) for more in ([], ["--quiet"])]
    yield "a folder that cannot be made", [(e.status, e.text) for e in ended] == [(4, "shelf fault\n")] * 2
    ended = pan(folder, "demo", "3", "1")
    yield "a demo", ended.status == 0 and ended.text.count("objects 3 ") == 4


def repository(folder, program):
    """A small repository with the scripts, whose sources are one line, and a program below dist."""
    shutil.copytree(TOP / "contrib", folder / "contrib")
    shutil.copy(TOP / "pan", folder / "pan")
    write(folder, "crates.txt", "base:\npan: base\nother: base\n")
    for crate in ("base", "pan", "other"):
        write(folder, f"crates/{crate}/src/lib.rt", f"// {crate}\n")
    place = folder / "dist" / f"{os.uname().machine}-linux"
    place.mkdir(parents=True)
    shutil.copy(program, place / "pan")
    sources = subprocess.run([folder / "contrib/pan-program", "--sources"], capture_output=True, text=True).stdout
    digest = subprocess.run(["sha256sum", place / "pan"], capture_output=True, text=True).stdout[:64]
    write(place, "pan.of", f"version 9.9.9\nkit a kit\nsources {sources}program {digest}\nglibc 2.1\ndate 2000-01-01\n")
    return place / "pan"


def found(folder):
    """How the program is found, on a machine without the kit."""
    shipped = repository(folder, PROGRAM)
    machines(folder, 1)
    without_kit = {"script": folder / "pan", "PAN": None, "PATH": "/usr/bin:/bin"}
    ended = pan(folder, "build", "site", "out", **without_kit)
    yield "the program that comes with a clone", ended.status == 0 and profiles(folder) == ["web1.json"]
    ended = pan(folder, "--version", **without_kit)
    yield "its version", ended.text.splitlines()[:2] == ["pan 9.9.9", "proved with a kit"]
    write(folder, "crates/other/src/lib.rt", "// a change of what the program is not made of\n")
    os.utime(folder / "crates/base/src/lib.rt")
    yield "times and other crates do not count", pan(folder, "build", "site", "out", **without_kit).status == 0
    write(folder, "crates/base/src/lib.rt", "// a change\n")
    ended = pan(folder, "build", "site", "out", **without_kit)
    yield "sources that are others", ended.status == 127 and "of other sources" in ended.notes and not ended.text
    ended = pan(folder, "--prove", **without_kit)
    yield "no kit to prove with", ended.status == 127 and "rt" in ended.notes
    write(folder, "crates/base/src/lib.rt", "// base\n")
    with shipped.open("ab") as file:
        file.write(b"x")
    ended = pan(folder, "build", "site", "out", **without_kit)
    yield "a program that is not whole", ended.status == 127 and "not as it was recorded" in ended.notes
    shipped.unlink()
    ended = pan(folder, "build", "site", "out", **without_kit)
    yield "no program", ended.status == 127 and "no program for" in ended.notes


def notes(folder):
    machines(folder, 4)
    ended = pan(folder, "build", "site", "out")
    yield "the line behind a build", ended.summary() == [4, 4, 0, 0, 4, 0]
    write(folder, "site/web2.pan", "object template web2;\n'/port' = 81;\n")
    write(folder, "site/web5.pan", "object template web5;\n'/port' = 'a;\n")
    (folder / "site/web4.pan").unlink()
    ended = pan(folder, "build", "site", "out", PAN_NOTES="changes")
    yield "what a build changed", ended.summary() == [4, 3, 1, 1, 0, 1]
    yield "each of it", "changed web2\ngone web4\n" in ended.notes and "web1" not in ended.notes
    yield "the faults in words", "error F03" in ended.notes
    ended = pan(folder, "build", "site", "out", "--quiet")
    yield "--quiet", ended.status == 1 and not ended.notes and ended.text.endswith("objects 4 ok 3 faults 1 run 4\n")
    write(folder, "site/web5.pan", "")
    write(folder, "site/web6.pan", "\ufeffobject template web6;\n")
    write(folder, "site/web7.pan", "# a remark\n\nobjct template web7;\n")
    write(folder, "site/web8.tpl", "object template web8;\n")
    write(folder, "site/.hidden/web9.pan", "")
    ended = pan(folder, "build", "site", "out", "--include", ".:common:typo")
    yield "a folder that is not there", ended.warns("no folder typo below site")
    yield "an empty template", ended.warns("empty", ": 1 (web5.pan)")
    yield "a byte order mark", ended.warns("byte order mark", ": 1 (web6.pan)")
    yield "nearly an object", ended.warns("nearly `object`", ": 1 (web7.pan (objct))")
    yield "another suffix", ended.warns(".tpl", ": 1 (web8.tpl)")
    write(folder, "none/base.pan", "template base;\n")
    yield "no object", pan(folder, "build", "none", "other").warns("no file below SOURCE is an object template")
    write(folder, "out/package.json", "{}\n")
    write(folder, "out/.vscode/settings.json", "{}\n")
    ended = pan(folder, "build", "site", "out", "--most-removed", "0")
    yield "files of others", ended.warns("out holds .json files", "2 (.vscode/settings.json, package.json)")
    yield "they stay", (folder / "out/package.json").exists() and ended.status == 13


ACCIDENTS = {
    "a folder of --include that is not there": lambda site: ["--include", "typo"],
    "an empty SOURCE": lambda site: shutil.rmtree(site) or site.mkdir(),
    "a shared template with a mistake": lambda site: write(site, "common/base.pan", "template common/base\n"),
    "a byte order mark": lambda site: write(site, "web1.pan", "\ufeffobject template web1;\n"),
    "a template that was emptied": lambda site: write(site, "web1.pan", ""),
    "another suffix": lambda site: (site / "web1.pan").rename(site / "web1.tpl"),
}


def accidents(folder):
    for name, happens in ACCIDENTS.items():
        here = folder / name.replace(" ", "_")
        machines(here, 3)
        options = ["--most-removed", "1"]
        pan(here, "build", "site", "out", *options)
        before = {path: path.read_bytes() for path in (here / "out").iterdir()}
        more = happens(here / "site")
        ended = pan(here, "build", "site", "out", *options, *(more if isinstance(more, list) else []))
        after = {path: path.read_bytes() for path in (here / "out").iterdir()}
        yield name, ended.status == 13 and len(before) == 6 and after == before
        yield f"{name}: its text", ended.text.startswith("too many removals ")
        yield f"{name}: its note", "--most-removed" in ended.notes


def at_once(count, call):
    """What so many calls give that run side by side."""
    ended = []
    rounds = [threading.Thread(target=lambda number=number: ended.append(call(number))) for number in range(count)]
    for each in rounds:
        each.start()
    for each in rounds:
        each.join(SECONDS)
    return ended


def lock(folder):
    machines(folder, 2)
    (folder / "out").mkdir()
    held = os.open(folder / "out", os.O_RDONLY)
    fcntl.flock(held, fcntl.LOCK_EX)
    ended = []
    waits = threading.Thread(target=lambda: ended.append(pan(folder, "build", "site", "out")))
    waits.start()
    waits.join(2)
    yield "a build waits for another one", not ended and profiles(folder) == []
    os.close(held)
    waits.join(SECONDS)
    yield "and then builds", ended[0].status == 0 and profiles(folder) == ["web1.json", "web2.json"]
    yield "it says so", f"another pan works on out (process {os.getpid()})" in ended[0].notes
    ended = at_once(4, lambda number: pan(folder, "build", "site", "new"))
    yield "four builds at once", [each.status for each in ended] == [0, 0, 0, 0]


def state(folder):
    machines(folder, 2)
    words = ["build", "site", "out", "--state", "s.db"]
    ended = pan(folder, *words)
    yield "a build that keeps rows", ended.status == 0 and ended.summary() == [2, 2, 0, 0, 2, 0] and not ended.warns("")
    ended = pan(folder, *words)
    yield "the next one", ended.text == "objects 2 ok 2 faults 0 run 0\n" and ended.summary() == [2, 2, 0, 0, 0, 0]
    held = os.open(folder / "s.db", os.O_RDONLY)
    fcntl.flock(held, fcntl.LOCK_EX)
    ended = []
    waits = threading.Thread(target=lambda: ended.append(pan(folder, "build", "site", "new", "--state=s.db")))
    waits.start()
    waits.join(2)
    yield "a build waits for the file", not ended
    os.close(held)
    waits.join(SECONDS)
    yield "and then builds", ended[0].status == 0 and ended[0].text.endswith("run 0\n")
    yield "it says so", f"another pan works on s.db (process {os.getpid()})" in ended[0].notes
    ended = pan(folder, "build", "site", "out", "--state", "site/s.db")
    yield "a file among the templates", ended.status == 0 and ended.warns("site/s.db stands below site")
    yield "a hidden one", not pan(folder, "build", "site", "out", "--state", "site/.s.db").warns("")
    yield "one that is removed", pan(folder, "build", "site", "out", "--state", "out/s.json").warns("out/s.json")
    ended = at_once(3, lambda number: pan(folder, "build", "site", f"out{number}", "--state", "first.db"))
    runs = sorted(each.text.split()[-1] for each in ended)
    yield "three first builds at once", runs == ["0", "0", "2"]
    ended = pan(folder, "build", "site", "out", "--state", "none.db", "--max-iteration", "0")
    yield "words that are wrong make no file", ended.status == 2 and not (folder / "none.db").exists()
    write(folder, "text.db", "no database, but a text\n")
    ended = pan(folder, "build", "site", "out", "--state", "text.db")
    yield "a file that is none", (ended.status, ended.text) == (5, "keeper fault\n")
    yield "it says so", "error: text.db: " in ended.notes
    taken = [["check", "site"], ["show", "site", "web1"], ["unused", "site"], ["impact", "site", "web1.pan"]]
    taken += [["blame", "site", "web1"], ["format", "site", "site"]]
    yield "no other command takes it", {pan(folder, *each, "--state", "s.db").status for each in taken} == {2}


def kept_by_a_watcher(folder):
    machines(folder, 2)
    words = ["watch", "site", "out", "--state", "s.db"]
    ended = pan(folder, *words, given="build\nquit\n")
    yield "a watcher that keeps rows", ended.status == 0 and ended.text.endswith("run 2\n") and not ended.warns("")
    ended = pan(folder, *words, given="build\nquit\n")
    yield "the next one", ended.text == "objects 2 ok 2 faults 0 run 0\n"
    ended = pan(folder, "build", "site", "out", "--state", "s.db")
    yield "a build that goes on from it", ended.text == "objects 2 ok 2 faults 0 run 0\n"
    watcher = subprocess.Popen([PROGRAM, *words], cwd=folder, stdin=subprocess.PIPE, stdout=subprocess.PIPE, text=True)
    watcher.stdin.write("scan\n")
    watcher.stdin.flush()
    watcher.stdout.readline()
    ended = pan(folder, "build", "site", "new", "--state", "s.db")
    yield "a file that a watcher has open", ended.status == 5 and "error: s.db: database is locked" in ended.notes
    watcher.communicate("quit\n")
    held = os.open(folder / "s.db", os.O_RDONLY)
    fcntl.flock(held, fcntl.LOCK_EX)
    ended = []
    waits = threading.Thread(target=lambda: ended.append(pan(folder, *words, given="build\n")))
    waits.start()
    waits.join(2)
    yield "a watcher waits for the file", not ended
    os.close(held)
    waits.join(SECONDS)
    yield "and then builds", ended[0].status == 0 and ended[0].text.endswith("run 0\n")
    ended = pan(folder, "watch", "site", "out", "--state", "none.db", "--max-iteration", "0")
    yield "words that are wrong make no file", ended.status == 2 and not (folder / "none.db").exists()
    ended = pan(folder, "watch", "site", "out", "--state", "site/s.db", given="quit\n")
    yield "a file among the templates", ended.status == 0 and ended.warns("site/s.db stands below site")


def tuned(folder):
    machines(folder, 1)
    write(folder, "told", '#!/bin/sh\necho "$GLIBC_TUNABLES"\n')
    (folder / "told").chmod(0o755)
    words = {"given": "quit\n", "PAN": str(folder / "told")}
    ended = pan(folder, "watch", "site", "out", GLIBC_TUNABLES=None, **words)
    yield "a watcher has more places in the allocator", re.fullmatch(r"glibc\.malloc\.tcache_count=\d+\n", ended.text)
    ended = pan(folder, "watch", "site", "out", GLIBC_TUNABLES="glibc.malloc.arena_max=1", **words)
    yield "the caller's own", ended.text == "glibc.malloc.arena_max=1\n"


def kept(folder):
    if not shutil.which("sqlite3"):
        return
    machines(folder, 2)
    pan(folder, "build", "site", "out", "--state", "s.db", "--include", ".:common", "--max-recursion", "7")
    before = {path.name: path.read_bytes() for path in folder.glob("s.db*")}
    ended = pan(folder, "state", "s.db")
    yield "what is kept", ended.text.splitlines()[:3] == [
        "objects 2 files 3",
        "--include .:common",
        "--max-iteration 10000 --max-recursion 7",
    ]
    yield "the files stay", before == {path.name: path.read_bytes() for path in folder.glob("s.db*")}
    write(folder, "empty.db", "")
    write(folder, "text.db", "no database, but a text\n")
    told = {name: pan(folder, "state", name) for name in ("empty.db", "text.db", "none.db")}
    yield "nothing is", (told["empty.db"].status, told["empty.db"].text) == (0, "objects 0 files 0\n")
    yield "no file of rows", told["text.db"].status == 12 and "no file of rows" in told["text.db"].notes
    yield "no file", told["none.db"].status == 5 and "no such file" in told["none.db"].notes
    yield "no word", pan(folder, "state").status == 2
    (folder / "few").mkdir()
    for tool in ("bash", "dirname", "readlink"):
        (folder / "few" / tool).symlink_to(shutil.which(tool))
    ended = pan(folder, "state", "s.db", PATH=str(folder / "few"))
    yield "no sqlite3", ended.status == 127 and "sqlite3" in ended.notes


LOOSE = "object template a ; # its first line\n'/x'={y=0x10;\ny+1};"
LAID_OUT = "object template a;\n\n# its first line\n'/x' = {\n    y = 16;\n    y + 1;\n};\n"


def layout(folder):
    write(folder, "site/a.pan", LOOSE)
    write(folder, "site/sub/b.pan", "template sub/b;\n")
    write(folder, "site/note.txt", LOOSE)
    ended = pan(folder, "format", "--check", "site")
    yield "a look at a folder", (ended.status, ended.text) == (1, "differs site/a.pan\n")
    yield "it changes nothing", (folder / "site/a.pan").read_text() == LOOSE
    ended = pan(folder, "format", "site", "out")
    yield "another folder", (ended.status, ended.text) == (0, "files 2 ok 2 faults 0\n")
    yield "it holds the layout", (folder / "out/a.pan").read_text() == LAID_OUT
    yield "and no other file", not (folder / "out/note.txt").exists()
    ended = pan(folder, "format", "-", given=LOOSE)
    yield "standard input", (ended.status, ended.text) == (0, LAID_OUT)
    ended = pan(folder, "format", "-", given="object template a\n")
    yield "standard input with a fault", ended.status == 1 and not ended.text and "fault - F06 -:2:1" in ended.notes
    write(folder, "one.pan", LOOSE)
    (folder / "one.pan").chmod(0o640)
    ended = pan(folder, "format", "--check", "one.pan", "site/sub/b.pan")
    yield "a look at files", (ended.status, ended.text) == (1, "differs one.pan\n")
    ended = pan(folder, "format", "one.pan")
    yield "a file", (ended.status, ended.text) == (0, "") and (folder / "one.pan").read_text() == LAID_OUT
    yield "with its rights", (folder / "one.pan").stat().st_mode & 0o777 == 0o640
    write(folder, "bad.pan", "object template bad\n")
    ended = pan(folder, "format", "bad.pan", "one.pan")
    yield "a file with a fault", ended.status == 1 and "bad.pan:2:1" in ended.notes
    yield "it stays", (folder / "bad.pan").read_text() == "object template bad\n"
    ended = pan(folder, "format", "site", "site")
    yield "the same folder", (ended.status, ended.text) == (0, "files 2 ok 2 faults 0\n")
    yield "it is laid out", (folder / "site/a.pan").read_text() == LAID_OUT
    yield "all is laid out", pan(folder, "format", "--check", "site", "one.pan").status == 0
    yield "no word", (pan(folder, "format").status, pan(folder, "format", "--check").status) == (2, 2)
    for example in ("first", "site"):
        ended = pan(folder, "format", "--check", TOP / "examples" / example)
        yield f"examples/{example} is laid out", (ended.status, ended.text) == (0, "")


def command(folder, name, text):
    """A command of this name that goes before the system's own; gives the path to look for commands on."""
    place = folder / "commands" / name
    write(folder, f"commands/{name}", f"#!/bin/sh\n{text}\n")
    place.chmod(0o755)
    return f"{place.parent}:{os.environ['PATH']}"


def rights(folder):
    return {path.name: path.stat().st_mode & 0o777 for path in folder.glob("*.pan")}


def kept_files(folder):
    """What a layout leaves alone."""
    own = {"a.pan": 0o600, "b.pan": 0o640, "c.pan": 0o755}
    for name, mode in own.items():
        write(folder, f"site/{name}", LOOSE)
        (folder / "site" / name).chmod(mode)
    full = command(folder, "cat", f'case $* in */to/input.pan) exit 1 ;; *) exec {shutil.which("cat")} "$@" ;; esac')
    ended = pan(folder, "format", "site/a.pan", PATH=full)
    yield "a layout that cannot be written", ended.status == 4 and "shelf fault site/a.pan" in ended.notes
    yield "the file stays", [path.read_text() for path in (folder / "site").iterdir()] == [LOOSE] * 3
    yield "alone", sorted(path.name for path in (folder / "site").iterdir()) == sorted(own)
    ended = pan(folder, "format", "--", "site", "out")
    yield "a folder behind --", (ended.status, ended.text) == (0, "files 3 ok 3 faults 0\n")
    yield "is read alone", (folder / "site/a.pan").read_text() == LOOSE and (folder / "out/a.pan").read_text() == LAID_OUT
    yield "a look at a file behind --", pan(folder, "format", "--check", "--", "site/a.pan").text == "differs site/a.pan\n"
    ended = pan(folder, "format", "site")
    yield "a folder keeps its rights", ended.status == 0 and rights(folder / "site") == own
    write(folder, "site/a.pan", LOOSE)
    ended = pan(folder, "format", "site/", "site")
    yield "also where it is named twice", ended.status == 0 and rights(folder / "site") == own
    yield "and is laid out", (folder / "site/a.pan").read_text() == LAID_OUT
    write(folder, "-site/a.pan", LOOSE)
    ended = pan(folder, "format", "--", "-site")
    yield "a name like an option's", ended.status == 0 and (folder / "-site/a.pan").read_text() == LAID_OUT
    yield "which is none else", pan(folder, "format", "-site").status == 2


def status_of(folder, line):
    """The status and the text of a line of a shell, in which `pan` is the script."""
    surroundings = {**os.environ, "PAN": str(PROGRAM), "PAN_NOTES": ""}
    line = line.replace("pan ", f"{TOP / 'pan'} ", 1)
    ended = subprocess.run(["bash", "-c", line], cwd=folder, env=surroundings, stdout=subprocess.PIPE, text=True)
    return ended.returncode, ended.stdout


def unread(folder):
    """Where nobody can read the notes or the text."""
    machines(folder, 1)
    text = (0, "run web1\nobjects 1 ok 1 faults 0 run 1\n")
    yield "notes on a full device", status_of(folder, "pan build site out 2>/dev/full") == text
    yield "and on none", status_of(folder, "pan build site out 2>&-") == text
    write(folder, "site/web2.pan", "object template web2;\n'/port' = 1 + 'x';\n")
    yield "with a fault", status_of(folder, "pan build site out 2>/dev/full")[0] == 1
    for words in ("build site out", "check site", "show site web1", "blame site web1", "impact site web1.pan", "unused site"):
        write(folder, "site/old.pan", "template old;\n")
        yield f"the text of {words}", status_of(folder, f"pan {words} >/dev/full 2>&1")[0] == 7


def slips(folder):
    """Notes of all commands that build."""
    machines(folder, 2)
    (folder / "real").mkdir()
    (folder / "out").symlink_to("real")
    ended = pan(folder, "build", "site", "out")
    yield "OUT is a link", ended.summary() == [2, 2, 0, 0, 2, 0] and "no machine looks at" not in ended.notes
    write(folder, "real/package.json", "{}\n")
    ended = pan(folder, "build", "site", "out", "--most-removed", "0")
    yield "with files of others", ended.warns("out holds .json files", "1 (package.json)")
    write(folder, "site/web3.pan", "object template web3;\n'/a' = if (exists('nosuch:/x')) 1 else 2;\n")
    write(folder, "site/nosuch.pan", "template nosuch;\n")
    write(folder, "site/\u00e9.pan", "template e;\n")
    ended = pan(folder, "build", "site", "out")
    yield "where an object could be", ended.status == 0 and "no machine looks at" not in ended.notes
    write(folder, "site/web1.pan", "\ufeffobject template web1;\n")
    for words in (["build", "site", "new", "--format", "gcc"], ["check", "site"], ["check", "site", "--format", "json"]):
        yield f"a slip in {' '.join(words)}", pan(folder, *words).warns("byte order mark", "web1.pan")
    ended = pan(folder, "check", "site", "--include", "typo")
    yield "no object in a check", ended.warns("no folder typo") and ended.warns("no file below SOURCE")
    yield "but without notes", pan(folder, "check", "site", "--include", "typo", "--quiet").notes == ""
    ended = pan(folder, "impact", "site", "site/web2.pan")
    yield "a file that is not there", ended.status == 0 and "no such file below site" in ended.notes
    ended = pan(folder, "impact", "site", "common/base.pan")
    yield "and one that is", ended.text == "web2\n" and not ended.notes
    for words in (["check", "site", "--onyl", "web1"], ["unused", "site", "x"], ["impact", "site", "a.pan", "b.pan"]):
        yield f"a word too many: {' '.join(words)}", pan(folder, *words).status == 2
    yield "an object without a name", pan(folder, "check", "site", "--only", "").status == 2
    yield "--help behind a word", pan(folder, "check", "--help").text.startswith("pan compiles templates")
    machines(folder / "-s", 1)
    ended = pan(folder / "-s", "build", "site", "out", "--include=.")
    (folder / "-s/-o").mkdir()
    ended = pan(folder, "build", "--", "-s", "-out")
    yield "names like options'", ended.text.startswith("objects ") or ended.text.startswith("run ")
    yield "and no word of other tools", not any(tool in ended.notes for tool in ("cd:", "find:"))
    ended = pan(folder, "--quiet", "build", "nowhere", "new2/out")
    yield "a source that is missing makes no folder", ended.status == 3 and not (folder / "new2").exists()
    ended = pan(folder, "watch", "nowhere", "new2/out", given="quit\n")
    yield "of a watcher neither", ended.status == 3 and not (folder / "new2").exists()


def ended_watcher(folder):
    """A signal to the script ends the program behind it too."""
    machines(folder, 1)
    surroundings = {**os.environ, "PAN": str(PROGRAM)}
    words = [TOP / "pan", "watch", "site", "out", "--state", "s.db"]
    watcher = subprocess.Popen(words, cwd=folder, env=surroundings, stdin=subprocess.PIPE, stdout=subprocess.PIPE, text=True)
    watcher.stdin.write("scan\n")
    watcher.stdin.flush()
    watcher.stdout.readline()
    watcher.terminate()
    yield "a watcher that makes its file", watcher.wait(SECONDS) == 128 + 15
    ended = pan(folder, "build", "site", "out", "--state", "s.db")
    yield "leaves its locks", ended.status == 0 and "another pan works" not in ended.notes
    watcher.stdin.close()
    watcher.stdout.close()


def touched(folder):
    machines(folder, 2)
    write(folder, "site/alone.pan", "object template alone;\n'/port' = 1;\n")
    write(folder, "site/old/base.pan", "template old/base;\n")
    ended = pan(folder, "impact", "site", "common/base.pan")
    yield "what an edit touches", (ended.status, ended.text) == (0, "web1\nweb2\n")
    ended = pan(folder, "impact", "site", "alone.pan")
    yield "an object's own file", (ended.status, ended.text) == (0, "alone\n")
    ended = pan(folder, "impact", "site", "../base.pan")
    yield "no file name", ended.status == 2 and "no file name" in ended.notes
    ended = pan(folder, "unused", "site")
    yield "what is unused", (ended.status, ended.text) == (0, "old/base.pan\n")
    ended = pan(folder, "build", "site", "out")
    yield "a build tells it", "templates that no machine looks at (pan unused site): 1 (old/base.pan)" in ended.notes
    write(folder, "site/web3.pan", "object template web3;\ninclude 'old/base';\n")
    ended = pan(folder, "build", "site", "out")
    yield "and not where there is none", ended.status == 0 and "no machine looks at" not in ended.notes
    yield "no folder", pan(folder, "unused", "nowhere").status == 3


def checked(folder):
    machines(folder, 2)
    write(folder, "site/web2.pan", "object template web2;\nbind '/port' = long(1..9);\n'/port' = 80;\n")
    write(folder, "site/web3.pan", "object template web3;\n'/port' = 80\n")
    ended = pan(folder, "check", "site")
    told = ["fault web2 F36 web2.pan:2:1 /port", "fault web3 F06 web3.pan:3:1", "objects 3 ok 1 faults 2 run 3"]
    yield "a check tells faults", (ended.status, ended.text.splitlines()) == (1, told)
    yield "with their notes", "error F36: out of range: /port" in ended.notes and "error F06" in ended.notes
    yield "and publishes nothing", not (folder / "out").exists()
    ended = pan(folder, "check", "site", "--only", "web2")
    yield "of one object", (ended.status, ended.text) == (1, "fault web2 F36 web2.pan:2:1 /port\n")
    yield "with its note", "error F36" in ended.notes and "error F06" not in ended.notes
    yield "without a fault", (lambda e: (e.status, e.text))(pan(folder, "check", "site", "--only=web1")) == (0, "")
    yield "of no object", pan(folder, "check", "site", "--only", "web4").status == 2
    yield "of no folder", pan(folder, "check", "nowhere").status == 3
    write(folder, "site/ports.pan", "template ports;\nbind '/port' = long(1..9);\n")
    for name, port in {"web4": 10, "web5": 11}.items():
        write(folder, f"site/{name}.pan", f"object template {name};\ninclude 'ports';\n'/port' = {port};\n")
    ended = pan(folder, "check", "site", "--only", "web4")
    yield "with its own value", "= value: 10" in ended.notes and "web5" not in ended.notes
    ended = pan(folder, "check", "site", "--only", "web5")
    yield "also behind another object", "web5.pan:3:1: note: set here: 11" in ended.notes and "web4" not in ended.notes
    yield "and without notes", pan(folder, "check", "site", "--only", "web5", "--quiet").notes == ""
    yield "no word", [pan(folder, "check").status, pan(folder, "build", "site", "out", "--only", "web1").status] == [2, 2]


def objects_in(text):
    """The objects of JSON on its lines; none where a line is something else."""
    try:
        return [json.loads(line) for line in text.splitlines()]
    except ValueError:
        return []


def for_programs(folder):
    machines(folder, 1)
    write(folder, "site/web2.pan", "object template web2;\nbind '/port' = long(1..9);\n'/port' = 80;\n")
    line = "site/web2.pan:2:1: error: F36 out of range: /port (object web2)\n"
    line += "site/web2.pan:3:1: note: set here: 80, wanted long(1..9)\n"
    of_json = {"object": "web2", "code": "F36", "name": "out of range", "file": "web2.pan", "line": 2, "column": 1}
    of_json = {**of_json, "detail": "/port", "value": "80", "expected": "long(1..9)", "set_by": "web2.pan:3:1", "trace": []}
    ended = pan(folder, "build", "site", "out", "--format", "gcc")
    yield "as compilers print faults", (ended.status, ended.text) == (1, line)
    yield "the profiles are published", profiles(folder) == ["web1.json"]
    ended = pan(folder, "--format=json", "build", "site", "out")
    yield "as JSON", ended.status == 1 and objects_in(ended.text) == [of_json]
    ended = pan(folder, "check", "site", "--format", "gcc")
    yield "of a check", (ended.status, ended.text) == (1, line)
    ended = pan(folder, "check", "site", "--format", "json", "--only", "web2")
    yield "of one object", ended.status == 1 and objects_in(ended.text) == [of_json]
    ended = pan(folder, "check", "site", "--format", "gcc", "--only", "web2")
    yield "and as compilers print it", (ended.status, ended.text) == (1, line)
    ended = pan(folder, "check", "nowhere", "--format", "gcc")
    yield "a call that fails", ended.status == 3 and ended.text == "source fault\n" and "nowhere" in ended.notes
    ended = pan(folder, "build", "nowhere", "new/out", "--format", "json")
    yield "which makes no folder", ended.status == 3 and not (folder / "new").exists()
    write(folder, "site/web2.pan", "object template web2;\ninclude 'rates';\n'/x' = half(1);\n")
    write(folder, "site/rates.pan", "template rates;\nfunction half = ARGV[0] / 0;\n")
    ended = pan(folder, "check", "site", "--format", "json")
    yield "the call around a fault", [told["trace"] for told in objects_in(ended.text)] == [["web2.pan:3:8"]]
    line = "site/rates.pan:2:17: error: F12 division by zero (object web2)\n"
    line += "site/web2.pan:3:8: note: reached from here\n"
    ended = pan(folder, "check", "site", "--format", "gcc")
    yield "and as compilers print it", ended.text == line
    yield "a layout has no form", pan(folder, "format", "site", "site", "--format", "gcc").status == 2
    yield "no such form", pan(folder, "build", "site", "out", "--format", "xml").status == 2


def shown(folder):
    write(folder, "site/web1.pan", "object template web1;\n'/a/b' = list('x, }', 2);\n'/a/c' = '\"';\n")
    write(folder, "site/web2.pan", "object template web2;\n'/a' = 1 + 'x';\n")
    profile = '{"a":{"b":["x, }",2],"c":"\\""}}'
    asked = {"": profile, "/": profile, "/a": profile[5:-1], "/a/b": '["x, }",2]', "/a/b/0": '"x, }"', "/a/b/1": "2"}
    asked["/a/c"] = '"\\""'
    for path, value in asked.items():
        ended = pan(folder, "show", "site", "web1", *([path] if path else []))
        yield f"what stands at {path}", (ended.status, ended.text) == (0, value + "\n")
    for path in ("/a/d", "/a/b/2", "/a/b/01", "/a/b/x", "/a/c/x", "/{a b}"):
        ended = pan(folder, "show", "site", "web1", path)
        yield f"nothing at {path}", (ended.status, ended.text) == (1, "") and "nothing at" in ended.notes
    for path in ("a", "/a/", "/{a"):
        ended = pan(folder, "show", "site", "web1", path)
        yield f"{path} is no path", ended.status == 2 and "begins with `/`" in ended.notes
    write(folder, "site/web4.pan", "object template web4;\n'/{a/b}/{1}' = 'x';\n")
    yield "a key in braces", pan(folder, "show", "site", "web4", "/{a/b}/{1}").text == '"x"\n'
    ended = pan(folder, "show", "site", "web2")
    yield "a fault", (ended.status, ended.text) == (1, "") and "fault F10 web2.pan:2:8" in ended.notes
    yield "no object", pan(folder, "show", "site", "web3").status == 2
    yield "and nothing is published", not (folder / "out").exists()


def blamed(folder):
    write(folder, "site/port.pan", "declaration template port;\ntype port = { 'port' : long = 80 };\n")
    write(folder, "site/web1.pan", "object template web1;\ninclude 'port';\nbind '/a' = port;\n'/a' = dict();\n'/b' = list(1, 2);\n")
    write(folder, "site/web2.pan", "object template web2;\n'/a' = 1 + 'x';\n")
    below = "/a/port web1.pan:3:1 default\n"
    whole = below + "/b/0 web1.pan:5:1\n/b/1 web1.pan:5:1\n"
    for path, told in {"": whole, "/": whole, "/a": below, "/b/1": "/b/1 web1.pan:5:1\n"}.items():
        ended = pan(folder, "blame", "site", "web1", *([path] if path else []))
        yield f"who set {path}", (ended.status, ended.text) == (0, told)
    ended = pan(folder, "blame", "site", "web1", "/c")
    yield "nothing at /c", (ended.status, ended.text) == (1, "") and "nothing at /c" in ended.notes
    ended = pan(folder, "blame", "site", "web1", "a")
    yield "no path", ended.status == 2 and "begins with `/`" in ended.notes
    ended = pan(folder, "blame", "site", "web2")
    yield "a fault", (ended.status, ended.text) == (1, "") and "fault F10 web2.pan:2:8" in ended.notes
    yield "no object", pan(folder, "blame", "site", "web3").status == 2
    yield "no word", pan(folder, "blame", "site").status == 2
    yield "and nothing is published", not (folder / "out").exists()


def installed(folder):
    ended = pan(folder, folder / "there", script=TOP / "contrib/install")
    yield "contrib/install", ended.status == 0
    machines(folder, 2)
    alone = {"PAN": None, "PATH": "/usr/bin:/bin"}
    ended = pan(folder, "build", "site", "out", script=folder / "there/bin/pan", **alone)
    yield "the command", ended.status == 0 and profiles(folder) == ["web1.json", "web2.json"]
    yield "its notes", ended.summary() == [2, 2, 0, 0, 2, 0]
    ended = pan(folder, "--help", script=folder / "there/bin/pan-watch", **alone)
    yield "the watcher", ended.status == 0
    share = folder / "there/share"
    pages = ["man/man1/pan.1", "doc/pan/LICENSE", "doc/pan/NOTICES", "doc/pan/FAULTS.md", "vim/vimfiles/syntax/pan.vim"]
    yield "pages", all((share / page).is_file() for page in pages)
    unit = (folder / "there/lib/systemd/system/pan-watch.service").read_text()
    yield "the unit", f"ExecStart={folder}/there/bin/pan-watch " in unit
    asked = "source there/share/bash-completion/completions/pan; COMP_WORDS=(pan bu); COMP_CWORD=1; _pan; echo ${COMPREPLY[*]}"
    said = subprocess.run(["bash", "-c", asked], cwd=folder, capture_output=True, text=True).stdout
    yield "completion", said == "build\n"
    pan(folder, folder / "a & b%", script=TOP / "contrib/install")
    unit = (folder / "a & b%/lib/systemd/system/pan-watch.service").read_text()
    yield "an odd folder", f'ExecStart="{folder}/a & b%%/bin/pan-watch" ' in unit


def vim(folder):
    if not shutil.which("vim"):
        return
    write(folder, "report", "web1.pan:3:1: error: F36 out of range: /port (object web1)\n")
    asked = "echo getqflist()[0].lnum . ':' . getqflist()[0].col . ':' . bufname(getqflist()[0].bufnr) . ':' . len(getqflist())"
    script = f"set rtp^={TOP}/editors/vim | compiler pan | cgetfile report | redir! > said | {asked} | redir END | q"
    subprocess.run(["vim", "-u", "NONE", "-es", "-N", "-c", script], cwd=folder, capture_output=True, timeout=SECONDS)
    yield "vim reads faults", (folder / "said").exists() and (folder / "said").read_text().strip() == "3:1:web1.pan:1"


def main():
    passed = failed = 0
    parts = (words, found, notes, accidents, lock, state, kept_by_a_watcher, tuned, kept, layout, kept_files, unread)
    parts += (slips, ended_watcher, touched, checked, for_programs, shown, blamed, installed, vim)
    for part in parts:
        with tempfile.TemporaryDirectory() as room:
            for name, is_well in part(Path(room).resolve()):
                passed, failed = passed + bool(is_well), failed + (not is_well)
                if not is_well:
                    print(f"FAILED {part.__name__}: {name}")
    print(f"{passed} passed, {failed} failed")
    return 1 if failed else 0


if __name__ == "__main__":
    sys.exit(main())
