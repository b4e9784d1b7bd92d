#!/usr/bin/env python3
"""Fails and kills system calls of builds and watchers that keep rows, and lets two builds work on one file of rows.

    tests/calls.py [--all]      the calls on the file of rows and its log, or every call

- **Fails**: each call in turn answers an error, and nothing of it is done.
- **Kills**: the program is killed before each call that changes something.
- **Stops**: the program is stopped before a call, another build with the same file runs to its end, and then the first
  one goes on.

Behind each of them the file has the rows of before or those of a build, whole; a build that goes on from it gives the
profiles of a build without rows, and so does one of another state of the source. It is tried where there was no file,
where there was one and the source has changed since, and there also with a watcher that is asked to build twice.

Rows are read from a copy, as of a build that --most-removed refuses: it takes the log into the file, and keeps nothing.
It wants strace, and Python's sqlite3; without them nothing is tried. The program is the one that the variable PAN names,
else the one that contrib/pan-program finds.
"""
import os
import shutil
import signal
import subprocess
import sys
import tempfile
import time
from pathlib import Path

from program import PROGRAM

SECONDS = 60
FILE = "s.db"
BASE = "template common/base;\n'/port' = 80;\n"
MACHINE = "object template {0};\ninclude 'common/base';\n'/name' = '{0}';\n"
READS = "object template {0};\n'/of' = value('{1}:/name');\n"
FAULTY = "object template {0};\n'/a' = 1 + 'x';\n"
OLD = {f"{name}.pan": MACHINE.format(name) for name in "ac"} | {"common/base.pan": BASE, "b.pan": READS.format("b", "a")}
NEW = {**OLD, "d.pan": FAULTY.format("d"), "e.pan": MACHINE.format("e"), "a.pan": OLD["a.pan"] + "'/name' = 'A';\n"}
NEW.pop("c.pan")
OTHER = {**OLD, "common/base.pan": BASE.replace("80", "81"), "f.pan": READS.format("f", "c")}
SITES = {"old": OLD, "new": NEW, "other": OTHER}
# The builds that may have kept rows, one after the other, where two programs work on one file.
ENDINGS = [("new",), ("other",), ("new", "other"), ("other", "new")]
WRITE = {"write", "pwrite64", "ftruncate", "openat", "mkdir", "rename"}
CHANGE = WRITE | {"unlink", "fsync", "fdatasync", "close", "exit_group"}
# These never answer an error: bench/memory has memory wanting.
NEVER_FAIL = {"exit_group", "brk"}
# What a build may end with where a call failed: its own end, or one that tells of a device or of memory.
ENDS = {0, 1, 3, 4, 5, 6, 7, 8}
# What a watcher is asked; a build reads nothing.
LINES = "build\nbuild\nquit\n"
BUILDS_AT_ONCE = 4
ROUNDS = 5


os.environ["PAN_NOTES"] = "off"


def pan(folder, *words):
    return subprocess.run([PROGRAM, *words], cwd=folder, input=LINES, capture_output=True, text=True, timeout=SECONDS)


def build_words(site, out="out"):
    return ["build", site, out, "--state", FILE]


def write_site(folder, site):
    for name, text in site.items():
        path = folder / name
        path.parent.mkdir(parents=True, exist_ok=True)
        path.write_text(text)


def shelf_of(folder):
    """The profiles below a folder."""
    files = folder.rglob("*") if folder.is_dir() else []
    return {str(file.relative_to(folder)): file.read_bytes() for file in files if file.suffix in (".json", ".dep")}


def rows_of(folder):
    """The rows that a build would go on from, read from a copy of the file and of its log."""
    import sqlite3

    with tempfile.TemporaryDirectory(dir=folder) as room:
        room = Path(room)
        for file in folder.glob(FILE + "*"):
            shutil.copyfile(file, room / file.name)
        (room / "empty").mkdir()
        write_site(room / "shelf", {"x.json": "{}"})
        ended = pan(room, "build", "empty", "shelf", "--most-removed", "0", "--state", FILE)
        if ended.returncode != 13:
            return f"status {ended.returncode}: {ended.stdout}"
        with sqlite3.connect(room / FILE) as database:
            return dict(database.execute("SELECT name, bytes FROM rows"))


class Scene:
    """A folder in which a command with rows is to run, and what has to come of it."""

    def __init__(self, room, mode, before):
        self.mode, self.name = mode, f"{mode}, {'rows' if before else 'no rows'} before"
        self.folder = room / self.name
        for site, files in SITES.items():
            write_site(self.folder / site, files)
        self.plain = {site: self.built_plainly(site) for site in SITES}
        if before:
            self.build(self.folder, before)
        self.kept = {(): rows_of(self.folder)}
        for sites in ENDINGS:
            with self.copy() as folder:
                for site in sites:
                    self.build(folder, site)
                self.kept[sites] = rows_of(folder)

    def built_plainly(self, site):
        ended = pan(self.folder, "build", site, f"plain-{site}")
        return ended.returncode, shelf_of(self.folder / f"plain-{site}")

    def words(self):
        return [self.mode, "new", "out", "--state", FILE]

    def build(self, folder, site):
        ended = pan(folder, *build_words(site))
        return ended.returncode, shelf_of(folder / "out")

    def copy(self):
        room = tempfile.TemporaryDirectory(dir=self.folder.parent)
        shutil.copytree(self.folder, room.name, dirs_exist_ok=True)
        return Opened(room)

    def calls(self):
        """The calls of the command, from the first look at the source on: a name, its number, whether it is on rows."""
        with self.copy() as folder:
            traced(folder, "-y", *self.words())
            lines = (folder / "trace").read_text().splitlines()
        numbers, found = {}, []
        for line in lines:
            name = line.partition("(")[0]
            numbers[name] = numbers.get(name, 0) + 1
            if found or '"new"' in line and name != "execve":
                found.append((name, numbers[name], FILE in line))
        return [call for call in found if call[0].isidentifier()]


class Opened:
    """A temporary folder as a path."""

    def __init__(self, room):
        self.room = room

    def __enter__(self):
        return Path(self.room.name)

    def __exit__(self, *_):
        self.room.cleanup()


def traced(folder, option, *words):
    """A run with an option of strace; its trace lies in the folder."""
    command = ["strace", "-o", folder / "trace", *option.split(" "), PROGRAM, *words]
    return subprocess.run(command, cwd=folder, input=LINES, capture_output=True, text=True, timeout=SECONDS)


def injected(folder, call, number, what, words):
    return traced(folder, f"-e trace={call} -e inject={call}:{what}:when={number}", *words)


def problems_behind(scene, folder, endings):
    """What is wrong with the rows, and with the builds that go on from them."""
    rows = rows_of(folder)
    if rows not in [scene.kept[sites] for sites in endings]:
        yield f"the rows are those of no build: {rows if isinstance(rows, str) else sorted(rows)}"
    for site in ("new", "old"):
        if scene.build(folder, site) != scene.plain[site]:
            yield f"a build of {site} that goes on from the rows differs"


def problems_of_failure(scene, call, number, error):
    with scene.copy() as folder:
        ended = injected(folder, call, number, f"error={error}", scene.words())
        if ended.returncode not in ENDS:
            yield f"status {ended.returncode}: {ended.stdout}{ended.stderr}"
        if ended.returncode in (0, 1):
            if (ended.returncode, shelf_of(folder / "out")) != scene.plain["new"]:
                yield "it ended well, with other profiles"
            if "keeper fault\n" not in ended.stdout and rows_of(folder) != scene.kept[("new",)]:
                yield "it ended well, with other rows"
        yield from problems_behind(scene, folder, [(), ("new",)])


def problems_of_kill(scene, call, number):
    with scene.copy() as folder:
        ended = injected(folder, call, number, "signal=KILL", scene.words())
        if ended.returncode != -signal.SIGKILL:
            yield f"it was not killed: status {ended.returncode}"
        yield from problems_behind(scene, folder, [(), ("new",)])


def stopped(folder, call, number, words):
    """A build that is stopped before a call."""
    option = f"-D -o {folder}/trace -e trace={call} -e inject={call}:signal=STOP:when={number}".split(" ")
    first = subprocess.Popen(["strace", *option, PROGRAM, *words], cwd=folder, stdout=subprocess.PIPE, text=True)
    end = time.monotonic() + SECONDS
    while time.monotonic() < end:
        trace = folder / "trace"
        if trace.exists() and "stopped by SIGSTOP" in trace.read_text():
            return first
        time.sleep(0.005)
    first.kill()
    raise TimeoutError(f"it did not come to {call} {number}")


def problems_of_two(scene, call, number):
    with scene.copy() as folder:
        first = stopped(folder, call, number, scene.words())
        second = pan(folder, *build_words("other", "out2"))
        os.kill(first.pid, signal.SIGCONT)
        text, _ = first.communicate(timeout=SECONDS)
        ends = [("new", first.returncode, text, "out"), ("other", second.returncode, second.stdout, "out2")]
        for site, status, text, out in ends:
            if (status, shelf_of(folder / out)) == scene.plain[site]:
                continue
            if (status, text) != (5, "keeper fault\n"):
                yield f"the build of {site} ended with {status}: {text}"
        yield from problems_behind(scene, folder, [(), *ENDINGS])


def errors_of(call, is_all):
    """The errors that a call is to answer."""
    if call in NEVER_FAIL:
        return []
    if call == "mmap":
        return ["ENOMEM"]
    return ["EIO", "ENOSPC"] if is_all and call in WRITE else ["EIO"]


def problems_at_once(scene):
    """Builds that begin at one time, each to a folder of its own: some of them, one after the other, keep their rows."""
    for _ in range(ROUNDS):
        with scene.copy() as folder:
            words = [[PROGRAM, *build_words("new", f"out{number}")] for number in range(BUILDS_AT_ONCE)]
            each = [subprocess.Popen(asked, cwd=folder, stdout=subprocess.PIPE, text=True) for asked in words]
            for number, process in enumerate(each):
                text, _ = process.communicate(timeout=SECONDS)
                is_well = (process.returncode, shelf_of(folder / f"out{number}")) == scene.plain["new"]
                if not is_well and (process.returncode, text) != (5, "keeper fault\n"):
                    yield f"a build ended with {process.returncode}: {text}"
            yield from problems_behind(scene, folder, [(), ("new",)])


def tries(scene, is_all):
    """What is tried with a scene: its name, and a call that gives its problems."""
    for call, number, is_on_rows in scene.calls():
        if not (is_all or is_on_rows):
            continue
        place = (scene, call, number)
        for error in errors_of(call, is_all):
            failure = (*place, error)
            yield f"{call} {number} fails with {error}", lambda failure=failure: problems_of_failure(*failure)
        if call in CHANGE:
            yield f"killed before {call} {number}", lambda place=place: problems_of_kill(*place)
        if scene.mode == "build" and call not in NEVER_FAIL and (is_all or call in CHANGE):
            yield f"stopped before {call} {number}", lambda place=place: problems_of_two(*place)
    if scene.mode == "build":
        yield "builds at once", lambda: problems_at_once(scene)


def can_try():
    try:
        import sqlite3  # noqa: F401
    except ImportError:
        return False
    return shutil.which("strace") is not None and subprocess.run(["strace", "-o", "/dev/null", "true"]).returncode == 0


def main():
    if not can_try():
        print("skipped: strace and Python's sqlite3 are wanted\n0 passed, 0 failed")
        return 0
    is_all = sys.argv[1:] == ["--all"]
    passed = failed = 0
    memory = "/dev/shm" if os.access("/dev/shm", os.W_OK) else None
    with tempfile.TemporaryDirectory(dir=memory) as room:
        scenes = [Scene(Path(room), *given) for given in (("build", None), ("build", "old"), ("watch", "old"))]
        for scene, (what, try_it) in ((scene, tried) for scene in scenes for tried in tries(scene, is_all)):
            problems = list(try_it())
            passed, failed = passed + (not problems), failed + bool(problems)
            for problem in problems:
                print(f"FAILED {scene.name}: {what}: {problem}", flush=True)
    print(f"{passed} passed, {failed} failed")
    return 1 if failed else 0


if __name__ == "__main__":
    sys.exit(main())
