#!/usr/bin/env python3
"""Tries the scripts of contrib/ with the built program, and ends with `N passed, M failed`.

    tests/contrib.py

- contrib/pan-watch over a small site: a build at its start, one for each change, a fault, and its end by SIGTERM; a
  source that is lost; a watcher that goes on from the rows of the one before.
- contrib/pre-commit in a git repository of its own: what is added is compiled, and not what lies in the folder.
- contrib/pan-watch.service reads, where systemd is here.

The program is the one that the variable PAN names, else the one that contrib/pan-program finds.
"""
import os
import re
import shutil
import signal
import subprocess
import sys
import tempfile
import threading
from pathlib import Path

from program import PROGRAM

TOP = Path(__file__).resolve().parent.parent
CONTRIB = TOP / "contrib"
SECONDS = 120


def write(folder, name, text):
    """The file is there whole at once, as a watcher looks at any time."""
    path = folder / name
    path.parent.mkdir(parents=True, exist_ok=True)
    draft = path.parent / f".{path.name}.draft"
    draft.write_text(text)
    draft.replace(path)


class Watched:
    """A run of contrib/pan-watch, which is ended where it takes too long."""

    def __init__(self, *words, **variables):
        self.process = subprocess.Popen(
            [CONTRIB / "pan-watch", "--program", PROGRAM, *words],
            stdout=subprocess.PIPE,
            stderr=subprocess.STDOUT,
            env={**os.environ, "PAN_NOTES": "off", **variables},
            text=True,
        )
        self.clock = threading.Timer(SECONDS, self.process.kill)
        self.clock.start()
        self.stamps = []

    def lines(self, last="objects "):
        """The lines to the first that begins so, without their times."""
        said = []
        for line in self.process.stdout:
            stamp, _, text = line.rstrip("\n").partition(" ")
            self.stamps.append(stamp)
            said.append(text)
            if text.startswith(last):
                break
        return said

    def end(self, number):
        self.process.send_signal(number)
        rest = self.lines("ended")
        status = self.process.wait()
        self.clock.cancel()
        return status, rest


def watching(folder):
    source, out = folder / "source", folder / "out"
    write(source, "web1.pan", "object template web1;\ninclude 'site/port';\n")
    write(source, "web2.pan", "object template web2;\n'/port' = value('web1:/port') + 1;\n")
    write(source, "site/port.pan", "template site/port;\n'/port' = 80;\n")
    watched = Watched("--poll", "0.2", source, out)
    yield "a build at the start", watched.lines() == ["run web1", "run web2", "objects 2 ok 2 faults 0 run 2"]
    yield "its profile", (out / "web2.json").read_text() == '{"port":81}\n'
    write(source, "site/port.pan", "template site/port;\n'/port' = 8080;\n")
    said = ["run web1", "why web1: changed file site/port.pan", "run web2", "why web2: changed object web1"]
    yield "a change", watched.lines() == [*said, "objects 2 ok 2 faults 0 run 2"]
    write(source, ".hidden/web3.pan", "object template web3;\n")
    write(source, "site/port.pan", "template site/port;\nbind '/port' = long(1..80);\n'/port' = 8080;\n")
    said = watched.lines()
    fault = "fault web1 F36 site/port.pan:2:1 /port (out of range)"
    yield "a fault in words", fault in said and said[-1].startswith("objects 2 ok 1 faults 1 ")
    yield "its profile goes", not (out / "web1.json").exists() and (out / "web2.json").exists()
    (source / "web2.pan").unlink()
    yield "a file that goes", watched.lines() == [fault, "objects 1 ok 0 faults 1 run 0"]
    write(source, "web3.pan", "")
    yield "a slip", watched.lines("warning: ")[-1] == "warning: files that are empty, and so no objects: 1 (web3.pan)"
    status, rest = watched.end(signal.SIGTERM)
    yield "its end", status == 0 and rest == ["ended, the watcher with status 1"]
    stamp = r"\d{4}-\d\d-\d\dT\d\d:\d\d:\d\d"
    yield "a time on each line", all(re.fullmatch(stamp, text) for text in watched.stamps)
    watched = Watched("--poll", "60", source, folder / "out", "--max-iteration", "0")
    said = [line for line in watched.lines("the watcher ended") if not line.startswith("warning: ")]
    yield "words that are none", said == ["usage fault", "the watcher ended with status 2"]
    yield "their status", watched.process.wait(SECONDS) == 2
    watched.clock.cancel()


def a_lost_source(folder):
    """As where a mount is lost: unless told otherwise, no more than 20 files go at once."""
    source, out = folder / "source", folder / "out"
    for number in range(11):
        write(source, f"web{number:02}.pan", f"object template web{number:02};\n")
    watched = Watched("--poll", "0.2", source, out)
    yield "eleven machines", watched.lines()[-1] == "objects 11 ok 11 faults 0 run 11"
    for path in source.iterdir():
        path.rename(folder / path.name)
    yield "a source that is empty", watched.lines() == ["too many removals 22", "objects 0 ok 0 faults 0 run 0"]
    yield "its profiles stay", len(list(out.glob("*.json"))) == 11
    watched.end(signal.SIGTERM)
    watched = Watched("--poll", "60", source, out, "--most-removed", "22")
    yield "where they may go", watched.lines()[-1] == "objects 0 ok 0 faults 0 run 0" and not list(out.glob("*.json"))
    watched.end(signal.SIGTERM)


def every_few_seconds(folder):
    path = folder / "source/web1.pan"
    write(folder, "source/web1.pan", "object template web1;\n'/port' = 80;\n")
    watched = Watched("--poll", "0.2", "--every", "0.5", folder / "source", folder / "out")
    watched.lines()
    times = (path.stat().st_atime_ns, path.stat().st_mtime_ns)
    with path.open("r+") as file:
        file.write("object template web1;\n'/port' = 81;\n")
    os.utime(path, ns=times)
    said = ["run web1", "why web1: changed file web1.pan", "objects 1 ok 1 faults 0 run 1"]
    yield "a build each few seconds", watched.lines() == said
    yield "its profile", (folder / "out/web1.json").read_text() == '{"port":81}\n'
    yield "the end by SIGINT", watched.end(signal.SIGINT) == (0, ["ended, the watcher with status 0"])


def going_on_from_rows(folder):
    """What a watcher kept, the next one goes on from, whether a word or a variable names the file."""
    source, state = folder / "source", str(folder / "s.db")
    write(source, "web1.pan", "object template web1;\n'/port' = 80;\n")
    watched = Watched("--poll", "60", source, folder / "out", PAN_STATE=state)
    yield "a first watcher", watched.lines() == ["run web1", "objects 1 ok 1 faults 0 run 1"]
    other = Watched("--poll", "60", source, folder / "other", "--state", state)
    waiting = other.lines("another")
    yield "a second one waits", waiting == [f"another pan works on {state}: waiting for it"]
    watched.end(signal.SIGTERM)
    yield "and goes on from its rows", other.lines() == ["objects 1 ok 1 faults 0 run 0"]
    yield "it publishes", (folder / "other/web1.json").exists()
    other.end(signal.SIGTERM)
    watched = Watched("--poll", "60", source, folder / "out", "--state", str(folder / "out"))
    yield "a file that is none", watched.lines("the watcher ended")[-1] == "the watcher ended with status 5"
    watched.process.wait(SECONDS)
    watched.clock.cancel()


class Repository:
    def __init__(self, folder):
        self.folder = folder
        for words in (["init", "-q", "."], ["config", "user.email", "a@example.org"], ["config", "user.name", "a"]):
            self.git(*words)
        self.git("config", "pan.program", str(PROGRAM))
        self.git("config", "pan.source", "site")
        self.git("config", "core.hooksPath", ".git/hooks")
        (folder / ".git/hooks").mkdir(exist_ok=True)
        (folder / ".git/hooks/pre-commit").symlink_to(CONTRIB / "pre-commit")

    def git(self, *words):
        """The status, and what was written to standard error."""
        outer = {name: value for name, value in os.environ.items() if not name.startswith("GIT_")}
        ended = subprocess.run(
            ["git", *words], cwd=self.folder, env=outer, capture_output=True, text=True, timeout=SECONDS
        )
        return ended.returncode, [line for line in ended.stderr.splitlines() if not line.startswith("hint:")]

    def commit(self, *words):
        return self.git("commit", "-q", "-m", "a change", *words)


REFUSED = "pan: the commit is refused; git commit --no-verify commits all the same"


def committing(folder):
    repository = Repository(folder)
    write(folder, "site/web1.pan", "object template web1;\ninclude 'port';\n")
    write(folder, "site/port.pan", "template port;\n'/port' = 80;\n")
    write(folder, "notes.txt", "no part of the site\n")
    repository.git("add", ".")
    yield "a first commit", repository.commit() == (0, ["pan: profiles that change: 1", "  new     web1"])
    write(folder, "site/port.pan", "template port;\n'/port' = 8080;\n")
    write(folder, "site/web2.pan", "object template web2;\n'/a' = 1\n")
    yield "a change that was added", repository.commit("site/port.pan") == (
        0,
        ["pan: profiles that change: 1", "  changed web1"],
    )
    repository.git("add", ".")
    status, said = repository.commit()
    yield "a fault", status == 1 and said[-1] == REFUSED
    yield "in words", any(line.startswith("error F06: ") for line in said) and any("web2.pan:3:1" in line for line in said)
    yield "without the hook", repository.commit("--no-verify") == (0, [])
    write(folder, "site/web2.pan", "object template web2;\n'/a' = 1;\n")
    repository.git("rm", "-q", "site/web1.pan")
    repository.git("add", ".")
    shutil.rmtree(folder / ".git/pan")
    yield "a fault mended, an object gone", repository.commit() == (
        0,
        ["pan: profiles that change: 2", "  gone    web1", "  new     web2"],
    )
    write(folder, "site/port.pan", "template port;\n'/port' = 81;\n")
    yield "a file that nobody reads", repository.commit("-a") == (0, ["pan: no profile changes"])
    write(folder, "notes.txt", "another note\n")
    yield "a file beside the site", repository.commit("-a") == (0, [])
    repository.git("config", "pan.format", "true")
    write(folder, "site/web2.pan", "object template web2;\n'/a' = 2;\n")
    status, said = repository.commit("-a")
    yield "another layout", status == 1 and "  web2.pan" in said and said[-1] == REFUSED
    write(folder, "site/web2.pan", "object template web2;\n\n'/a' = 2;\n")
    write(folder, "site/port.pan", "template port;\n\n'/port' = 81;\n")
    yield "the layout", repository.commit("-a") == (0, ["pan: profiles that change: 1", "  changed web2"])
    repository.git("config", "pan.format", "false")
    repository.git("config", "pan.options", "--max-iteration 0")
    write(folder, "site/port.pan", "template port;\n")
    status, said = repository.commit("-a")
    yield "options that are none", status == 1 and said[0] == "usage fault" and said[-1] == REFUSED
    yield "their status", "pan: the build ended with status 2" in said
    repository.git("config", "pan.options", "")
    repository.git("config", "pan.source", "sites")
    status, said = repository.commit("-a")
    yield "a folder that is not there", status == 1 and "there is no folder sites" in said[0] and said[-1] == REFUSED


def unit(folder):
    """The unit as it stands but for the program, which systemd wants to be there."""
    if not shutil.which("systemd-analyze"):
        return
    text = (CONTRIB / "pan-watch.service").read_text().replace("/opt/pan/contrib/pan-watch", "/bin/true")
    write(folder, "pan-watch.service", text)
    ended = subprocess.run(
        ["systemd-analyze", "verify", "--man=no", folder / "pan-watch.service"], capture_output=True, text=True
    )
    own = [line for line in ended.stderr.splitlines() if "pan-watch" in line]
    yield "the unit", own == []


def main():
    passed = failed = 0
    for part in (watching, a_lost_source, every_few_seconds, going_on_from_rows, committing, unit):
        with tempfile.TemporaryDirectory() as room:
            for name, is_well in part(Path(room)):
                passed, failed = passed + is_well, failed + (not is_well)
                if not is_well:
                    print(f"FAILED {name}")
    print(f"{passed} passed, {failed} failed")
    return 1 if failed else 0


if __name__ == "__main__":
    sys.exit(main())
