"""Builds over a made repository, with a stand-in for the kit that records when it begins and ends, and that refuses a
crate whose libraries are missing. Nothing is proved.
"""
import os
import pathlib
import signal
import subprocess
import sys
import tempfile
import time
import unittest
from unittest import mock

from lte_gate import build
from lte_gate.repository import TOP, Refused

MOST = 60  # seconds that a test waits for another process
LIST = """\
# a made repository
low:

# ---- a short chain and a long one
user: low itoa
short: low
long_a: low
long_b: long_a      # behind the other
long_c: long_b low
program: long_c short user
second: user
some_tests: long_c
"""
LINES = {"long_a": 3, "long_b": 3, "long_c": 3}  # of the others one
PROGRAMS = ("program", "second")
KIT = """\
#!/bin/sh
# rt: records its runs in the folder NOTES, and does what the files there ask for
name=${PWD##*/}
case $1 in version) echo a kit; exit ;; esac
note() { echo "$2" > "$NOTES/.$1-$name" && mv "$NOTES/.$1-$name" "$NOTES/$1-$name"; }
top=${PWD%/crates/*}
note copy "${top##*/}"
note number $$
echo "begin $name $*" >> "$NOTES/events"
for use in $(sed -n "s/^$name: *//p" ../../crates.txt); do
    case $use in itoa) continue ;; esac
    [ "$(cat "../$use/out/rlib/stamp")" = "library of $use" ] || { echo "no library of $use"; exit 1; }
done
if [ -e "$NOTES/meets-$name" ]; then
    last=$(($(date +%s) + 60))
    until grep -q "^begin $(cat "$NOTES/meets-$name") " "$NOTES/events"; do
        [ "$(date +%s)" -lt $last ] || { echo 'the other one does not run next to it'; exit 1; }
        sleep 0.02
    done
fi
if [ -e "$NOTES/hangs-$name" ]; then exec sleep 60; fi
if [ -e "$NOTES/fails-$name" ]; then echo 'a goal is open'; exit 1; fi
if [ -e "$NOTES/killed-$name" ]; then rm "$NOTES/killed-$name"; exit 247; fi
if [ -e "$NOTES/empty-$name" ]; then exit 0; fi
case $1 in
    lib) mkdir -p "out/rlib/$name.rlib"; printf 'library of %s' "$name" > out/rlib/stamp ;;
    *) mkdir -p out; printf '#!/bin/sh\\necho %s "$@"\\n' "$name" > "out/$name"; chmod 755 "out/$name" ;;
esac
echo "end $name" >> "$NOTES/events"
"""


class Made(unittest.TestCase):
    """A made repository in a folder of its own, and the stand-in as `rt`."""

    def setUp(self):
        self.folder = pathlib.Path(self.enterContext(tempfile.TemporaryDirectory()))
        self.top, self.room, self.notes = (self.folder / name for name in ("top", "room", "notes"))
        for name in ("low", "user", "short", "long_a", "long_b", "long_c", *PROGRAMS, "some_tests"):
            source = self.source(name)
            source.parent.mkdir(parents=True)
            source.write_text("// a line\n" * LINES.get(name, 1))
        (self.top / "crates.txt").write_text(LIST)
        self.notes.mkdir()
        kit = self.folder / "bin/rt"
        kit.parent.mkdir()
        kit.write_text(KIT)
        kit.chmod(0o755)
        path = f"{kit.parent}:{os.environ['PATH']}"
        self.enterContext(mock.patch.dict(os.environ, {"PATH": path, "NOTES": str(self.notes)}))

    def source(self, name):
        return self.top / "crates" / name / "src" / ("main.rt" if name in PROGRAMS else "lib.rt")

    def ask(self, word, name, text=""):
        (self.notes / f"{word}-{name}").write_text(text)

    def build(self, names=("program",), processors=1, memory=1e12):
        """Builds, and returns the events and the lines of progress."""
        (self.notes / "events").write_text("")
        said = []
        with mock.patch.object(build, "free_memory", lambda: memory):
            self.programs = build.build(self.top, self.room, names, processors, said.append)
        return self.events(), said

    def events(self):
        return (self.notes / "events").read_text().splitlines()

    def wait_for(self, name):
        """Waits until a note is there."""
        last = time.monotonic() + MOST
        while not (self.notes / name).exists():
            self.assertLess(time.monotonic(), last, f"no {name}")
            time.sleep(0.02)

    def begun(self, events):
        return [event.split()[1] for event in events if event.startswith("begin")]

    def refused(self, **how):
        with self.assertRaises(Refused) as found:
            self.build(**how)
        return str(found.exception)


class Order(Made):
    def test_longest_chain_first_and_the_program_last(self):
        events, said = self.build()
        self.assertEqual(self.begun(events), ["low", "long_a", "long_b", "long_c", "user", "short", "program"])
        self.assertEqual(events[1::2], [f"end {name}" for name in self.begun(events)])
        self.assertRegex(said[0], r"^1 of 7 crates, 0 min: low in \d+ s$")
        self.assertRegex(said[-1], r"^7 of 7 crates, 0 min: program in \d+ s$")

    def test_words_of_the_kit(self):
        events, _ = self.build(processors=4)
        self.assertEqual(events[0], "begin low lib --jobs 4")
        self.assertIn("begin program run --jobs 4 -- version", events)

    def test_program_is_what_the_kit_made(self):
        self.build(PROGRAMS)
        for name in PROGRAMS:
            said = subprocess.run([self.programs[name], "help"], capture_output=True, text=True, check=True).stdout
            self.assertEqual(said, f"{name} help\n")

    def test_side_by_side_in_copies_of_their_own(self):
        self.ask("meets", "long_a", "user")
        self.ask("meets", "user", "long_a")
        self.build(processors=2)
        self.assertNotEqual((self.notes / "copy-long_a").read_text(), (self.notes / "copy-user").read_text())

    def test_no_more_side_by_side_than_memory_holds(self):
        events, _ = self.build(PROGRAMS, processors=4, memory=1.5e9)
        self.assertEqual(events[1::2], [f"end {name}" for name in self.begun(events)])
        self.assertTrue(all("--jobs 1" in event for event in events[::2]))

    def test_each_once(self):
        events, _ = self.build(PROGRAMS, processors=4)
        wanted = ["long_a", "long_b", "long_c", "low", "program", "second", "short", "user"]
        self.assertEqual(sorted(self.begun(events)), wanted)


class Resume(Made):
    def test_goes_on_after_a_failure(self):
        self.ask("fails", "long_b")
        line = self.refused()
        log = self.room / "logs/long_b.log"
        self.assertEqual(line, f"long_b is not built: {log} says why")
        self.assertEqual(log.read_text(), "a goal is open\n")
        self.assertEqual(self.begun(self.events())[-1], "long_b")
        (self.notes / "fails-long_b").unlink()
        events, said = self.build()
        self.assertEqual(self.begun(events), ["long_b", "long_c", "user", "short", "program"])
        self.assertEqual(said[0], "2 of 7 crates are there from an earlier run")

    def test_failure_ends_the_other_commands(self):
        self.ask("meets", "long_a", "user")
        self.ask("fails", "long_a")
        self.ask("hangs", "user")
        self.refused(processors=2)
        with self.assertRaises(ProcessLookupError):
            os.kill(int((self.notes / "number-user").read_text()), 0)

    def test_killed_is_built_once_more_and_alone(self):
        self.ask("meets", "long_a", "user")
        self.ask("killed", "long_a")
        events, said = self.build(processors=2)
        begins = [place for place, event in enumerate(events) if event.startswith("begin long_a ")]
        self.assertEqual(len(begins), 2)
        self.assertEqual(events[begins[1] + 1], "end long_a")
        self.assertIn("end user", events[: begins[1]])
        self.assertIn("long_a was killed, most likely for memory: once more, with nothing next to it", said)

    def test_command_that_makes_nothing_is_a_failure(self):
        self.ask("empty", "short")
        self.assertIn("short is not built", self.refused())

    def test_all_is_there(self):
        self.build()
        events, said = self.build()
        self.assertEqual((events, said), ([], []))

    def test_changed_text_is_built_with_the_crates_above(self):
        self.build()
        self.source("long_b").write_text("// another\n")
        events, _ = self.build()
        self.assertEqual(self.begun(events), ["long_b", "long_c", "program"])

    def test_changed_line_of_the_list(self):
        self.build()
        (self.top / "crates.txt").write_text(LIST.replace("short: low", "short: low itoa"))
        events, _ = self.build()
        self.assertEqual(self.begun(events), ["short", "program"])

    def test_stopped(self):
        self.ask("hangs", "long_a")
        words = [sys.executable, "-m", "lte_gate.build", "--top", self.top, self.room, "program", "--jobs", "1"]
        how = {"cwd": TOP / "python", "stdout": subprocess.PIPE, "stderr": subprocess.PIPE, "text": True}
        with subprocess.Popen(words, **how) as run:
            try:
                self.wait_for("number-long_a")
                run.send_signal(signal.SIGTERM)
                said, faults = run.communicate(timeout=MOST)
            finally:
                run.kill()
        self.assertEqual((run.returncode, faults), (1, "build: stopped; the same command goes on from here\n"))
        self.assertEqual(len(said.splitlines()), 1)
        with self.assertRaises(ProcessLookupError):
            os.kill(int((self.notes / "number-long_a").read_text()), 0)
        (self.notes / "hangs-long_a").unlink()
        events, _ = self.build()
        self.assertEqual(self.begun(events)[0], "long_a")

    def test_signal_comes_while_a_command_is_started(self):
        """A process of whose start a signal comes is known, and is ended."""
        started, popen = [], subprocess.Popen

        def start(*given, **named):
            process = popen(*given, **named)
            if "sh" not in str(given[0]) and "version" not in given[0]:
                started.append(process)
                os.kill(os.getpid(), signal.SIGTERM)
            return process

        self.ask("hangs", "low")
        with mock.patch.object(build.subprocess, "Popen", start), self.assertRaises(KeyboardInterrupt):
            self.build()
        self.assertEqual(len(started), 1)
        self.assertIsNotNone(started[0].returncode)

    def test_one_build_in_a_room(self):
        with build.alone(self.room):
            self.assertEqual(self.refused(), f"another build works in {self.room}")


class Refusals(Made):
    def test_no_kit(self):
        with mock.patch.dict(os.environ, {"PATH": "/nowhere"}):
            self.assertIn("rt is missing", self.refused())

    def test_no_such_crate(self):
        self.assertEqual(self.refused(names=("nothing",)), "crates.txt has no crate nothing")

    def test_no_folder(self):
        (self.top / "crates.txt").write_text(LIST + "nowhere: low\n")
        self.assertIn("no folder crates/nowhere", self.refused())
