"""What install.sh installs and removes, and its Debian package, with stand-ins for the programs."""
import contextlib
import gzip
import io
import os
import pathlib
import re
import shutil
import subprocess
import tempfile
import unittest
from unittest import mock

from lte_gate import debian, install
from lte_gate.repository import TOP, Refused

TOOLS = ("lte_survey", "lte_picture", "lte_diff", "lte_compare", "lte_pcap", "lte_convert", "lte_check_certificate")


class Looks(unittest.TestCase):
    def test_each_missing_requirement_has_a_line(self):
        disk = mock.Mock(free=1e9)
        with (
            mock.patch.object(install, "missing_packages", lambda: ["numpy", "matplotlib"]),
            mock.patch.object(install.shutil, "disk_usage", lambda _: disk),
            mock.patch.dict(os.environ, {"PATH": "/nowhere"}),
            contextlib.redirect_stderr(io.StringIO()) as said,
            self.assertRaisesRegex(Refused, r"^disk is missing: 5.0 GB are needed in /, 1.0 are free$"),
        ):
            install.look(pathlib.Path("/nowhere/room"))
        lines = [line.split(" is missing")[0] for line in said.getvalue().splitlines()]
        self.assertEqual(lines, [f"install.sh: {name}" for name in ("python3-numpy", "python3-matplotlib", "rt")])


class Put(unittest.TestCase):
    """What is installed: stand-ins for the programs, and the repository's own files."""

    def setUp(self):
        self.folder = pathlib.Path(self.enterContext(tempfile.TemporaryDirectory()))
        self.prefix, self.room = self.folder / "prefix", self.folder / "room"
        programs = {"lte_cli": "echo '[]'", "lte_tune": """echo '{"candidates":[],"told":null}'"""}
        self.programs = {name: self.folder / name for name in programs}
        for name, answer in programs.items():
            self.programs[name].write_text(f"#!/bin/sh\ncat > /dev/null\n{answer}\n")
        install.put(self.prefix, install.files_for(self.programs))

    def files(self):
        return sorted(str(path.relative_to(self.prefix)) for path in self.prefix.rglob("*") if not path.is_dir())

    def run_tool(self, *words):
        how = {"cwd": "/", "env": {"PATH": "/usr/bin:/bin"}, "capture_output": True, "text": True, "check": False}
        return subprocess.run([self.prefix / "bin" / words[0], *words[1:]], **how)

    def test_places(self):
        for name in ("lte_cli", "lte_tune", *TOOLS):
            self.assertTrue(os.access(self.prefix / "bin" / name, os.X_OK), name)
            for place in ("man/man1/{}.1", "bash-completion/completions/{}", "zsh/site-functions/_{}"):
                self.assertTrue((self.prefix / "share" / place.format(name)).is_file(), place)

    @unittest.skipIf(install.missing_packages(), "no numpy, scipy or matplotlib")
    def test_tools_run_from_anywhere_and_use_the_programs_next_to_them(self):
        recording = self.folder / "a.ci16"
        recording.write_bytes(bytes(range(256)) * 900)
        survey = self.run_tool("lte_survey", str(recording))
        self.assertEqual((survey.returncode, survey.stderr), (0, ""))
        self.assertIn("1 window", survey.stdout)
        picture = self.run_tool("lte_picture", "/nowhere.ci16", "-o", "a.png")
        self.assertEqual((picture.returncode, picture.stderr.split(": ")[:2]), (1, ["lte_picture", "/nowhere.ci16"]))
        self.assertIn("usage: lte_survey ", self.run_tool("lte_survey", "--help").stdout)

    def test_again_replaces_and_removes_what_is_gone(self):
        before = self.files()
        files = install.files_for(self.programs)
        gone = "lib/lte_tools/lte_tools/radio.py"
        del files[gone]
        self.programs["lte_cli"].write_text("another")
        install.put(self.prefix, files | {"bin/lte_cli": (b"another", True)})
        self.assertEqual((self.prefix / "bin/lte_cli").read_text(), "another")
        self.assertEqual(set(before) - set(self.files()), {gone})

    def test_uninstall_leaves_what_is_of_others(self):
        other = self.prefix / "bin/other"
        other.write_text("mine")
        with contextlib.redirect_stdout(None):
            install.uninstall(self.prefix, self.room)
        self.assertEqual(self.files(), ["bin/other"])
        self.assertEqual([path.name for path in self.prefix.iterdir()], ["bin"])
        with self.assertRaises(Refused):
            install.uninstall(self.prefix, self.room)

    def test_file_of_others_is_not_replaced(self):
        another = self.folder / "another"
        (another / "bin").mkdir(parents=True)
        (another / "bin/lte_tune").write_text("mine")
        with self.assertRaisesRegex(Refused, "bin/lte_tune exists"):
            install.put(another, install.files_for(self.programs))
        self.assertEqual([path.name for path in another.rglob("*")], ["bin", "lte_tune"])

    def test_no_path_outside_is_removed(self):
        (self.prefix / install.LIST).write_text("bin/lte_cli\n../other\n")
        with self.assertRaisesRegex(Refused, "a path outside"):
            install.uninstall(self.prefix, self.room)


class Words(unittest.TestCase):
    def refused(self, *words):
        with mock.patch("sys.argv", ["install.sh", *words]), contextlib.redirect_stderr(io.StringIO()) as said:
            with self.assertRaises(SystemExit) as ended:
                install.main()
        self.assertEqual(ended.exception.code, 2)
        return said.getvalue()

    def test_refused_words(self):
        self.assertIn("unrecognized arguments: --quick", self.refused("--quick"))
        self.assertIn("not allowed with", self.refused("--deb", "x", "--uninstall"))
        self.assertIn("0 is not a whole number above 0", self.refused("--jobs", "0"))

    def test_script(self):
        words = ["bash", TOP / "scripts/install.sh", "--help"]
        done = subprocess.run(words, cwd="/", capture_output=True, text=True, check=False)
        self.assertEqual((done.returncode, done.stdout.split("\n")[0][:17]), (0, "usage: install.sh"))

    def test_readme_names_a_kit(self):
        self.assertRegex(install.kit_of_readme(), r"\blogic [0-9a-f]{16}$")

    def test_version_is_the_programs(self):
        text = next(TOP.glob("crates/*/src/version.rt")).read_text()
        self.assertIn(f'VERSION: &str = "{install.project()["version"]}"', text)


@unittest.skipUnless(shutil.which("dpkg-deb"), "no dpkg-deb")
class Package(unittest.TestCase):
    @classmethod
    def setUpClass(cls):
        folder = pathlib.Path(cls.enterClassContext(tempfile.TemporaryDirectory()))
        program = shutil.which("true")  # (any program of this machine)
        files = install.files_for({name: pathlib.Path(program) for name in install.PROGRAMS})
        cls.deb = debian.package(folder, files, install.commands(), install.LIBRARY, "0.9.0")
        cls.root = folder / "root"
        subprocess.run(["dpkg-deb", "-x", cls.deb, cls.root], check=True)

    def test_contents(self):
        for name in ("lte_cli", "lte_tune", *TOOLS):
            self.assertTrue(os.access(self.root / "usr/bin" / name, os.X_OK), name)
            page = gzip.decompress((self.root / f"usr/share/man/man1/{name}.1.gz").read_bytes()).decode()
            self.assertIn(f".TH {name.upper()} 1", page)
            self.assertTrue((self.root / "usr/share/bash-completion/completions" / name).is_file())
            self.assertTrue((self.root / "usr/share/zsh/vendor-completions" / f"_{name}").is_file())
        text = (self.root / "usr/share/doc/lte-cli/copyright").read_text()
        self.assertIn("No licence is chosen", text)
        self.assertTrue((self.root / "usr/lib/python3/dist-packages/lte_tools/survey.py").is_file())

    def test_dependencies(self):
        words = ["dpkg-deb", "-f", self.deb, "Depends"]
        found = subprocess.run(words, capture_output=True, text=True, check=True).stdout
        self.assertTrue(re.match(r"libc6 \(>= 2\.\d+\), python3 \(>= 3\.11\), python3-numpy, python3-scipy$", found))

    @unittest.skipIf(install.missing_packages(), "no numpy, scipy or matplotlib")
    def test_commands_run_without_the_repository(self):
        how = {"cwd": "/", "capture_output": True, "text": True, "check": False}
        how["env"] = {"PATH": "/usr/bin:/bin", "PYTHONPATH": str(self.root / "usr/lib/python3/dist-packages")}
        for name in TOOLS:
            done = subprocess.run([self.root / "usr/bin" / name, "--help"], **how)
            self.assertEqual((done.returncode, done.stdout[: len(name) + 7]), (0, f"usage: {name}"))

    def test_compiled_modules_are_removed_with_it(self):
        control = pathlib.Path(self.enterContext(tempfile.TemporaryDirectory())) / "control"
        subprocess.run(["dpkg-deb", "--control", self.deb, control], check=True)
        for name, command in (("postinst", "py3compile -p lte-cli"), ("prerm", "py3clean -p lte-cli")):
            self.assertTrue(os.access(control / name, os.X_OK), name)
            self.assertIn(command, (control / name).read_text())

    @unittest.skipUnless(shutil.which("lintian"), "no lintian (Debian: lintian)")
    def test_lintian_reports_no_error(self):
        words = ["lintian", "--allow-root", "--no-tag-display-limit", self.deb]
        done = subprocess.run(words, capture_output=True, text=True, check=False)
        errors = [line for line in done.stdout.splitlines() if line.startswith("E:")]
        self.assertEqual((errors, done.returncode), ([], 0), done.stderr)
