"""install.sh [PREFIX] [--jobs N] [--room DIR] [--deb FOLDER | --uninstall]

Builds lte_cli and lte_tune, which proves them, and installs into PREFIX (~/.local if left out): both programs, the
tools lte_survey, lte_picture, lte_diff, lte_compare, lte_pcap, lte_convert and lte_check_certificate, manual pages,
completion for bash and zsh, and the documentation. zsh finds its completion if fpath has PREFIX/share/zsh/site-functions. A build
that was stopped goes on from where it was; a later one builds only what changed. Nothing is downloaded.

--deb writes a Debian package of the same files into FOLDER instead, which installs on machines without Rattle.
--uninstall removes everything that was installed in PREFIX.

Needs Rattle's kit (README, "Build"). The tools need Debian's python3-numpy, python3-scipy and python3-matplotlib.
"""
import argparse
import contextlib
import os
import pathlib
import shutil
import subprocess
import sys
import tomllib

from . import build, debian
from .crates_list import Crates
from .repository import TOP, Refused, run

PROGRAMS = ("lte_cli", "lte_tune")
PACKAGES = ("numpy", "scipy", "matplotlib")
PYTHON = "/usr/bin/python3"  # Debian's, which has Debian's packages
DISK = 5_000_000_000  # bytes that a build from nothing may take
LIBRARY = "lib/lte_tools"  # of the packages of Python, below PREFIX
LIST = f"{LIBRARY}/installed"
# installed besides programs: a folder of the repository, a pattern, and the target below PREFIX
FILES = (
    ("python/lte_tools", "*.py", f"{LIBRARY}/lte_tools"),
    ("python/lte_tools", "*.json", f"{LIBRARY}/lte_tools"),
    ("python/lte_reference", "*.py", f"{LIBRARY}/lte_reference"),
    ("scripts/install/man", "*.1", "share/man/man1"),
    ("scripts/install/completion", "_*", "share/zsh/site-functions"),
    ("docs", "*", "share/doc/lte_cli/docs"),
    ("scripts/examples", "**/*.*", "share/doc/lte_cli/scripts/examples"),
    (".", "[A-Z]*.md", "share/doc/lte_cli"),
)
COMMAND = """\
#!/usr/bin/python3
# {name}: the command of {module}, installed by install.sh
import pathlib
import sys

sys.path.insert(0, str(pathlib.Path(__file__).resolve().parent.parent / "{library}"))
from {module} import {call}

if __name__ == "__main__":
    sys.exit({call}())
"""


# ---- what is there


def project():
    """Returns the table `project` of pyproject.toml."""
    return tomllib.loads((TOP / "python/pyproject.toml").read_text(encoding="utf-8"))["project"]


def commands():
    """Returns, by the tools' names, their modules and functions."""
    return {name: tuple(target.split(":")) for name, target in project()["scripts"].items()}


def missing_packages():
    """Returns the packages of Python that the tools need and that are not installed."""
    python = PYTHON if os.access(PYTHON, os.X_OK) else sys.executable
    script = "import importlib.util, sys; print(*[it for it in sys.argv[1:] if importlib.util.find_spec(it) is None])"
    return subprocess.run([python, "-c", script, *PACKAGES], capture_output=True, text=True, check=True).stdout.split()


def kit_of_readme():
    """Returns the kit, or the logic of kits, that the README names."""
    text = (TOP / "README.md").read_text(encoding="utf-8")
    return text.partition("`rt version`: `")[2].partition("`")[0]


def look(room):
    """Prints a line for each requirement that is missing, and raises if nothing can be built without it."""
    for package in missing_packages():
        say(f"python3-{package} is missing (Debian): not all tools run without it")
    faults = []
    try:
        kit = build.kit()
        if build.logic_of(kit) != build.logic_of(kit_of_readme()):
            say(f"note: the kit is {kit}, and this state was proved with {kit_of_readme()}")
    except Refused as refusal:
        faults.append(str(refusal))
    above = next(folder for folder in (room, *room.parents) if folder.exists())
    free, left = shutil.disk_usage(above).free, share_left(room)
    if free < DISK * left:
        faults.append(f"disk is missing: {DISK * left / 1e9:.1f} GB are needed in {above}, {free / 1e9:.1f} are free")
    for fault in faults[:-1]:
        say(fault)
    if faults:
        raise Refused(faults[-1])


def share_left(room):
    """Returns the fraction of the crates that no earlier run has built."""
    crates = Crates(TOP, PROGRAMS)
    return sum(not (room / "built" / name / "sum").is_file() for name in crates) / len(crates)


def say(text):
    print(f"install.sh: {text}", file=sys.stderr, flush=True)


# ---- what is installed


def files_for(programs):
    """Returns, by each file's path below PREFIX, its bytes and whether it is executable."""
    files = {f"bin/{name}": (path.read_bytes(), True) for name, path in programs.items()}
    for name, (module, call) in commands().items():
        files[f"bin/{name}"] = (COMMAND.format(name=name, module=module, call=call, library=LIBRARY).encode(), True)
    for folder, pattern, target in FILES:
        for path in sorted((TOP / folder).glob(pattern)):
            if path.is_file():
                files[f"{target}/{path.relative_to(TOP / folder)}"] = (path.read_bytes(), False)
    for path in (TOP / "scripts/install/completion").glob("*.bash"):
        files[f"share/bash-completion/completions/{path.stem}"] = (path.read_bytes(), False)
    return files


def installed(prefix):
    """Returns the paths of the files that an earlier run installed."""
    try:
        names = (prefix / LIST).read_text(encoding="utf-8").splitlines()
    except FileNotFoundError:
        return []
    if any(name.startswith("/") or ".." in name.split("/") for name in names):
        raise Refused(f"{prefix / LIST}: a path outside {prefix}")
    return names


def put(prefix, files):
    """Installs the files, each in one step, and removes those of an earlier run that are not among them."""
    before = installed(prefix)
    for name in files:
        if name not in before and (prefix / name).exists():
            raise Refused(f"{prefix / name} exists, and no earlier install.sh wrote it: move it away")
    place(prefix / LIST, listed({**dict.fromkeys(before), **files, LIST: None}), False)
    for name, (data, is_run) in files.items():
        place(prefix / name, data, is_run)
    remove(prefix, [name for name in before if name not in files and name != LIST])
    place(prefix / LIST, listed([*files, LIST]), False)


def listed(names):
    """Returns the text of the list of installed files."""
    return "".join(f"{name}\n" for name in names).encode()


def place(path, data, is_run):
    """Writes a file next to its path, and then renames it."""
    path.parent.mkdir(parents=True, exist_ok=True)
    beside = path.with_name(f".{path.name}.{os.getpid()}")
    beside.write_bytes(data)
    beside.chmod(0o755 if is_run else 0o644)
    beside.replace(path)


def remove(prefix, names):
    """Removes files, and then the folders that are empty."""
    for path in (prefix / name for name in names):
        path.unlink(missing_ok=True)
        if path.suffix == ".py":
            shutil.rmtree(path.parent / "__pycache__", ignore_errors=True)
    for path in (prefix / name for name in names):
        for folder in path.parents:
            if folder == prefix:
                break
            with contextlib.suppress(OSError):
                folder.rmdir()


# ---- the command


def uninstall(prefix, room):
    """Removes the files of an earlier run, and the folder of its build."""
    names = installed(prefix)
    if not names:
        raise Refused(f"install.sh has installed nothing in {prefix}")
    remove(prefix, names)
    build.remove(room)
    print(f"removed from {prefix}: {len(names)} files")


def programs_of(args):
    """Builds the programs, and returns their paths by name."""
    look(args.room)
    return build.build(TOP, args.room, PROGRAMS, args.jobs, lambda text: print(text, flush=True))


def install(args):
    """Builds and installs everything."""
    put(args.prefix, files_for(programs_of(args)))
    print(f"installed in {args.prefix}/bin: {', '.join([*PROGRAMS, *commands()])}")
    if str(args.prefix / "bin") not in os.environ.get("PATH", "").split(":"):
        say(f"note: {args.prefix}/bin is not in PATH")


def package(args):
    """Builds everything, and writes the Debian package."""
    written = debian.package(args.deb, files_for(programs_of(args)), commands(), LIBRARY, project()["version"])
    print(f"written: {written}; `apt install ./{written.name}` in that folder installs it")


def parser():
    """Returns the parser of the command's arguments."""
    home = pathlib.Path.home()
    cache = pathlib.Path(os.environ.get("XDG_CACHE_HOME") or home / ".cache")
    made = argparse.ArgumentParser(
        prog="install.sh", description=__doc__, formatter_class=argparse.RawDescriptionHelpFormatter
    )
    made.add_argument("prefix", metavar="PREFIX", nargs="?", type=pathlib.Path, default=home / ".local")
    made.add_argument("--jobs", type=build.at_least_one, default=build.processors(), help="processes at once")
    made.add_argument("--room", type=pathlib.Path, default=cache / "lte_tools", help="the folder of the build")
    either = made.add_mutually_exclusive_group()
    either.add_argument("--deb", metavar="FOLDER", type=pathlib.Path, help="write a Debian package into FOLDER")
    either.add_argument("--uninstall", action="store_true", help="remove all files, and the folder of the build")
    return made


def main():
    args = parser().parse_args()
    args.prefix, args.room = args.prefix.resolve(), args.room.resolve()
    if args.uninstall:
        uninstall(args.prefix, args.room)
    elif args.deb:
        package(args)
    else:
        install(args)


if __name__ == "__main__":
    run(main, "install.sh")
