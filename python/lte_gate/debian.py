"""A Debian package of what install.sh installs: programs, tools, manual pages, completion and documentation."""
import gzip
import hashlib
import pathlib
import re
import shutil
import subprocess
import tempfile
import time

from .repository import TOP, Refused

NAME = "lte-cli"
# folders of an installation by their folders in a package, the first that fits
FOLDERS = (
    ("{library}/", "usr/lib/python3/dist-packages/"),
    ("share/doc/lte_cli/", f"usr/share/doc/{NAME}/"),
    ("share/zsh/site-functions/", "usr/share/zsh/vendor-completions/"),
    ("", "usr/"),
)
COMMAND = """\
#!/usr/bin/python3
# {name}: the command of {module}
import sys

from {module} import {call}

if __name__ == "__main__":
    sys.exit({call}())
"""
CONTROL = """\
Package: {name}
Version: {version}
Architecture: {architecture}
Maintainer: {maintainer}
Installed-Size: {size}
Depends: {libc}python3 (>= 3.11), python3-numpy, python3-scipy
Recommends: python3-matplotlib, python3-tqdm
Suggests: python3-distributed
Section: hamradio
Priority: optional
Description: LTE cells in a radio recording, by proved programs
 lte_cli lists the cells of an LTE FDD downlink in a recording, each by written
 rules that the program is proved to follow; lte_tune estimates and corrects a
 recording's frequency offset. The tools over them make surveys of long
 recordings, maps, pictures and packets for Wireshark.
"""
COPYRIGHT = """\
lte_cli, lte_tune and the tools over them.

Copyright (C) {year} the authors that the repository's history names.

No licence is chosen. Until the owner of the repository chooses one, this
package grants nobody the right to copy, change or distribute it; it is meant
for machines of those who built it.

The programs contain code of the Rattle toolchain's libraries, under the terms
of that toolchain.
"""
# the interpreter writes compiled modules next to the tools' own, which no list of the package has
SCRIPTS = {
    "postinst": 'if [ "$1" = configure ] && command -v py3compile > /dev/null; then py3compile -p {name}; fi',
    "prerm": "if command -v py3clean > /dev/null; then py3clean -p {name}; fi",
}
CHANGES = """\
{name} ({version}) unstable; urgency=low

  * Built from the repository; its history has the changes.

 -- {maintainer}  {day}
"""


def maintainer():
    """Returns the author of the newest commit, or a placeholder in an unpacked archive."""
    words = ["git", "log", "-1", "--format=%an <%ae>"]
    try:
        done = subprocess.run(words, cwd=TOP, capture_output=True, text=True, check=False)
    except OSError:
        return f"{NAME} <root@localhost.localdomain>"
    return done.stdout.strip() if re.search(r"<\S+@\S+>", done.stdout) else f"{NAME} <root@localhost.localdomain>"


def libc_of(programs):
    """Returns the dependency on the C library whose symbols the programs name, or nothing."""
    found = {tuple(map(int, it.split(b"."))) for data in programs for it in re.findall(rb"GLIBC_(\d+\.\d+)\b", data)}
    return f"libc6 (>= {'.'.join(map(str, max(found)))}), " if found else ""


def target_of(path, library):
    """Returns the path in a package of a file that is installed at `path`."""
    for folder, target in FOLDERS:
        folder = folder.format(library=library)
        if path.startswith(folder):
            return target + path.removeprefix(folder)
    return path


def contents(files, commands, library, version):
    """Returns, by each path of a package, a file's bytes and whether it is executable."""
    found = {target_of(path, library): kept for path, kept in files.items()}
    for name, (module, call) in commands.items():
        found[f"usr/bin/{name}"] = (COMMAND.format(name=name, module=module, call=call).encode(), True)
    for path in [path for path in found if path.startswith("usr/share/man/")]:
        found[f"{path}.gz"] = (gzip.compress(found.pop(path)[0], 9, mtime=0), False)
    words = {"name": NAME, "version": version, "maintainer": maintainer(), "year": time.gmtime().tm_year}
    words["day"] = time.strftime("%a, %d %b %Y %H:%M:%S +0000", time.gmtime())
    folder = f"usr/share/doc/{NAME}"
    found[f"{folder}/copyright"] = (COPYRIGHT.format(**words).encode(), False)
    found[f"{folder}/changelog.gz"] = (gzip.compress(CHANGES.format(**words).encode(), 9, mtime=0), False)
    return dict(sorted(found.items()))


def architecture():
    """Returns the machine's architecture by Debian's name."""
    done = subprocess.run(["dpkg", "--print-architecture"], capture_output=True, text=True, check=True)
    return done.stdout.strip()


def stripped(path):
    """Removes a program's symbols that only a debugger reads, if strip is installed."""
    if shutil.which("strip") and path.read_bytes().startswith(b"\x7fELF"):
        subprocess.run(["strip", "--strip-unneeded", "--remove-section=.comment", path], check=True)


def package(folder, files, commands, library, version):
    """Writes the package of these files into `folder`, and returns its path."""
    if not shutil.which("dpkg-deb"):
        raise Refused("dpkg-deb is missing: a Debian package is made on Debian alone")
    folder.mkdir(parents=True, exist_ok=True)
    with tempfile.TemporaryDirectory() as room:
        root = pathlib.Path(room) / NAME
        found = contents(files, commands, library, version)
        for path, (data, is_run) in found.items():
            file = root / path
            file.parent.mkdir(parents=True, exist_ok=True)
            file.write_bytes(data)
            file.chmod(0o755 if is_run else 0o644)
            if path.startswith("usr/bin/"):
                stripped(file)
        write_control(root, found, version)
        for path in [root, *root.rglob("*")]:
            if path.is_dir():
                path.chmod(0o755)
        target = folder.resolve() / f"{NAME}_{version}_{architecture()}.deb"
        words = ["dpkg-deb", "--root-owner-group", "-Zxz", "--build", str(root), str(target)]
        subprocess.run(words, check=True, stdout=subprocess.DEVNULL)
    return target


def write_control(root, found, version):
    """Writes the package's control file, its scripts and its checksums."""
    programs = [data for path, (data, _) in found.items() if path.startswith("usr/bin/")]
    words = {"name": NAME, "version": version, "maintainer": maintainer(), "architecture": architecture()}
    size = sum((root / path).stat().st_size for path in found)
    (root / "DEBIAN").mkdir()
    text = CONTROL.format(**words, libc=libc_of(programs), size=-(-size // 1024))
    (root / "DEBIAN/control").write_text(text, encoding="utf-8")
    for script, line in SCRIPTS.items():
        (root / "DEBIAN" / script).write_text(f"#!/bin/sh\nset -e\n{line.format(name=NAME)}\n", encoding="utf-8")
        (root / "DEBIAN" / script).chmod(0o755)
    sums = [f"{hashlib.md5((root / path).read_bytes()).hexdigest()}  {path}\n" for path in found]
    (root / "DEBIAN/md5sums").write_text("".join(sums), encoding="utf-8")
