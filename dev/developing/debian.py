"""Build a Debian package of the files that tools/install installs, using dpkg-deb."""
from __future__ import annotations

import gzip
import hashlib
import os
import re
import shutil
import subprocess

from subtitles.common.command_line import Stop
from subtitles.common.files import add_name_to_errors
from subtitles.common.program import (
    PAGES, UNITS, copy, install, install_units, link, list_documents, write)

NAME = "subttx"
ARCHITECTURE = "amd64"
DEPENDENCIES = "libc6 (>= 2.34), python3 (>= 3.9)"
DEFAULT_MAINTAINER = "subttx <subttx@example.com>"
SUMMARY = "checks Teletext subtitles before they go on air"
DESCRIPTION = """\
 Give it an EBU STL file and a recording of the DVB Teletext that your playout
 sends. It accepts the transmission, or names what is broken, with frame,
 packet or cell. It also makes transmissions from subtitle files, and shows and
 normalises such files. The tools beside it go from a transport stream to a
 verdict and a report."""
COPYRIGHT = """\
subttx: {summary}

Copyright 2026 the authors of subttx

This package states no licence. Ask whoever gave it to you what you may do with it.
"""
# Python compiles the tools after installation; the bytecode is removed with the package.
FOLDER = f"/usr/lib/{NAME}/tools/subtitles"
# The patterns also match the units without `@` that sites copied from the manual of version 3.0.0.
PATTERNS = [f"'{unit.replace('@', '*')}'" for unit in UNITS]
# An upgrade does not restart the recorder, since a programme on air would have a gap.
RESTARTED = " ".join(PATTERNS[1:])
SCRIPTS = {
    "postinst": f"""\
python3 -m compileall -q --invalidation-mode unchecked-hash {FOLDER}
! command -v systemd-sysusers >/dev/null || systemd-sysusers {NAME}.conf
[ ! -d /run/systemd/system ] || systemctl daemon-reload
[ ! -d /run/systemd/system ] || systemctl try-restart {RESTARTED}""",
    "prerm": f"""\
[ "$1" != remove ] || [ ! -d /run/systemd/system ] || systemctl stop {" ".join(PATTERNS)}
find {FOLDER} -depth -name __pycache__ -exec rm -r {{}} +""",
    # Segments and results in /var/lib/subttx stay. The links are those of `systemctl enable`.
    "postrm": f"""\
[ "$1" != purge ] || rm -rf /etc/{NAME}
[ "$1" != purge ] || find /etc/systemd/system -lname '*/{NAME}-*@.service' -delete 2>/dev/null || :
[ ! -d /run/systemd/system ] || systemctl daemon-reload"""}
# The program must not be stripped, because PROVED contains its SHA-256.
OVERRIDES = f"{NAME}: unstripped-binary-or-object [usr/bin/subttx]\n"


def find_maintainer() -> str:
    """Return the package's maintainer from the environment variables that Debian's tools read."""
    address = os.environ.get("DEBEMAIL", "")
    if "<" in address:
        return address
    return f"{os.environ.get('DEBFULLNAME') or NAME} <{address}>" if address else DEFAULT_MAINTAINER


def write_gzip(path: str, data: bytes) -> None:
    """Write a gzip file whose bytes depend only on the data."""
    os.makedirs(os.path.dirname(path), exist_ok=True)
    with open(path, "wb") as file, gzip.GzipFile("", "wb", 9, file, 0) as gzip_file:
        gzip_file.write(data)


def compress_man_pages(root: str) -> None:
    """Compress the man pages, as Debian requires."""
    for page in PAGES:
        path = os.path.join(root, "usr", "share", "man", "man1", page)
        with open(path, "rb") as file:
            write_gzip(path + ".gz", file.read())
        os.remove(path)


def add_documents(root: str, version: str, proved: str, date: str) -> None:
    """Add the documents that Debian requires, and links to the documents that the tools read."""
    folder = os.path.join(root, "usr", "share", "doc", NAME)
    for name in sorted({document.partition(os.sep)[0] for document in list_documents()}):
        link(os.path.join("..", "..", "..", "lib", NAME, name), os.path.join(folder, name))
    copy(proved, os.path.join(folder, "PROVED"))
    write(os.path.join(folder, "copyright"), COPYRIGHT.format(summary=SUMMARY))
    log = (f"{NAME} ({version}) stable; urgency=medium\n\n  * Version {version}.\n\n"
           f" -- {find_maintainer()}  {date}\n")
    write_gzip(os.path.join(folder, "changelog.gz"), log.encode())
    write(os.path.join(root, "usr", "share", "lintian", "overrides", NAME), OVERRIDES)


def add_units(root: str) -> None:
    """Add the units of systemd, the user that they run as, and the folder of their settings."""
    install_units(os.path.join(root, "usr"), "")
    os.makedirs(os.path.join(root, "etc", NAME))


def add_control(root: str, version: str) -> None:
    """Add the package's control file and the checksums of its files."""
    size = sum(os.path.getsize(os.path.join(root, name)) for name in list_files_below(root))
    sums = list_checksums(root, "md5")
    fields = {"Package": NAME, "Version": version, "Section": "video", "Priority": "optional",
              "Architecture": ARCHITECTURE, "Depends": DEPENDENCIES, "Recommends": "socat",
              "Maintainer": find_maintainer(), "Installed-Size": str(size // 1024 + 1),
              "Description": SUMMARY}
    lines = "".join(f"{name}: {value}\n" for name, value in fields.items())
    write(os.path.join(root, "DEBIAN", "control"), f"{lines}{DESCRIPTION}\n")
    write(os.path.join(root, "DEBIAN", "md5sums"), sums)
    for name, line in SCRIPTS.items():
        path = os.path.join(root, "DEBIAN", name)
        write(path, f"#!/bin/sh\nset -e\n{line}\n")
        os.chmod(path, 0o755)


def set_modes_and_times(root: str, time: int) -> None:
    """Set fixed modes and times for all files."""
    for place, _, names in os.walk(root, topdown=False):
        for name in names:
            path = os.path.join(place, name)
            if not os.path.islink(path):
                os.chmod(path, 0o755 if os.access(path, os.X_OK) else 0o644)
            os.utime(path, (time, time), follow_symlinks=False)
        os.chmod(place, 0o755)
        os.utime(place, (time, time))


def make_package(program: str, proved: str, version: str, work: str, path: str, time: int) -> None:
    """Build the package at `path` in the empty folder `work`. The same input gives the same bytes.
    """
    if not shutil.which("dpkg-deb"):
        raise Stop("dpkg-deb is not installed: it is in Debian's package dpkg")
    if not re.fullmatch(r"[0-9][A-Za-z0-9.+~]*", version):
        raise Stop(f"{version} is not a version that a package may have")
    root = os.path.join(work, NAME)
    install(program, os.path.join(root, "usr"))
    compress_man_pages(root)
    add_documents(root, version, proved, "Sat, 01 Jan 2000 00:00:00 +0000")
    add_units(root)
    add_control(root, version)
    set_modes_and_times(root, time)
    result = os.path.join(work, "made.deb")
    process = subprocess.run(["dpkg-deb", "--root-owner-group", "-Zxz", "--build", root, result],
                             env={**os.environ, "SOURCE_DATE_EPOCH": str(time)},
                             stdin=subprocess.DEVNULL, stdout=subprocess.DEVNULL,
                             stderr=subprocess.PIPE, encoding="utf-8", errors="replace",
                             check=False)
    if process.returncode:
        raise Stop(f"dpkg-deb failed: {process.stderr.strip().splitlines()[-1:]}")
    with add_name_to_errors(path):
        shutil.copyfile(result, path + ".new")
        os.replace(path + ".new", path)


def list_files_below(folder: str) -> list[str]:
    """Return the relative paths of all files in a folder, except links."""
    files = []
    for place, _, names in os.walk(folder):
        paths = [os.path.join(place, name) for name in names]
        files += [os.path.relpath(path, folder) for path in paths if not os.path.islink(path)]
    return sorted(files)


def list_checksums(folder: str, kind: str) -> str:
    """Return a line with the checksum (md5 or sha256) and the path of each file in a folder."""
    lines = []
    for name in list_files_below(folder):
        with open(os.path.join(folder, name), "rb") as file:
            lines.append(f"{hashlib.new(kind, file.read()).hexdigest()}  {name}\n")
    return "".join(lines)
