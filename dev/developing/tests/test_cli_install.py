"""Test installed and packaged tools, batches that are killed or stopped, and watched folders."""
from __future__ import annotations

import glob
import json
import os
import re
import shutil
import signal
import subprocess
import sys
import tarfile
import xml.etree.ElementTree as tree
from typing import Any
from urllib.parse import unquote

from subtitles.common.program import (
    PAGES, TOP, find_program, list_documents, read, remove_dead_links)
from ..compiled import make_plain_environment
from ..debian import find_maintainer
from ..proved import find_crates_without_line, parse_proved
from .bench import Case, CompletedCall, SECONDS, get_example_path, get_tool_path, read_example_file
from .programmes import wait_until
from .test_cli_pairs import qc


COMPLETE = '''source "$1"
COMP_WORDS=("${@:2}")
COMP_CWORD=$((${#COMP_WORDS[@]} - 1))
if [ "$2" = subttx ]; then _subttx; else _subttx_tool "$2"; fi
printf '%s\\n' "${COMPREPLY[@]}"
'''


def check_installation(case: Case, prefix: str) -> None:
    """Check that the tools in `prefix`/bin extract and judge story.pes, and name each other."""
    def run(name: str, *words: str) -> CompletedCall:
        return case.call([os.path.join(prefix, "bin", name), *words], env=make_plain_environment())

    stl = get_example_path("story.stl")
    stream = case.tool("pes2ts", get_example_path("story.pes"), "0x101")
    process = run("subttx", "extract", case.write("story.ts", stream.out), "recording.pes", "--pid",
                  "0x101")
    case.check("extract", process.out, b"written 5 pes 0 gaps\n")
    process = run("subttx", "check", stl, "recording.pes", "--pes", "0-4")
    case.check("check", process.out, b"accepted 226 frames 5 transmissions\n")
    process = run("subttx-qc", stl, "story.ts", "-o", "report")
    last = process.out.splitlines()[-1]
    case.must("qc", last.startswith(b"relative 226 frames 5 transmissions") and
              os.path.join(prefix, "bin", "subttx").encode() in process.out and
              os.path.exists(case.path("report/story.html")), process)
    text = run("subttx-air", "--help").out
    case.must("installed names in the help", b"subttx-air" in text and b"tools/" not in text, text)
    documents = re.findall(r"\S+/docs/manual/\w+\.md", run("subttx-qc", "--help").out.decode())
    case.check("existing documents in the help", [*map(os.path.isfile, documents)], [True] * 2)


def get_proof_file(case: Case) -> str:
    """Return the path of PROVED. Skip the test if the program has not been proved here."""
    program, _ = find_program(TOP)
    proved = os.path.join(os.path.dirname(program), "PROVED")
    if not program or find_crates_without_line(parse_proved(read(proved))):
        case.skipTest("dev/dist, since the gate has not proved the program here")
    return proved


def is_compiled(folder: str) -> bool:
    """Return whether each module in a folder has a .pyc file that Python loads unchecked."""
    for place, _, names in os.walk(folder):
        for name in names:
            if not name.endswith(".py"):
                continue
            result = os.path.join(place, "__pycache__",
                                  f"{name.removesuffix('.py')}.{sys.implementation.cache_tag}.pyc")
            if not os.path.exists(result):
                return False
            with open(result, "rb") as file:
                if file.read(8)[4:] != bytes([1, 0, 0, 0]):  # flags of an unchecked hash-based .pyc
                    return False
    return True


class Installation(Case):
    """Folders into which tools/install writes, the completion of bash, and packages of dev/dist."""

    def install(self, folder: str) -> CompletedCall:
        return self.tool("install", "-p", self.bench.program, folder)

    def install_from_private_clone(self, change: str = "true") -> CompletedCall:
        """Copy the repository to clone/, run the command `change`, and install from the copy."""
        return self.call(["sh", "-c", f"""umask 077 && mkdir clone &&
            cp -rL "$1"/tools "$1"/docs "$1"/examples "$1"/*.md "$1"/VERSION clone && {change} &&
            clone/tools/install -p "$2" prefix""", "sh", TOP, self.bench.program])

    def test_installed_tools_run_from_a_moved_folder(self) -> None:
        process = self.install("first/prefix")
        self.check("status", process.status, 0)
        os.rename(self.path("first/prefix"), self.path("moved"))
        paths = [path.replace("first/prefix", self.path("moved"))
                 for path in process.out.decode().splitlines()]
        self.must("each printed file exists", paths and all(map(os.path.exists, paths)), paths)
        self.check("installed again", self.install("moved").status, 0)
        self.must("compiled", is_compiled(self.path("moved/lib/subttx/tools/subtitles")))
        check_installation(self, self.path("moved"))

    def test_others_can_use_what_a_private_clone_installs(self) -> None:
        self.install_from_private_clone()
        modes = {os.stat(path).st_mode & 0o777
                 for path in glob.glob(self.path("prefix/**"), recursive=True)}
        self.check("modes of files and folders", modes, {0o644, 0o755})

    def test_a_missing_man_page_is_reported_before_anything_is_copied(self) -> None:
        page = "clone/docs/subttx-air.1"
        process = self.install_from_private_clone(f"rm {page}")
        self.check("status and output", process, (2, b"", [
            f"install: {self.path(page)}: No such file or directory"]))
        self.must("nothing is installed", not os.path.exists(self.path("prefix")))

    def test_removes_and_lists_what_was_installed(self) -> None:
        installed = self.install("own/prefix").out.decode().splitlines()
        process = self.tool("install", "--remove", "own/prefix")
        self.must("status, printed files", process.status == 0 and
                  {*installed} <= {*process.out.decode().splitlines()}, process)
        self.must("its folder", not os.path.exists(self.path("own/prefix"))
                  and os.path.isdir(self.path("own")))

    def test_removes_nothing_through_a_link(self) -> None:
        self.install("linked")
        os.rename(self.path("linked/lib/subttx"), self.path("elsewhere"))
        os.symlink(self.path("elsewhere"), self.path("linked/lib/subttx"))
        process = self.tool("install", "--remove", "linked")
        self.must("a link", process.status == 2
                  and "linked/lib/subttx is a link" in process.errors[0]
                  and os.path.exists(self.path("linked/bin/subttx")), process)

    def test_removes_no_other_files(self) -> None:
        """Others have two files and an empty folder. A link of an earlier version is removed."""
        os.makedirs(self.path("shared/bin"))
        os.makedirs(self.path("shared/share/man/man1"))
        self.write("shared/bin/subttx-own", b"of somebody else")
        for _ in ("first", "second, which replaces the first"):
            self.install("shared")
        self.write("shared/share/man/other", b"")
        os.symlink("../lib/subttx/tools/older", self.path("shared/bin/subttx-older"))
        self.check("status", self.tool("install", "--remove", "shared").status, 0)
        self.check("left", sorted(os.path.relpath(os.path.join(place, name), self.path("shared"))
                                  for place, folders, names in os.walk(self.path("shared"))
                                  for name in [*folders, *names]), [
            "bin", "bin/subttx-own", "share", "share/man", "share/man/man1", "share/man/other"])

    def test_remove_refuses_wrong_arguments_in_one_line(self) -> None:
        os.mkdir(self.path("empty"))
        rows: list[tuple[list[str], int]] = [
            (["empty"], 2), (["none"], 2), (["-p", self.bench.program, "empty"], 64), ([], 64)]
        for words, status in rows:
            process = self.tool("install", "--remove", *words)
            self.check(" ".join(words), (process.status, len(process.errors)), (status, 1))

    def test_installed_documents_have_no_dead_links(self) -> None:
        self.install("prefix")
        home = self.path("prefix/lib/subttx")
        paths = [path for path in glob.glob(os.path.join(home, "**", "*.md"), recursive=True)
                 if os.path.relpath(path, home) in list_documents()]
        self.must("documents", len(paths) > 20, paths)
        link_count = 0
        for path in paths:
            text, name = read(path) or "", os.path.relpath(path, home)
            for target in re.findall(r"\]\(([^)\s#]+)", text):
                link_count += 1
                self.must(f"{name}: {target}", ":" in target or
                          os.path.exists(os.path.join(os.path.dirname(path), target)))
            tools = set(re.findall(r"^\$ .*?\btools/(\w+)", text, re.MULTILINE)) \
                if "/manual/" in path else set()
            self.check(f"{name}: tools that are not installed", [
                tool for tool in tools - {"install", "dist"}
                if not os.path.exists(os.path.join(home, "tools", tool))], [])
        self.must("links", link_count > 40, link_count)

    def test_a_dead_link_becomes_its_text(self) -> None:
        text = remove_dead_links("![a](x.png) [`b`](y.md#z) [c](http://d) [e](f.md)", self.folder)
        self.check("text", text, "a `b` [c](http://d) e")

    def test_completes_commands_and_options(self) -> None:
        if not shutil.which("bash"):
            self.skipTest("completion, since there is no bash")

        def complete_words(*words: str) -> set[str]:
            process = self.call(["bash", "-c", COMPLETE, "bash",
                                 os.path.join(TOP, "tools", "completion.bash"), *words])
            return set(process.out.decode().split())

        paths = glob.glob(os.path.join(TOP, "docs", "manual", "*.md"))
        manual = "".join(read(path) or "" for path in paths)
        headings = re.findall(r"^##+ `(\w+) (.*)`$", manual, re.MULTILINE)
        self.check("commands", complete_words("subttx", ""), {name for name, _ in headings})
        for name, words in headings:
            options = set(re.findall(r"--[\w-]+", words))
            self.check(f"missing options of {name}",
                       options - complete_words("subttx", name, "-"), set())
        words = complete_words(get_tool_path("qc"), "-")
        self.must("qc", {"--batch", "--allow-lost", "--severity", "-o"} <= words, words)

    def test_manual_pages_and_change_log_have_the_version(self) -> None:
        version = (read(os.path.join(TOP, "VERSION")) or "none").strip()
        for name in PAGES:
            page = read(os.path.join(TOP, "docs", name)) or ""
            self.must(name, re.search(rf'^\.TH .*"subttx {re.escape(version)}"', page, re.M))
        log = re.search(r"^## (\S+), \d", read(os.path.join(TOP, "CHANGELOG.md")) or "", re.M)
        self.must("first dated heading of the change log", log and log[1] == version, log)

    def test_makes_a_reproducible_archive(self) -> None:
        proved = get_proof_file(self)
        process = self.tool("dist")
        path = self.path(process.out.decode().strip())
        self.check("status", process.status, 0)
        again = self.tool("dist", "new/folder").out.decode().strip()
        self.must("the same bytes in a new folder", self.read(again) == self.read(path))
        self.check("a file as folder", self.tool("dist", self.write("file", b"")), (2, b"", [
            f"dist: {self.path('file')} is not a folder"]))
        with tarfile.open(path) as archive:
            archive.extractall(self.folder)
            folder = self.path(archive.getnames()[0])
            self.check("user, group, time", {(item.uid, item.uname, item.gname, item.mtime)
                                             for item in archive}, {(0, "root", "root", 946684800)})
        for name, sums in (folder, "SHA256SUMS"), (self.folder, f"{path}.sha256"):
            process = self.call(["sha256sum", "--quiet", "-c", sums], folder=name)
            self.check(f"checksums in {sums}", process, (0, b"", []))
        version = read(os.path.join(TOP, "VERSION")) or ""
        self.check("name, version, contents", (os.path.basename(path), read(f"{folder}/VERSION"), {
            *os.listdir(folder)}), (
                f"subttx-{version.strip()}-{os.uname().machine}-linux.tar.gz", version,
                {"PROVED", "SHA256SUMS", "VERSION", "bin", "lib", "share"}))
        names = re.findall(r"  (.+)", read(os.path.join(folder, "SHA256SUMS")) or "")
        paths = {os.path.join(place, name) for place, _, files in os.walk(folder) for name in files}
        self.check("files in the archive without a sum", {
            os.path.relpath(item, folder) for item in paths if not os.path.islink(item)}
            - {*names}, {"SHA256SUMS"})
        names = re.findall(r"  (.+)", read(f"{path}.sha256") or "")
        self.check("files with a sum beside the archive", names,
                   [os.path.basename(path), os.path.basename(f"{path}.PROVED")])
        for name in os.path.join(folder, "PROVED"), f"{path}.PROVED":
            self.check(f"{name}: proof", read(name), read(proved))
        check_installation(self, folder)

    def test_makes_a_reproducible_debian_package(self) -> None:
        proved = get_proof_file(self)
        if not shutil.which("dpkg-deb"):
            self.skipTest("dev/dist --deb, since there is no dpkg-deb")
        process = self.tool("dist", "--deb")
        path = self.path(process.out.decode().strip())
        before = self.read(path)
        os.remove(path)
        again = self.tool("dist", "--deb")
        self.must("the same bytes again", (process.status, again.status) == (0, 0)
                  and self.read(path) == before, again)
        self.check("unpacked", self.call(["dpkg-deb", "-x", path, "empty"]).status, 0)
        folder = self.path("empty/usr/share/doc/subttx")
        self.must("manual", os.path.isfile(os.path.join(folder, "docs", "manual", "qc.md")))
        self.check("proof", read(os.path.join(folder, "PROVED")), read(proved))
        self.call(["dpkg-deb", "-e", path, "control"])
        self.check("checksums", self.call(["md5sum", "--quiet", "-c", self.path("control/md5sums")],
                                          folder="empty"), (0, b"", []))
        size = sum(os.path.getsize(self.path(f"empty/{name}")) for name in re.findall(
            r"  (.+)", self.read("control/md5sums").decode())) // 1024 + 1
        expected = read(os.path.join(TOP, "dev", "vectors", "debian-package.txt")) or ""
        expected = expected.replace("MAINTAINER", find_maintainer()).replace("SIZE", f"{size}")
        self.check("control file, scripts", "".join(self.read(f"control/{name}").decode()
                   for name in ("control", "postinst", "prerm", "postrm")), expected.replace(
                       "VERSION", (read(os.path.join(TOP, "VERSION")) or "").strip()))
        shared = "/usr/lib/subttx/tools/subtitles"
        # The scripts must not change users and services of this machine.
        os.mkdir(self.path("harmless"))
        for command in ("systemd-sysusers", "systemctl"):
            os.chmod(self.write(f"harmless/{command}", b"#!/bin/sh\n"), 0o755)
        env = os.environ | {"PYTHONPYCACHEPREFIX": "", "PATH": os.pathsep.join([
            self.path("harmless"), os.environ["PATH"]])}
        for name, is_installed in (("postinst", True), ("prerm", False)):
            script = self.read(f"control/{name}").decode().replace(shared, f"empty{shared}")
            process = self.call(["sh", "-c", script], env=env)
            self.check(f"{name}: status, compiled", (
                process.status, is_compiled(self.path(f"empty{shared}"))), (0, is_installed))
            if is_installed:
                check_installation(self, self.path("empty/usr"))
        if shutil.which("lintian"):
            process = self.call(["lintian", "--allow-root", "--fail-on", "error", path])
            self.check("lintian", process.status, 0)
        else:
            self.bench.over.append("the package by lintian, which is not there")


HOSTILE_NAMES = [b"\xff\xfe", b"caf\xe9", "caf\u00e9".encode(), b"-o", b"--help", b"=1+2",
                 b"\x1b[31mred", b"two\nlines", b"tab\there", b" leading", b"trailing ", b"a  b",
                 b"$(date)", b"`date`",
                 b"*", b"?", b"[a]", b"a;b", b"a|b&c", b"#one", b"100%", b"back\\slash", b"it's\"",
                 b"<b>&amp;", b"+s", "it's \\ \u202e".encode()]


def write_pairs(case: Case, folder: str, count: int) -> None:
    """Write `count` pairs to a new folder; the second pair is refused, the others are relative."""
    os.mkdir(case.path(folder))
    for number in range(1, count + 1):
        case.write(f"{folder}/{number}.stl", read_example_file("hello.stl"))
        case.write(f"{folder}/{number}.pes",
                   read_example_file("no-erase.pes" if number == 2 else "hello.pes"))


def make_blocking_program(case: Case, count: int) -> str:
    """Write a script that runs the program under test. Return its path.

    After `count` pairs, the script waits until a file exists before it judges the next pair. Runs
    with `--keeping` are not counted.
    """
    case.write("checked", b"")
    script = ("#!/bin/sh\n"
              "case $* in *--keeping*) ;; check*--pes*--all*) echo one >>'{0}'\n"
              "    while [ $(wc -l <'{0}') -gt {1} ] && [ ! -e '{2}' ]; do sleep 0.02; done ;;\n"
              "esac\n"
              "exec '{3}' \"$@\"\n").format(case.path("checked"), count, case.path("goes on"),
                                            case.bench.program)
    return case.write_program("program", script)


def read_results_in(case: Case, folder: str) -> dict[str, Any]:
    return {name: json.loads(case.read(f"{folder}/{name}"))
            for name in os.listdir(case.path(folder))
            if name.endswith(".json") and not name.startswith(".")}


class StoppedCalls(Case):
    """Batches of a folder and watched folders (--watch), of which a signal stops some."""

    def test_resumes_after_a_kill(self) -> None:
        """qc is killed while it judges the second of four pairs, whose process goes on."""
        write_pairs(self, "in", 4)
        program = make_blocking_program(self, 1)
        words = [get_tool_path("qc"), "--batch", "in", "-o", "out", "--jobs", "1", "-p", program]
        with subprocess.Popen(words, cwd=self.folder, stdout=subprocess.DEVNULL,
                              stderr=subprocess.DEVNULL) as process:
            self.must("the second pair begins", wait_until(
                lambda: self.read("checked").count(b"\n") == 2
                and len(read_results_in(self, "out")) == 1))
            process.kill()
        self.write("goes on", b"")
        self.must("both are judged", wait_until(lambda: len(read_results_in(self, "out")) == 2))
        for count in (2, 0):
            self.write("checked", b"")
            result = self.tool("qc", "--batch", "in", "-o", "out", "--resume", "-p", program)
            self.check("pairs judged by --resume", self.read("checked").count(b"\n"), count)
            self.check("status, counts", (result.status, result.out.decode().splitlines()[-1]),
                       (1, "4 pairs: 3 relative, 1 refused"))

    def test_a_stopped_batch_writes_the_results_before_the_signal(self) -> None:
        """The signal arrives while the third of six pairs is judged."""
        write_pairs(self, "in", 6)
        for number in (signal.SIGINT, signal.SIGTERM, signal.SIGHUP):
            name, out, program = number.name, f"out.{number.name}", make_blocking_program(self, 2)
            words = [get_tool_path("qc"), "--batch", "in", "-o", out, "--jobs", "1", "-p", program,
                     "--json", "all.json"]
            with subprocess.Popen(words, cwd=self.folder, stdout=subprocess.PIPE,
                                  stderr=subprocess.PIPE) as process:
                self.must(f"{name}: the third pair begins", wait_until(
                    lambda: self.read("checked").count(b"\n") == 3
                    and len(read_results_in(self, out)) == 2))
                process.send_signal(number)
                lines, errors = (text.decode().splitlines() for text in process.communicate())
            result = json.loads(self.read("all.json"))
            self.check(f"{name}: statuses, pairs", (
                process.returncode, result["status"], len(result["pairs"])), (2, 2, 2))
            self.check(f"{name}: message", errors, [
                "qc: stopped when 2 of 6 pairs were judged; --resume judges the others"])
            self.must(f"{name}: table", len(lines) == 4 and lines[-1].startswith("2 pair"), lines)
            self.check(f"{name}: links of the index", self.read(f"{out}/index.html").count(
                b'.html">'), 2)

    def test_a_batch_judges_hostile_names(self) -> None:
        os.mkdir(self.path("in"))
        for name in HOSTILE_NAMES:
            for ending, data in ((b".stl", "hello.stl"), (b".pes", "hello.pes")):
                path = os.path.join(os.fsencode(self.path("in")), name + ending)
                with open(path, "wb") as file:
                    file.write(read_example_file(data))
        process = qc(self, "--batch", "in", "-o", "out", "--csv", "all.csv", "--junit", "all.xml")
        lines, count = process.out.decode().splitlines(), len(HOSTILE_NAMES)
        self.check("status, counts", (process.status, lines[-1]),
                   (3, f"{count} pairs: {count} relative"))
        self.check("lines: heads, pairs, counts", len(lines), 1 + count + 1)
        self.must("control characters are escaped", not re.search(
            "[\x00-\x09\x0b-\x1f\x7f\x9b\u202e]", process.out.decode()), process.out)
        self.check("results", len(read_results_in(self, "out")), count)
        page = self.read("out/index.html").decode()
        links = [unquote(link) for link in re.findall(r'href="\./([^"]+)"', page)]
        self.must("links", len(links) == 3 * count and all(
            os.path.exists(self.path(f"out/{link}")) for link in links), links)
        self.must("markup in a name is escaped", "<b>" not in page, page)
        self.must("the CSV file is UTF-8", self.read("all.csv").decode())
        self.check("JUnit cases", len(tree.fromstring(self.read("all.xml"))[0]), count)

    def test_a_pair_has_a_result_only_if_its_verdict_precedes_the_signal(self) -> None:
        """With --watch. The signal arrives during the check, or after the verdict was printed."""
        os.mkdir(self.path("in"))
        for name in ("one.stl", "one.pes"):
            self.write(f"in/{name}", read_example_file(name.replace("one", "hello")))
        self.write("in/one.done", b"")
        slow = self.make_program_with_exception("*check*",
                                                f"touch '{self.path('begun')}'; exec sleep "
                                                f"{SECONDS}")
        for program, name, text in ((slow, "begun", b""),
                                    (self.bench.program, "printed", b"relative")):
            words = [get_tool_path("qc"), "--watch", "in", "-o", "out", "-p", program]
            with open(self.path("printed"), "wb") as printed, \
                    subprocess.Popen(words, cwd=self.folder, stdout=printed) as process:
                self.must(name, wait_until(lambda: os.path.exists(self.path(name))
                                           and text in self.read(name)))
                process.send_signal(signal.SIGTERM)
                self.check(f"{name}: status", process.wait(SECONDS), 2)
            self.check(f"{name}: verdicts", [result["verdict"] for result in read_results_in(
                self, "out").values() if "verdict" in result], ["relative"] * (program != slow))
