"""Test qc with untrusted lists and results, inputs as outputs, missing resources and early signals.
"""
from __future__ import annotations

import html
import itertools
import json
import os
import random
import re
import signal
import subprocess
import sys
import time
from xml.etree import ElementTree as tree

from developing.looks import find_browser
from subtitles.cli.collection import make_index_page
from subtitles.common.markup import POLICY
from subtitles.results.files import Row
from .bench import Case, CompletedCall, get_example_path, get_tool_path, read_example_file
from .transmissions import write_pipe

TAGS = {"html", "head", "meta", "title", "style", "body", "h1", "p", "small", "table", "thead",
        "tbody", "tr", "th", "td", "br", "a", "main", "caption", "fieldset", "legend", "label",
        "input", "span", "b"}
ATTRIBUTES = {"lang", "charset", "http-equiv", "content", "name", "class", "href", "scope", "type",
              "value", "checked"}
# An HTML page that loads other pages in frames, and then lists their contents.
HTML_AROUND = """<!DOCTYPE html><html><body><script>
addEventListener("load", () => setTimeout(() => {{
  document.getElementById("told").textContent = JSON.stringify(
    [...document.querySelectorAll("iframe")].map(
      one => one.contentDocument.documentElement.outerHTML));
}}, 500));
</script>{frames}<pre id="told"></pre></body></html>
"""
# Milliseconds from the start of qc to a signal. With --speed, ALL_STARTS is used for each signal.
SIGNAL_TIMES = {signal.SIGINT: range(0, 101, 10), signal.SIGTERM: range(0, 401, 80),
          signal.SIGHUP: range(40, 401, 80)}
ALL_STARTS = range(0, 401, 5)


class Inputs(Case):
    def test_never_overwrites_the_input_of_another_pair(self) -> None:
        os.mkdir(self.path("out"))
        for name in ("a.stl", "b.stl", "c.stl", "b.pes", "out/b.json"):
            self.write(name,
                       read_example_file("hello.stl" if name.endswith("stl") else "hello.pes"))
        self.write("list", b"a.stl out/b.json\nb.stl b.pes\na.stl b.pes --severity out/c.txt\n"
                   b"c.stl b.pes\n")
        self.write("out/c.txt", b"67 warning\n")
        before = {name: self.read(f"out/{name}") for name in os.listdir(self.path("out"))}
        process = self.call([get_tool_path("qc"), "--batch", "list", "-o", "out", "-p",
                             self.bench.program])
        table = process.out.decode()
        self.check("status", process.status, 2)
        self.must("counts", "4 pairs: 2 relative, 2 not judged" in table, table)
        for name in ("b.json", "c.txt"):
            self.must(f"the pair that would overwrite {name}", " not judged          "
                      f"out/{name} is also an input: give another name" in table, table)
        self.check("inputs", {name: self.read(f"out/{name}") for name in before}, before)
        self.check("files of the relative pairs", {*os.listdir(self.path("out"))}, {
            *before, "index.html", *(f"{name}.{ending}" for name in ("a", "a~2")
                                     for ending in ("html", "json", "txt"))})


class ListLines(Case):
    """Batches of a list with `--batch`, while standard input is a pipe."""

    def judge(self, list_name: str) -> CompletedCall:
        return self.call([get_tool_path("qc"), "--batch", list_name, "-p", self.bench.program],
                         data=b"--page 888\n")

    def test_an_invalid_line_affects_no_other_line(self) -> None:
        """Line 1 has options of `rows`, which are refused. Line 2 has none of them: it is accepted.
        """
        self.write("secret", b"root:*:20228:0:99999:7:::\n")
        self.write("marked", b"\xef\xbb\xbf--page 888\n")
        self.write("long", b"#" * 65_537)
        pair = f"{get_example_path('hello.stl')} {get_example_path('hello.pes')} --origin 0"
        pipe = write_pipe(self, b"--page 888\n")
        rows = {
            f"--profile {pipe}": f"{pipe} is a pipe: give a file",
            "--profile /dev/stdin": "/dev/stdin is a pipe: give a file",
            f"--severity {pipe}": f"{pipe} is a pipe: give a file",
            "--profile secret": "secret, line 1: its first word is not allowed in a profile: ",
            "--profile marked": "marked begins with a byte order mark (BOM): save it as UTF-8",
            "--severity marked": "marked begins with a byte order mark (BOM): save it as UTF-8",
            "--profile long": "long has more than 65,536 bytes",
            "--severity long": "long has more than 65,536 bytes",
            "--severity 'a\0b'": "a word has a NUL character",
            f"{'--within 2 ' * 127}": "it has more than 256 words"}
        for words, reason in rows.items():
            self.write("list", f"{pair} {words}\n{pair}\n".encode())
            process = self.judge("list")
            table = process.out.decode().splitlines()
            # Invalid words of a line are a usage error (64). A file that they name is not (2).
            names_file = words.startswith(("--profile", "--severity")) and "\0" not in words
            self.check(f"{words[:40]}: status", process.status, 2 if names_file else 64)
            self.must(f"{words[:40]}: line 1", reason in table[1], table)
            self.must(f"{words[:40]}: secret", "root" not in table[1], table)
            self.must(f"{words[:40]}: line 2", "accepted" in table[2], table)

    def test_refuses_a_list_with_a_byte_order_mark(self) -> None:
        pair = f"{get_example_path('hello.stl')} {get_example_path('hello.pes')}\n"
        for name in ("utf-8-sig", "utf-16-le", "utf-16-be"):
            self.write("list", "\ufeff".encode(name.removesuffix("-sig")) + pair.encode())
            self.check(name, self.judge("list"), (2, b"", [
                "qc: list begins with a byte order mark (BOM): save it as UTF-8 without one"]))

    def test_refuses_a_device_without_waiting(self) -> None:
        stl = get_example_path("hello.stl")
        for words, device in (
                ([stl, "/dev/zero"], "/dev/zero"), ([stl, "-"], "-"),
                (["--measure", stl, "/dev/zero"], "/dev/zero")):
            process = self.call(["sh", "-c", 'exec "$0" "$@" </dev/zero', get_tool_path("qc"),
                                 *words, "-p", self.bench.program])
            self.check(f"{words}", process, (2, b"", [
                f"qc: {device} is a device: give a file or a pipe"]))


class MissingResources(Case):
    """Runs of qc without standard error or with little memory."""

    def test_status_and_output_do_not_depend_on_standard_error(self) -> None:
        """Standard error is closed or full: only its own lines are missing."""
        pair = [get_example_path("story.stl"), get_example_path("story.pes")]
        wrong = [pair[0], get_example_path("five-faults.pes")]
        rows = {"an accepted pair": ([*pair, "--origin", "0"], 0), "a relative pair": (pair, 3),
                "an accepted pair with -o": ([*pair, "--origin", "0", "-o", "out"], 0),
                "a valid subtitle file": ([pair[0], "--file-only"], 0),
                "a refused pair": (wrong, 1), "no recording": (["none.stl"], 64),
                "missing files": (["none.stl", "none.ts"], 2),
                "a page that is not sent": ([*pair, "--page", "150"], 2)}
        for (name, (words, status)), ending in itertools.product(
                rows.items(), ["2>&-", *["2>/dev/full"] * os.path.exists("/dev/full")]):
            known = self.call(["sh", "-c", 'exec "$0" "$@"', get_tool_path("qc"), *words, "-p",
                               self.bench.program])
            process = self.call(["sh", "-c", f'exec "$0" "$@" {ending}',
                                 get_tool_path("qc"), *words, "-p", self.bench.program])
            self.check(f"{name} {ending}", process, known._replace(status=status, errors=[]))

    def test_accepts_or_reports_too_little_memory(self) -> None:
        """The process may use 20 to 60 MB. An example is accepted, or qc says why not."""
        pair = [get_example_path("story.stl"), get_example_path("story.pes"), "--origin", "0",
                "-o", "out"]
        statuses = set()
        for size in range(20_000, 64_000, 4_000):
            process = self.call(["sh", "-c", f'ulimit -v {size}; exec "$0" "$@"', sys.executable,
                                 get_tool_path("qc"), *pair, "-p", self.bench.program])
            lines = process.out.splitlines()
            is_accepted = bool(lines) and lines[-1].startswith(b"accepted")
            self.check(f"{size} kB: status", process.status, 0 if is_accepted else 2)
            statuses.add(process.status)
            # Python 3.13 prints the traceback of an exception that it ignores.
            is_ignored = any(line.startswith("Exception ignored") for line in process.errors)
            self.must(f"{size} kB: a message", is_accepted or process.errors and not any(
                "internal error:" in line or "Traceback" in line and not is_ignored
                for line in process.errors), process)
        self.check("too little and enough", statuses, {0, 2})


class UntrustedResults(Case):
    """Index pages (index.html) whose rows consist of HTML fragments, chosen at random."""

    HTML_FRAGMENTS = ["<script>document.title='run'</script>",
                      "<img src='http://127.0.0.1:9/x' onerror='document.title=1'>",
                      '"><svg onload="document.title=1">', "</title>", "&lt;", "a b",
                      "javascript:1", "{}", "\x1b[31m", "\u202e", "</style><b>", "<!--", "]]>",
                      "'", "\n"]

    def write_index(self, seed: int) -> str:
        chance = random.Random(seed)

        def text() -> str:
            return "".join(chance.choice(self.HTML_FRAGMENTS)
                           for _ in range(chance.randrange(1, 5)))

        rows = [Row(text(), text(), chance.choice(["accepted", "refused", "not judged", text()]),
                    chance.randrange(3), text(), chance.randrange(9), {text(): 1, text(): 2},
                    [text()], 0.5, text(), text()) for _ in range(chance.randrange(1, 9))]
        return self.write(f"{seed}.html", make_index_page(self.folder, rows, text()))

    def test_an_index_has_only_tags_and_attributes_of_qc(self) -> None:
        for seed in range(200):
            with open(self.write_index(seed), encoding="utf-8") as file:
                root = tree.fromstring(re.sub("&(times|hellip);", "", file.read()))
            for item in root.iter():
                self.assertIn(item.tag.rpartition("}")[2], TAGS, item)
                self.assertLessEqual(item.attrib.keys(), ATTRIBUTES, item)

    def test_an_index_has_the_content_security_policy(self) -> None:
        self.write_index(0)
        self.assertIn(POLICY, self.read("0.html").decode().replace("&#x27;", "'"))

    def test_an_index_runs_no_script_in_a_browser(self) -> None:
        """The page wrong.html has a script, so that a script that runs would be detected."""
        command = find_browser()
        if command is None:
            self.skipTest("30 pages in a browser, since there is none")
        self.write("wrong.html", b"<title>a</title><table></table><script>document.title = 'run';"
                   b" console.log('run')</script>")
        names = [*(os.path.basename(self.write_index(seed)) for seed in range(30)), "wrong.html"]
        all_of_them = self.write("all.html", HTML_AROUND.format(frames="".join(
            f'<iframe src="{name}"></iframe>' for name in names)).encode())
        profile = self.path("profile")
        process = self.call([command, "--headless", "--no-sandbox", "--disable-gpu",
                             "--allow-file-access-from-files", f"--user-data-dir={profile}",
                             "--enable-logging=stderr", "--virtual-time-budget=10000", "--dump-dom",
                             f"file://{all_of_them}"])
        reported = re.search('<pre id="told">(.*)</pre>', process.out.decode(), re.S)
        texts = json.loads(html.unescape(reported[1])) if reported else []
        self.check("pages loaded", len(texts), len(names))
        for name, text in zip(names, texts):
            is_wrong = name == "wrong.html"
            logged = any("CONSOLE" in line and f"/{name} " in line for line in process.errors)
            self.must(f"{name}: has a table", "<table" in text, text)
            self.check(f"{name}: a script logged, and changed the title",
                       (logged, "<title>run" in text), (is_wrong, is_wrong))


class EarlySignals(Case):
    def test_a_signal_gives_status_2_or_that_of_the_verdict(self) -> None:
        """Status 2, or 0 after the line `accepted`, or a death by the signal before any output."""
        for number, times in SIGNAL_TIMES.items():
            for after in ALL_STARTS if self.bench.is_timed else times:
                with subprocess.Popen(
                        [get_tool_path("qc"), get_example_path("story.stl"),
                         get_example_path("story.pes"), "--origin", "0", "-p", self.bench.program],
                        stdin=subprocess.DEVNULL, stdout=subprocess.PIPE,
                        stderr=subprocess.PIPE) as process:
                    time.sleep(after / 1000)
                    process.send_signal(number)
                    out, errors = process.communicate()
                last = out.decode().splitlines()[-1:]
                is_verdict = bool(last) and last[0].startswith("accepted")
                is_right = process.returncode == 2 and not is_verdict or \
                    process.returncode == 0 and is_verdict or \
                    process.returncode == -number and not out
                self.must(f"{number.name} after {after}",
                          is_right and b"Traceback" not in errors and
                          len(errors.splitlines()) <= 3, (process.returncode, out, errors))
