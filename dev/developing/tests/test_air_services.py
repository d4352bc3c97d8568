"""Test the systemd units in the manual: their folders, signals and restarts."""
from __future__ import annotations

import configparser
import glob
import os
import pathlib
import re
import shlex
import shutil
from typing import Callable

from subtitles.common.program import TOP
from .bench import EXAMPLES, Case, get_tool_path
from .booted import BootedSystem
from .programmes import wait_until

MANUAL = os.path.join(TOP, "docs", "manual")
RECORD_UNIT, JUDGE_UNIT = "subttx-air-record@.service", "subttx-air-judge@.service"
WATCH_UNIT = "subttx-watch@.service"
STATE = "/var/lib/"  # the folder of StateDirectory=
FEED, WATCHED_FOLDER = "/srv/feed.ts", "/srv/in"
COPIED_UNIT = "subttx-air-judge.service"  # a unit that the manual of version 3.0.0 had
# For each unit, the argument that precedes the folder to which its command writes.
UNITS = {RECORD_UNIT: "record", JUDGE_UNIT: "-o", WATCH_UNIT: "-o"}


def read_unit(name: str) -> configparser.ConfigParser:
    unit = configparser.ConfigParser(interpolation=None, strict=False)
    unit.optionxform = str  # type: ignore
    unit.read_string(pathlib.Path(MANUAL, name).read_text("utf-8").replace("\\\n", " "))
    return unit


def split_unit_command(unit: configparser.ConfigParser) -> list[str]:
    """Split the command of a unit into arguments; if it runs a shell, split the shell's command."""
    words = shlex.split(unit["Service"]["ExecStart"])
    return shlex.split(words[2]) if words[:2] == ["/bin/sh", "-c"] else words


def read_channel_settings() -> str:
    """Return the manual's example of a channel's settings."""
    return pathlib.Path(MANUAL, "subttx-channel.conf").read_text("utf-8")


class Units(Case):
    """The text and the installation of the units in the manual. systemd does not read them here."""

    def setUp(self) -> None:
        super().setUp()
        self.units = {name: read_unit(name) for name in os.listdir(MANUAL)
                      if name.endswith(".service")}

    def test_installed_units_call_the_installed_tools(self) -> None:
        prefix = self.path("opt")
        self.tool("install", "--systemd", "-p", self.bench.program, prefix)
        for name in UNITS:
            with open(os.path.join(prefix, "lib", "systemd", "system", name),
                      encoding="utf-8") as file:
                line = next(line for line in file if line.startswith("ExecStart="))
            command = "subttx-qc" if name == WATCH_UNIT else "subttx-air"
            self.check(name, re.findall(rf"([^ =]*){command} ", line), [f"{prefix}/bin/"])

    def test_removing_the_installed_tools_and_units_leaves_nothing(self) -> None:
        prefix = self.path("opt")
        self.tool("install", "--systemd", "-p", self.bench.program, prefix)
        self.check("status", self.tool("install", "--remove", prefix).status, 0)
        self.check("is there", os.path.exists(prefix), False)

    def test_installs_no_units_into_a_folder_with_a_space_and_removes_none_alone(self) -> None:
        for words in (["--systemd", self.path("a b")], ["--systemd", "--remove", self.path("a")]):
            self.check(f"{words}", self.tool("install", *words).status, 64)

    def test_each_unit_may_write_only_to_its_state_directory(self) -> None:
        for name, unit in self.units.items():
            service, words = unit["Service"], split_unit_command(unit)
            self.check(name, STATE + service["StateDirectory"], words[words.index(UNITS[name]) + 1])
            self.must(f"{name}: no other", "ReadWritePaths" not in service)
            self.check(f"{name}: all else", service["ProtectSystem"], "strict")

    def test_each_unit_requires_the_mount_of_its_state_directory(self) -> None:
        for name, unit in self.units.items():
            written = STATE + unit["Service"]["StateDirectory"]
            mounted = unit["Unit"]["RequiresMountsFor"].split()
            self.must(name, any(os.path.commonpath([written, folder]) == folder
                                for folder in mounted), mounted)

    def test_the_first_signal_of_a_stop_is_for_the_main_process_of_the_watch_unit(self) -> None:
        self.check("kill mode", self.units[WATCH_UNIT]["Service"]["KillMode"], "mixed")

    def test_only_judges_choose_the_national_option_automatically(self) -> None:
        lines = [line for line in read_channel_settings().splitlines() if "--option auto" in line]
        self.check("settings", [line.partition("=")[0] for line in lines], ["JUDGE", "WATCH"])

    def test_systemd_restarts_the_units_without_a_limit(self) -> None:
        for name, unit in self.units.items():
            self.check(name, unit["Service"]["Restart"], "always")
            self.check(f"{name}: limit", unit["Unit"]["StartLimitIntervalSec"], "0")
            self.must(f"{name}: wait", int(unit["Service"]["RestartSec"]) > 0)


class RunningUnits(Case):
    """The installed units, started by systemd in a namespace. The channel `one` records FEED, which
    is the example recording.ts, and watches WATCHED_FOLDER. The channel `wrong` has an unknown
    option for each unit."""

    def setUp(self) -> None:
        super().setUp()
        self.system = BootedSystem(self.folder)
        self.addCleanup(self.system.stop)
        text = re.sub("^RECEIVER=.*", f"RECEIVER=tail -c +1 -f {FEED}", read_channel_settings(),
                      flags=re.M)
        text = re.sub("^IN=.*", f"IN={WATCHED_FOLDER}", text, flags=re.M)
        os.mkdir(self.system.path("/etc/subttx"))
        os.mkdir(self.system.path(WATCHED_FOLDER))
        shutil.copy(os.path.join(EXAMPLES, "recording.ts"), self.system.path(FEED))
        self.put("/etc/subttx/one.conf", text.replace("NAME", "one"))
        self.put("/etc/subttx/wrong.conf", re.sub(
            "^(RECORD|JUDGE|WATCH)=.*", r"\g<0> --no-such-option", text, flags=re.M))
        self.put("/etc/subttx/one.schedule", "")

    def put(self, path: str, text: str) -> None:
        """Write a file in the booted system."""
        pathlib.Path(self.system.path(path)).write_text(text, "utf-8")

    def install(self) -> None:
        """Install the tools and units without a package, as the manual says."""
        self.system.call(get_tool_path("install"), "--systemd", "-p", self.bench.program,
                         "/usr/local")
        self.system.call("systemd-sysusers")
        self.system.call("systemctl", "daemon-reload")

    def start(self, unit: str, channel: str) -> str:
        """Start the unit of a channel. Return the name that systemd gives it."""
        name = unit.replace("@", f"@{channel}")
        self.system.call("systemctl", "start", name)
        return name

    def show(self, unit: str, *names: str) -> list[str]:
        """Return properties of a unit."""
        return [self.system.call("systemctl", "show", "--value", "-p", name, unit)
                for name in names]

    def has_failed(self, unit: str, restarts: int) -> bool:
        """Return whether systemd gave up a unit, or restarted it `restarts` times."""
        state, count = self.show(unit, "ActiveState", "NRestarts")
        return state == "failed" or int(count) >= restarts

    def put_pair(self) -> None:
        """Put the pair `film` into the watched folder."""
        for ending, source in (("stl", "story.stl"), ("ts", "recording.ts")):
            shutil.copy(os.path.join(EXAMPLES, source),
                        self.system.path(f"{WATCHED_FOLDER}/film.{ending}"))
        self.put(f"{WATCHED_FOLDER}/film.done", "")

    def read_files(self, pattern: str) -> bytes:
        """Return the contents of the files in the folder of the channel `one`."""
        return b"".join(pathlib.Path(path).read_bytes() for path in glob.glob(
            self.system.path(f"{STATE}subttx/one/{pattern}")))

    def test_each_unit_does_its_work_and_stops_without_failure(self) -> None:
        """The units run here, since `systemd-analyze verify` accepts one whose command is empty."""
        self.install()
        work: dict[str, Callable[[], object]] = {
            RECORD_UNIT: lambda: self.read_files("segments/*.ts"),
            JUDGE_UNIT: lambda: re.search(rb'"segments": [1-9]',
                                          self.read_files("results/state.json")),
            WATCH_UNIT: lambda: b'"verdict": "relative"' in self.read_files("results/film.json")}
        self.put_pair()
        for name, is_done in work.items():
            unit = self.start(name, "one")
            wait_until(lambda: is_done() or self.has_failed(unit, 3))
            self.must(f"{name}: its work", is_done(), self.show(
                unit, "ActiveState", "SubState", "Result", "ExecMainStatus"))
            self.system.call("systemctl", "stop", unit)
            self.check(f"{name}: stopped", self.show(unit, "ActiveState", "Result"),
                       ["inactive", "success"])

    def test_wrong_options_end_each_unit(self) -> None:
        self.install()
        for name in UNITS:
            unit = self.start(name, "wrong")
            wait_until(lambda: self.has_failed(unit, 3))
            self.check(f"{name}: state, status, restarts", self.show(
                unit, "ActiveState", "ExecMainStatus", "NRestarts"), ["failed", "64", "0"])

    def test_the_watch_unit_restarts_until_its_folder_is_there(self) -> None:
        self.install()
        settings = f"/etc/systemd/system/{WATCH_UNIT}.d"
        os.mkdir(self.system.path(settings))
        self.put(f"{settings}/test.conf", "[Service]\nRestartSec=100ms\n")
        self.system.call("systemctl", "daemon-reload")
        os.rmdir(self.system.path(WATCHED_FOLDER))
        unit = self.start(WATCH_UNIT, "one")
        self.must("ten restarts", wait_until(lambda: self.has_failed(unit, 10)))
        os.mkdir(self.system.path(WATCHED_FOLDER))
        self.put_pair()
        wait_until(lambda: self.read_files("results/film.json") or self.has_failed(unit, 99))
        self.must("result", self.read_files("results/film.json"))
        self.check("state", self.show(unit, "ActiveState", "Result"), ["active", "success"])

    def start_units_of_package(self) -> list[str]:
        """Install the Debian package, and start its units and a copied one. Return their names."""
        if not shutil.which("dpkg-deb"):
            self.skipTest("dev/dist --deb, since there is no dpkg-deb")
        shutil.copy(self.path(self.tool("dist", "--deb", "made").out.decode().strip()),
                    self.system.path("/srv/subttx.deb"))
        self.install_package()
        self.put(f"/etc/systemd/system/{COPIED_UNIT}", "[Service]\nExecStart=sleep infinity\n")
        self.system.call("systemctl", "daemon-reload")
        units = [*(name.replace("@", "@one") for name in UNITS), COPIED_UNIT]
        self.system.call("systemctl", "enable", "--now", *units)
        self.must("a segment", wait_until(lambda: self.read_files("segments/*.ts")))
        return units

    def install_package(self) -> None:
        self.system.call("dpkg", "--no-triggers", "--force-depends", "-i", "/srv/subttx.deb")

    def test_an_upgrade_restarts_all_units_but_the_recorder(self) -> None:
        recorder, *others = self.start_units_of_package()
        before = {unit: self.show(unit, "InvocationID") for unit in (recorder, *others)}
        self.install_package()
        self.check("restarted", [unit for unit, identifier in before.items() if self.show(
            unit, "InvocationID") != identifier], others)

    def test_a_purge_deletes_all_but_segments_and_results(self) -> None:
        units = self.start_units_of_package()
        files = [path for path in self.system.call("dpkg", "-L", "subttx").splitlines()
                 if not os.path.isdir(self.system.path(path))]
        for option, kept in (("-r", [True, True]), ("-P", [False, True])):
            self.system.call("dpkg", "--no-triggers", option, "subttx")
            self.check(f"dpkg {option}: settings, segments", [
                os.path.exists(self.system.path("/etc/subttx/one.conf")),
                bool(self.read_files("segments/*.ts"))], kept)
            self.check(f"dpkg {option}: running", [unit for unit in units if self.show(
                unit, "ActiveState") != ["inactive"]], [])
        left = [path for path in files if os.path.lexists(self.system.path(path))]
        links = glob.glob(self.system.path("/etc/systemd/system/*.wants/*@one.service"))
        self.check("files of the package, links", (len(files) > 99, left, links), (True, [], []))
