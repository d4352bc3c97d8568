"""Run each command of dev/snapshots/, and compare its output with the stored output."""
from __future__ import annotations

from typing import Callable, Iterable

from .bench import Case
from .failures import Mismatch
from .named_calls import NAMED
from .snapshots import (
    describe_changes, format_named_snapshot, format_report_snapshot, write_stored)
from .test_report_pages import REPORTS


class Snapshots(Case):
    """Output that dev/snapshots/ stores: with --update it is stored again, not compared."""

    def compare(self, group: str, runs: Iterable[str], run: Callable[[str], list[str]]) -> None:
        texts = {name: run(name.partition(" ")[2]) for name in runs}
        if self.bench.is_updated:
            write_stored(group, texts)
        elif message := describe_changes(group, texts):
            raise Mismatch(message)

    def test_the_output_of_named_calls_of_qc_is_as_stored(self) -> None:
        self.compare("named", (f"named {name}" for name in NAMED), format_named_snapshot)

    def test_the_text_of_reports_is_as_stored(self) -> None:
        self.compare("reports", (f"report {name}" for name in REPORTS), format_report_snapshot)
