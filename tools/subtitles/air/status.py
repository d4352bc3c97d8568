"""Print the state of a service for monitoring: a line with a status for Nagios, and metrics for
Prometheus."""
from __future__ import annotations

import json
import os
import time
from datetime import datetime
from typing import Any, Iterator

from ..common.command_line import format_error, print_stdout
from ..request.commands import STATE
from ..results.files import write_file

OK, WARNING, CRITICAL, UNKNOWN = range(4)  # statuses of Nagios and Icinga
WORDS = ("OK", "WARNING", "CRITICAL", "UNKNOWN")
ESCAPES = str.maketrans({"\\": r"\\", '"': r'\"', "\n": r"\n"})  # in the values of labels


def read_date(text: str | None) -> float | None:
    """Return the seconds since the epoch of a date in UTC, or `None` if there is none."""
    return datetime.strptime(f"{text}+0000", "%Y-%m-%dT%H:%M:%SZ%z").timestamp() if text else None


def check_state(state: dict[str, Any], age: float, max_age: float) -> tuple[int, str]:
    """Return the status and a text for the state."""
    alarms = [str(alarm) for alarm in state["alarms"]]
    status = CRITICAL if age > max_age or {*alarms} - {*state["warnings"]} else \
        WARNING if alarms else OK
    texts = [f"no news for {age:.0f} s"] * (age > max_age) + alarms or ["no alarm"]
    perf = {"age": f"{age:.0f}s", "waiting": state["waiting"], "late": len(state["late"]),
            **{f"free_{name}": f"{free}B" for name, free in state["free_bytes"].items()}}
    last = str(state["last_result"]).replace("|", "/").replace("\n", " ")
    return status, f"{', '.join(texts)}; last result: {last or 'none'}|" + " ".join(
        f"{name}={value}" for name, value in perf.items())


def make_metrics(state: dict[str, Any]) -> Iterator[tuple[str, dict[str, str], float]]:
    """Yield the name, the labels and the value of each metric of a state."""
    for name in ("date", "last_byte"):
        if seconds := read_date(state.get(name)):
            yield f"{name}_timestamp_seconds", {}, seconds
    for page, date in state.get("last_header", {}).items():
        yield "last_header_timestamp_seconds", {"page": page}, read_date(date) or 0.0
    for key, value in (("alarms", 1.0), ("inactive_alarms", 0.0)):
        for alarm in state.get(key, ()):
            yield "alarm", {"alarm": alarm}, value
    for folder, free in state["free_bytes"].items():
        yield "free_bytes", {"folder": folder}, free
    yield "waiting", {}, state["waiting"]
    yield "late", {}, len(state["late"])
    if "segments" in state:  # `qc --watch` has none
        yield "segments", {}, state["segments"]
    for verdict, count in state.get("verdicts", {}).items():
        yield "results_total", {"verdict": verdict}, count


def format_metrics(lines: list[tuple[str, dict[str, str], float]]) -> str:
    """Return the metrics in Prometheus's text format, with the lines of each metric together."""
    texts = dict[str, str]()
    for name, labels, value in lines:
        words = ",".join(f'{key}="{word.translate(ESCAPES)}"' for key, word in labels.items())
        kind = "counter" if name.endswith("_total") else "gauge"
        texts.setdefault(name, f"# TYPE subttx_air_{name} {kind}\n")
        texts[name] += f"subttx_air_{name}{{{words}}} {value:.15g}\n"
    return "".join(texts.values())


def name_feeds(outs: list[str]) -> list[str]:
    """Return a name for each folder, such as `news` for `news/results`. If two have the same name,
    return all paths, since Prometheus rejects a file with two lines about one metric."""
    paths = [os.path.abspath(out) for out in outs]
    names = [os.path.basename(path.removesuffix("/results")) for path in paths]
    return names if len({*names}) == len(names) else paths


def print_status(outs: list[str], max_age: float, metrics: str | None) -> int:
    """Print a line for each folder of results, and write the metrics. Return the worst status."""
    statuses, lines, now = [], list[tuple[str, dict[str, str], float]](), time.time()
    for out, name in zip(outs, name_feeds(outs)):
        path = os.path.join(out, STATE)
        try:
            with open(path, encoding="utf-8") as file:
                state = json.load(file)
            age = now - (read_date(state["date"]) or 0.0)
            status, text = check_state(state, age, max_age)
            lines += [(metric, {"feed": name, **labels}, value)
                      for metric, labels, value in make_metrics(state)]
        except OSError as reason:
            status, text = UNKNOWN, format_error(reason)
        except (ValueError, KeyError, TypeError, AttributeError):
            status, text = UNKNOWN, f"{path} is not a state file of this version"
        lines.append(("status", {"feed": name}, status))
        statuses.append(status)
        print_stdout(f"SUBTTX {WORDS[status]}: {name}: {text}")
    write_file(metrics, lambda: [format_metrics(lines).encode()])
    return next(status for status in (CRITICAL, UNKNOWN, WARNING, OK) if status in statuses)
