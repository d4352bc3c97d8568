"""Make random calls of `check`, `extract`, `packets` and `listen` on transport streams."""
from __future__ import annotations

import contextlib
import shlex
from random import Random

from subtitles.common.times import FRAMES_OF_A_DAY, format_frame
from .calls import ALL, Call
from .pairs import (
    Pair, Schedule, list_arguments, make_random_options, make_random_pair, make_random_subtitles,
    make_stl_file)
from .reading import split_packets, read_packet
from .recordings import SIZES
from .streams import make_random_stream
from .arguments import UsageFault, parse_options

MAX_PACKETS = 40  # maximum number of PES packets in a stream
MAX_BYTES = 65_535  # size of a stream that the program reads in one call
LISTEN_OPTIONS = ("--page", "--origin", "--within")  # options that `check` and `listen` share


def format_pid(rng: Random, pid: int) -> str:
    """Return the command-line argument for a PID. Occasionally return an invalid argument."""
    if rng.random() < 0.02:
        return rng.choice(["8191", "0x1FFF", "x", "", "0x", "257 ", "0X101"])
    return rng.choice([str(pid), f"{pid:010}", hex(pid), f"0x{pid:08X}"])


def make_range_options(rng: Random, count: int) -> list[str]:
    """Usually return no option, else --pes with a range, which is occasionally invalid."""
    way = rng.random()
    if way < 0.6:
        return []
    if way < 0.62:
        return ["--pes", rng.choice(["2-1", "1", "-", "x-", "00000000000-1"])]
    first = rng.choice([0, rng.randrange(count + 2)])
    last = rng.choice(["", str(first + rng.choice([0, 1, rng.randrange(count + 2)]))])
    return ["--pes", f"{first}-{last}"]


def make_recording_options(rng: Random, pid: int, size: int, count: int) -> list[str]:
    """Return the options for a recording, occasionally with a wrong PID or packet size."""
    requested_pid = pid ^ 1 if rng.random() < 0.03 else pid
    arguments = ["--pid", format_pid(rng, requested_pid)]
    if size != SIZES[0] or rng.random() < 0.2:
        wrong = rng.choice(["188", "204", "189", "", "0188"])
        arguments += ["--packet-size", wrong if rng.random() < 0.03 else str(size)]
    return arguments


def make_bit_flips(rng: Random, count: int) -> str:
    """Return a value for --flip: some bits to flip, at most one in a byte."""
    places = {(rng.randrange(count + 2), rng.choice([0, 5, 20, rng.randrange(42)]))
              for _ in range(rng.randrange(1, 9))}
    return ",".join(f"{packet}:{byte}:{rng.randrange(1, 9)}" for packet, byte in sorted(places))


def make_listen_options(rng: Random, arguments: list[str], packets: list[bytes]) -> list[str]:
    """Return options of `listen`: a time near a PES packet, flipped bits and lost packets."""
    frames = [0]
    with contextlib.suppress(UsageFault):
        options = parse_options(arguments)
        sendings = (read_packet(item, options.origin, options.within) for item in packets)
        frames += [item[0] for item in sendings if not isinstance(item, int)]
    frame = rng.choice(frames) + rng.choice([0, 0, 1, -1, 30])
    arguments = ["--at", format_frame(min(max(0, frame), FRAMES_OF_A_DAY - 1))]
    count = 3 * len(packets)
    if rng.random() < 0.3:
        arguments += ["--skip", str(rng.randrange(count + 2))]
    if rng.random() < 0.4:
        arguments += ["--flip", make_bit_flips(rng, count)]
    if rng.random() < 0.3:
        lost = {rng.randrange(count + 2) for _ in range(3)}
        arguments += ["--lose", ",".join(map(str, sorted(lost)))]
    if rng.random() < 0.6:
        arguments += ["--receiver", rng.choice(["blank", "keep", "drop", "anew"])]
    return arguments + ["--complete"] * (rng.random() < 0.3)


def make_accepted_pair(rng: Random, schedule: Schedule) -> Pair:
    """Return a subtitle file with a transmission that is accepted."""
    arguments = make_random_options(rng)
    stl = make_stl_file(rng, make_random_subtitles(rng, arguments["--option"]))
    return Pair(stl, schedule(stl, list_arguments(arguments)), list_arguments(arguments))


def make_random_calls(seed: int, schedule: Schedule,
                      has_keeping_headers: bool = False) -> list[Call]:
    """Return random calls on a stream with a random transmission that `schedule` makes."""
    rng = Random(f"recording {seed}")
    pair = make_accepted_pair(rng,
                              schedule) if rng.random() < 0.6 and not has_keeping_headers else \
        make_random_pair(seed, schedule, False, has_keeping_headers)
    packets = split_packets(pair.pes)[0][:MAX_PACKETS]
    pid, size = rng.choice([0x101, 0x1001, rng.randrange(0x1FFF)]), rng.choice(SIZES)
    stream = make_random_stream(rng, packets, pid, size)
    name, recording_options = f"recording {seed}", make_recording_options(rng, pid, size,
                                                                          len(packets))
    given = dict(zip(pair.options[::2], pair.options[1::2]))
    shared = [word for key in LISTEN_OPTIONS if key in given for word in (key, given[key])]
    pieces = make_range_options(rng, len(packets))
    is_failing = rng.random() < 0.2 and 0 < len(stream) < MAX_BYTES
    heard = make_listen_options(rng, pair.options, packets)

    def call(command: str, arguments: list[str], *files: bytes) -> Call:
        return Call(name, command, (*files, stream), shlex.join(arguments), is_failing)

    return [call("check", [*pair.options, *recording_options, *pieces, ALL], pair.stl),
            call("extract", recording_options), call("packets", [*recording_options, *pieces]),
            call("listen", [*shared, *recording_options, *pieces, *heard])]
