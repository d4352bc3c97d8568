"""Define the commands and input files of dev/faults."""
from __future__ import annotations

import os

from subtitles.common.command_line import Stop
from subtitles.common.program import TOP
from subtitles.formats.stl import GSI, NEW_LINE
from .pes import DATA, UNIT, find_starts
from .stl import make_box_line, make_tti_block
from .trial import Trial, read

SUBTITLES = 1700  # enough subtitles to fill each 64 KiB buffer three times
FLAGS = 6  # offset of the flags in a PES packet; the flags begin with the bits 10
HEADER = "1515d0d015d015d00215" + "20" * 32

# Commands, each with its status if no system call fails. The output file, if any, is the third
# argument.
COMMANDS = [
    ("packet", 0, ["packet", HEADER]),
    ("usage", 2, ["check", "../long.stl"]),
    ("show", 0, ["show", "../long.stl"]),
    ("show, refused", 1, ["show", "../bad.stl"]),
    ("normal", 0, ["normal", "../long.stl", "out.stl"]),
    ("normal, refused", 1, ["normal", "../bad.stl", "out.stl"]),
    ("schedule", 0, ["schedule", "../long.stl", "out.pes"]),
    ("schedule, refused", 1, ["schedule", "../bad.stl", "out.pes"]),
    ("packets", 0, ["packets", "../long.pes"]),
    ("packets, refused", 1, ["packets", "../cut.pes"]),
    ("check", 0, ["check", "../long.stl", "../long.pes"]),
    ("check, refused", 1, ["check", "../long.stl", "../cut.pes"]),
    ("check, refused at once", 1, ["check", "../bad.stl", "../long.pes"]),
    ("check --all", 0, ["check", "../long.stl", "../long.pes", "--all"]),
    ("check --all, refused", 1, ["check", "../long.stl", "../even.pes", "--all"]),
    ("check --all, unread", 1, ["check", "../long.stl", "../unread.pes", "--all"]),
    ("check --all, refused at once", 1, ["check", "../bad.stl", "../even.pes", "--all"]),
    ("listen", 0, ["listen", "../long.pes", "--at", "00:28:15:00"]),
    ("listen, refused", 1, ["listen", "../cut.pes", "--at", "00:30:00:00"]),
]


def make_subtitle(number: int) -> bytes:
    """Return a TTI block with two double-height lines, shown in second `number`."""
    lines = [make_box_line((b"%s line %5d " % (word, number)).ljust(34, b"x"))
             for word in (b"Upper", b"Lower")]
    return make_tti_block(number, 25 * number, 25 * number + 25, 20, 2,
                          (NEW_LINE * 2).join(lines))


def set_even_parity(sent: bytes) -> bytes:
    """Give each row in the transmission one byte with even parity.

    The last page transmission has no rows. Each earlier one has 368 bytes and two rows.
    """
    data = bytearray(sent)
    for begin in range(0, len(data) - 184, 368):
        for row in (1, 2):
            data[begin + DATA + UNIT * row + 24] ^= 1
    return bytes(data)


def make_unreadable(sent: bytes) -> bytes:
    """Make each PES packet in the transmission unreadable, alternately in two ways."""
    data = bytearray(sent)
    for number, begin in enumerate(find_starts(sent)[:-1]):
        data[begin + (DATA - 1 if number % 2 else FLAGS)] ^= 0x40
    return bytes(data)


def prepare(trial: Trial) -> None:
    """Write the input files, and run each command once without failing calls."""
    gsi = (read(os.path.join(TOP, "examples", "hello.stl")) or b"")[:GSI]
    blocks = [make_subtitle(number) for number in range(1, SUBTITLES + 1)]
    trial.add_input("long.stl", gsi + b"".join(blocks))
    blocks[-5] = blocks[-5][:4] + b"\1" + blocks[-5][5:]  # mark the subtitle as cumulative
    trial.add_input("bad.stl", gsi + b"".join(blocks))
    for name, status, program_args in COMMANDS:
        command = trial.commands[name] = trial.make_command(name, program_args)
        if command.status != status:
            raise Stop(f"{name} ends with {command.status} though nothing fails: "
                       f"{command.printed!r}")
        if name == "schedule":
            written = command.written or b""
            trial.add_input("long.pes", written)
            trial.add_input("cut.pes", written[:-100])
            trial.add_input("even.pes", set_even_parity(written))
            trial.add_input("unread.pes", make_unreadable(written))
