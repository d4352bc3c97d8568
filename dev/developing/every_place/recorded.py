"""Calls on transport streams and PES ranges, with manually derived output.

No test of the crates has these cases.
"""
from __future__ import annotations

from .calls import Answer, Call, KnownCall
from .known import HELLO, SENT, replace_bytes
from .recordings import GAP_MARKER

TIME, LATER = "10:00:00:00", "10:00:02:00"  # times of the two PES packets in SENT
ACCEPTED = "accepted 51 frames 2 transmissions"
LOST = "refused 45 Lost pes 1"
PID = "--pid 257"

FIRST_PACKET, SECOND_PACKET = SENT[:184], SENT[184:]
PACKET_0, PACKET_1 = b"\x47\x41\x01\x10" + FIRST_PACKET, b"\x47\x41\x01\x11" + SECOND_PACKET
NULL = b"\x47\x1f\xff\x10" + b"\xff" * 184
# A TS packet of the Teletext PID that has no payload and announces a counter jump.
JUMP_PACKET = b"\x47\x01\x01\x20\xb7\x80" + b"\0" * 182


def set_counter(packet: bytes, counter: int) -> bytes:
    """Return a copy of the TS packet with this continuity counter."""
    return replace_bytes(packet, {3: packet[3] & 0xF0 | counter})


def make_adaptation_packet(packet: bytes, payload: bytes, flags: int = 0) -> bytes:
    """Return the TS packet with an adaptation field and this payload."""
    length = 183 - len(payload)
    field = bytes([length, flags] + [0] * length)[:length + 1]
    return packet[:3] + bytes([packet[3] | 0x20]) + field + payload


def make_first_packet(counter: int, flags: int = 0) -> bytes:
    """Return a TS packet with the first half of the PES packet SECOND."""
    return make_adaptation_packet(set_counter(PACKET_1, counter), SECOND_PACKET[:100], flags)


def make_second_packet(counter: int) -> bytes:
    """Return a TS packet with the second half of the PES packet SECOND."""
    return replace_bytes(make_adaptation_packet(set_counter(PACKET_1, counter),
                                                SECOND_PACKET[100:]), {1: 0x01})


def expect_check(name: str, line: str, *units: bytes, arguments: str = PID) -> KnownCall:
    return KnownCall(Call(name, "check", (HELLO, b"".join(units)), arguments), Answer([line]))


def expect_extract(name: str, line: str, written: bytes, *units: bytes) -> KnownCall:
    return KnownCall(Call(name, "extract", (b"".join(units),), PID), Answer([line], written))


def expect_listen(name: str, recording: bytes, arguments: str, *lines: str) -> KnownCall:
    return KnownCall(Call(name, "listen", (recording,), arguments), Answer(list(lines)))


WRONG_X0 = replace_bytes(PACKET_0, {1: 0xC1})
WRONG_START_CODE = replace_bytes(PACKET_0, {7: 0xBE})  # wrong start code
PACKET_CASES = [
    expect_check("a repeat that announces no jump, though the first one does", ACCEPTED,
                 PACKET_0, make_first_packet(9, 0x80), make_first_packet(9),
                 make_second_packet(10)),
    expect_check("a packet again that announces a jump, as the first one does not", LOST,
                 PACKET_0, make_first_packet(1), make_first_packet(1, 0x80), make_second_packet(2)),
    expect_check("a wrong packet without a payload", LOST,
                 PACKET_0, bytes.fromhex("47 81 01 20 B7").ljust(188, b"\0"), PACKET_1),
    expect_check("a jump that a wrong packet announces", LOST, PACKET_0,
                 replace_bytes(JUMP_PACKET, {1: 0x81}), set_counter(PACKET_1, 9)),
    expect_extract("the end of a PES packet behind a jump", "written 1 pes 0 gaps", FIRST_PACKET,
            PACKET_0, JUMP_PACKET, replace_bytes(make_adaptation_packet(set_counter(PACKET_0, 9),
                                                                        FIRST_PACKET[100:]),
                                                 {1: 0x01})),
    expect_extract("several gaps in a row", "written 3 pes 1 gaps",
                   FIRST_PACKET + GAP_MARKER + SECOND_PACKET, PACKET_0, make_first_packet(2),
                   WRONG_X0, make_first_packet(7), make_first_packet(9), set_counter(PACKET_1, 12)),
    expect_extract("several gaps at the end", "written 2 pes 1 gaps", FIRST_PACKET + GAP_MARKER,
                   PACKET_0, make_first_packet(2), make_first_packet(7), WRONG_X0),
    expect_extract("another start code behind a PES packet", "refused 31 Start pes 1",
                   FIRST_PACKET + WRONG_START_CODE[4:], PACKET_0, set_counter(WRONG_START_CODE, 1),
                   PACKET_1),
    expect_extract("another start code, six bytes in three packets", "refused 31 Start pes 0",
                   WRONG_START_CODE[4:10],
                   *(replace_bytes(make_adaptation_packet(set_counter(PACKET_0, at),
                                                          WRONG_START_CODE[4 + at * 2:6 + at * 2]),
                                   {1: 1 if at else 0x41}) for at in range(5))),
    expect_check("16 bytes behind each but the last", ACCEPTED, PACKET_0, b"\xff" * 16, NULL,
                 b"\xff" * 16, PACKET_1, arguments=f"{PID} --packet-size 204"),
    *[expect_check(f"{count} bytes between, 204 from one to the next", line, PACKET_0,
                   bytes(16 + count), NULL, bytes(16), PACKET_1, bytes(16),
                   arguments=f"{PID} --packet-size 204")
      for count, line in ((15 * 204 - 20, ACCEPTED), (15 * 204, LOST))],
    expect_listen("a mark behind the time", PACKET_0 + set_counter(PACKET_1, 2),
                  f"{PID} --at {TIME}", LOST),
]

RANGES = [
    expect_check("both pieces, and bytes behind them", ACCEPTED, SENT, bytes(9),
                 arguments="--pes 0-1"),
    expect_check("all pieces, and bytes behind them", "refused 31 Start pes 2", SENT, bytes(9),
                 arguments="--pes 0-2"),
    expect_check("all pieces from the first on", ACCEPTED, SENT, arguments="--pes 0-"),
    expect_listen("the second piece", SENT, f"--pes 1- --at {LATER} --skip 0", "heard yes",
                  "open no", "blank"),
    expect_listen("a packet that is lost, counted from the range on", SENT * 2,
                  f"--pes 2-3 --at {TIME} --lose 1", "heard yes", "open no", "blank"),
    expect_listen("a header that is lost there", SENT * 2, f"--pes 1-1 --at {LATER} --lose 0",
                  f"refused 76 LostHeader frame {LATER} packet 0"),
    expect_listen("packets that are not heard, counted from the range on", SENT * 2,
                  f"--pes 2-3 --at {TIME} --skip 1", "heard no"),
]

FAILING_RECORDINGS = [
    KnownCall(Call("a stream that fails behind a range", "check",
                   (HELLO, PACKET_0 + NULL + PACKET_1), f"{PID} --pes 0-1", True),
              Answer([ACCEPTED])),
    KnownCall(Call("a stream that fails behind a gap", "extract",
                   (PACKET_0 + replace_bytes(PACKET_1, {1: 0xC1}),), PID,
                   True), Answer(["fault 41 Read pes 2"], FIRST_PACKET + GAP_MARKER)),
]

RECORDING_CASES = [*PACKET_CASES, *RANGES, *FAILING_RECORDINGS]
