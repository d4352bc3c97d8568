"""Test properties of recordings on random streams.

Without losses, all PES packets are recovered. With losses, each recovered PES packet was sent, and
a gap marker replaces missing packets. The PES packets from the start of a stream are a prefix of
the PES packets from the complete stream.
"""
from __future__ import annotations

from random import Random

from .recordings import SIZES, read_stream
from .streams import Unit, multiplex, make_random_stream, join_units, drop_random_units


def make_random_packets(rng: Random) -> list[bytes]:
    """Return PES packets with random lengths and contents. Some of them are equal."""
    result: list[bytes] = []
    for _ in range(rng.choice([0, 1, 2, 3, 5, 9])):
        length = 184 * rng.choice([1, 1, 1, 2, 3, 9])
        head = b"\0\0\1\xbd" + (length - 6).to_bytes(2, "big")
        again = rng.random() < 0.2 and result
        fill = bytes([rng.choice([0, 0x47, 0xFF])]) if rng.random() < 0.3 else b""
        result.append(result[-1] if again else head + (
            fill * (length - 6) if fill else rng.randbytes(length - 6)))
    return result


def choose_pid(rng: Random) -> int:
    return rng.choice([0x101, 0x1FFE, rng.randrange(0x1FFF)])


def check_multiplex_law(seed: int) -> str | None:
    """Return a message if not all multiplexed PES packets are recovered, else `None`."""
    rng = Random(seed)
    packets, pid, size = make_random_packets(rng), choose_pid(rng), rng.choice(SIZES)
    units = multiplex(rng, packets, pid, rng.random() < 0.5)
    stream = read_stream(join_units(rng, units, size), pid, size)
    return None if stream.pieces == packets and not any(stream.marks) and stream.end_fault is None \
        else f"{len(packets)} PES packets were sent, {len(stream.pieces)} pieces came back"


def is_recovered(units: list[Unit], sent: list[Unit], pes: int) -> bool:
    """Return whether each TS packet of a PES packet, or a duplicate of it, arrived intact."""
    numbers = {item.number for item in sent if item.pes == pes and item.number is not None}
    positions = [at for at, item in enumerate(units)
                 if item.pes == pes and item.number is not None and not item.is_wrong]
    if {units[at].number for at in positions} != numbers:
        return False
    first = {units[at].number: at for at in reversed(positions)}  # first copy of each TS packet
    return not any(item.is_wrong and item.pes is not None
                   for item in units[min(first.values()):max(first.values())])


def has_fault_between(units: list[Unit], item: int, other: int) -> bool:
    """Return whether a faulty TS packet of the PID lies between the starts of two PES packets."""
    places = [next(at for at, unit in enumerate(units)
                   if unit.pes == pes and unit.number is not None and not unit.is_wrong)
              for pes in (item, other)]
    return any(unit.is_wrong and unit.pes is not None for unit in units[places[0]:places[1]])


def check_loss_law(seed: int) -> str | None:
    """Return a message if lost TS packets are not reported correctly, else `None`."""
    rng = Random(seed)
    pid, size = choose_pid(rng), rng.choice(SIZES)
    packets = [packet[:6] + number.to_bytes(2, "big") + packet[8:]  # make all packets different
               for number, packet in enumerate(make_random_packets(rng))]
    sent = multiplex(rng, packets, pid, False)
    units = drop_random_units(rng, sent)
    stream = read_stream(join_units(rng, units, size), pid, size)
    if stream.end_fault is not None:
        return f"{stream.end_fault} is told"
    return find_packet_fault(packets, units, sent, stream.pieces, stream.marks)


def find_packet_fault(packets: list[bytes], units: list[Unit], sent: list[Unit],
                      pieces: list[bytes], marks: list[bool]) -> str | None:
    """Return a message if the recovered PES packets and gap markers are wrong, else `None`."""
    before: int | None = None
    is_marked = False
    received_packets: list[int] = []
    for piece, is_gap_marker in zip(pieces, marks):
        if is_gap_marker:
            if is_marked or before is None:
                return "a mark before all, or two of them"
            is_marked = True
            continue
        if piece not in packets:
            return "a PES packet that was not sent"
        pes = packets.index(piece)
        if before is not None and pes <= before:
            return "another order"
        if before is not None and is_marked != (
                pes > before + 1 or has_fault_between(units, before, pes)):
            return f"between {before} and {pes} " + ("a mark" if is_marked else "no mark")
        before, is_marked = pes, False
        received_packets.append(pes)
    left_out = [pes for pes in range(len(packets))
                if pes not in received_packets and is_recovered(units, sent, pes)]
    return f"{left_out} are there and not given" if left_out else None


def check_prefix_law(seed: int) -> str | None:
    """Return a message if a stream's prefix has PES packets that the stream lacks, else `None`."""
    rng = Random(seed)
    packets, pid, size = make_random_packets(rng), choose_pid(rng), rng.choice(SIZES)
    data = make_random_stream(rng, packets, pid, size)
    whole, part = (read_stream(item, pid, size) for item in
                   (data, data[:rng.randrange(len(data) + 1)]))
    if part.end_fault is not None:
        return None if part == whole else "what follows changes what has ended"
    is_prefix = whole.pieces[:len(part.pieces)] == part.pieces \
        and whole.marks[:len(part.marks)] == part.marks
    return None if is_prefix else "what follows changes what was given"


LAW_CHECKS = {"multiplexed": check_multiplex_law, "with losses": check_loss_law,
              "prefix": check_prefix_law}
