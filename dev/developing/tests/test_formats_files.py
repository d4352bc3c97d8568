"""Check times, codes and bits against the standards, and the limits of the parsers of files."""
from __future__ import annotations

import itertools
import shutil
import subprocess
import unittest
from typing import Callable, Tuple
from unittest import mock

from developing import pes
from developing.stl import encode_time_code, make_gsi_block, make_tti_block
from subtitles.common import times
from subtitles.common.command_line import Stop
from subtitles.common.files import DamagedFile
from subtitles.formats import listing, stl, teletext
from subtitles.formats.stl import read_titles, Subtitle, SubtitleFile, SubtitleList
from subtitles.formats.teletext import decode_text
from .bench import Case
from .stories import read_vectors
from .transmissions import CLOSING, HEADER, make_numbered_row

GSI = 1024


def refusal(call: Callable[[], object], error: type[Exception] = Stop) -> str:
    try:
        call()
    except error as reason:
        return str(reason) or "refused"
    return ""


class Blocks(unittest.TestCase):
    def block(self, number: int, ebn: int, comment: int = 0, group: int = 0) -> bytes:
        return make_tti_block(number, number, number + 1, 20, 2, b"%d" % number, ebn, comment,
                              group)

    def test_joins_blocks_into_subtitles(self) -> None:
        for row in read_vectors("tti-blocks.tsv"):
            blocks, words = [item.split("/") for item in row["blocks"].split()], row["message"]
            data = make_gsi_block(b"", 0, 0) + b"".join(self.block(
                int(number), int(ebn, 16), *map(int, others)) for number, ebn, *others in blocks)
            cut = f"block {len(blocks) + 1} is incomplete"
            # An incomplete block at the end is reported unless damage before it ends the reading.
            for rest, reason in ((b"", words), (b"x" * 127, words if words and
                                                "no last" not in words else cut)):
                result: list[stl.StoredSubtitle] = []
                message = refusal(lambda: result.extend(stl.read_stored_subtitles(data + rest)),
                                  DamagedFile)
                subtitles = " ".join(f"{item.number}/{item.text.decode()}" for item in result)
                self.assertEqual((subtitles, message), (row["subtitles"], reason),
                                 (row["name"], rest))

    def test_a_subtitle_has_the_times_and_the_place_of_its_first_block(self) -> None:
        [item] = stl.read_stored_subtitles(make_gsi_block(b"", 0, 0) + b"".join(
            make_tti_block(1, at, at + 2, 20 + at, at, b"x", ebn)
            for at, ebn in ((0, 0), (1, 255))))
        self.assertEqual((stl.get_subtitle_times(item), item.row, item.justify), ((0, 2), 20, 0))

    def test_decodes_only_subtitles_with_a_duration(self) -> None:
        data = make_gsi_block(b"", 0, 0) + b"".join(
            make_tti_block(at, 10 * at, 10 * at + lasts, 20, 2, b"x")
            for at, lasts in enumerate((5, 0, 1)))
        self.assertEqual([(item.index, item.begin, item.end) for item in stl.decode_subtitles(
            data)], [(1, 0, 5), (3, 20, 21)])

    def test_refuses_an_invalid_gsi_block(self) -> None:
        good = make_gsi_block(b"", 0, 0)
        for data, words in ((good, ""), (good[:-1], "not an EBU STL file"),
                            (b"", "not an EBU STL file"),
                            (good[:3] + b"STL24" + good[8:], "not an EBU STL file"),
                            (good[:3] + b"STL30" + good[8:], "it has 30 frames a second"),
                            (good[:3] + b"STL25.02" + good[11:], "")):
            message = refusal(lambda: list(stl.read_stored_subtitles(data)), DamagedFile)
            self.assertTrue(message.startswith(words) and bool(message) == bool(words), message)

    def test_reads_subtitles_before_damage(self) -> None:
        good = make_gsi_block(b"", 0, 0)
        # A file, how many subtitles are read from it (-1: it is refused), and whether qc reports
        # that it is damaged
        for data, count, is_told in ((good, 0, False), (good + self.block(1, 255), 1, False),
                                     (good + self.block(1, 255) + b"x", 1, True),
                                     (good + b"x", -1, False), (b"", -1, False)):
            result: list[stl.StoredSubtitle] = []
            reported: list[str] = []
            with mock.patch.object(stl, "print_stderr", reported.append):
                stopped = refusal(lambda: result.extend(stl.read_until_damage("damaged.stl", data)))
            has_message = any(line.startswith("damaged.stl: ") for line in reported)
            self.assertEqual((-1 if stopped else len(result), has_message), (count, is_told), data)

    def test_encodes_characters_without_spaces_and_codes(self) -> None:
        for text, option, cells in ((b"A b\x01\xc1!$\x23", "english", b"Ab!\x24\x5f"),
                                    (b" \x20!", "german", b"!")):
            self.assertEqual(stl.encode_page_characters(text, option), cells, text)


class Files(Case):
    def test_names_the_byte_and_character_at_a_place(self) -> None:
        for byte in {*range(256)} - {0x8F}:  # 8F ends the text of a block
            file = SubtitleFile(self.write("one.stl", make_gsi_block(b"", 1, 1) + make_tti_block(
                1, 25, 50, 20, 2, b"a" + bytes([byte]))))
            letter = None if byte < 0x20 or 0x7F <= byte < 0xA0 else decode_text(bytes([byte]))
            self.assertEqual(file.describe_byte(1, 1), (f"{byte:02X}", letter), byte)

    def test_reads_one_byte_more_than_check_accepts(self) -> None:
        # check accepts at most 99,999 blocks.
        most, path = GSI + 128 * 99_999 + 1, self.path("long.stl")
        for more in (-1, 0, 1):
            with open(path, "wb") as file:
                file.truncate(most + more)
            self.assertEqual(len(stl.read_stl(path)), most + min(more, 0), more)
        with subprocess.Popen(["cat", path], stdout=subprocess.PIPE) as run:
            assert run.stdout
            self.assertEqual(len(stl.read_stl(f"/dev/fd/{run.stdout.fileno()}")), most)
            run.stdout.close()


class Titles(Case):
    def test_reads_the_titles_of_the_gsi_block(self) -> None:
        def block(page: bytes, first: bytes, second: bytes) -> bytes:
            return (page + b"STL25.01" + b" " * 5 + first.ljust(32) + b"x" * 32
                    + second.ljust(32) + b"y" * 912)

        # The code page (850 if it is unknown), the original and the translated programme title, and
        # the titles without blanks
        of_titles: list[tuple[bytes, bytes, bytes, list[str]]] = [
                (b"850", b"One", b"Two", ["One", "Two"]), (b"850", b"One", b"One", ["One"]),
                (b"850", b"", b"Two", ["Two"]), (b"850", b" ", b"\0", []),
                (b"850", b"a\0b", b" c ", ["a b", "c"]), (b"850", b"o" * 32, b"t" * 32,
                                                          ["o" * 32, "t" * 32]),
                (b"850", b"\x94", b"\xd0", ["ö", "ð"]), (b"437", b"\xe1", b"\xd0", ["ß", "╨"]),
                (b"860", b"\x84", b"", ["ã"]), (b"863", b"\x84", b"", ["Â"]),
                (b"865", b"\x9d", b"", ["Ø"]), (b"999", b"\xd0", b"", ["ð"])]
        for page, first, second, expected in of_titles:
            self.assertEqual(read_titles(self.write("one.stl", block(page, first, second))),
                             expected, (page, first, second))
        self.assertEqual(read_titles(self.write("one.stl", b"")), [])


class Lines(unittest.TestCase):
    def test_groups_fault_numbers_by_kind(self) -> None:
        kinds = {"stl": listing.STL_FAULTS, "ends": listing.ENDS_READING,
                 "passed": listing.SKIPPED_PACKETS}
        for number in range(100):
            expected = {"stl"} if 10 <= number <= 25 or 50 <= number <= 57 else set[str]()
            expected |= {"ends"} if number in (30, 31, 32, 44) else set()
            expected |= {"passed"} if 33 <= number <= 40 or number in (45, 61) else set()
            self.assertEqual({kind for kind, some in kinds.items() if number in some}, expected,
                             number)
        self.assertEqual((listing.EMPTY, listing.OFF_FRAME, listing.GAP, listing.LOST_PACKETS,
                          listing.CONTENT, listing.CHARACTER, listing.CONTROL, listing.BEGIN,
                          listing.END),
                         (60, 61, 73, 45, 72, 50, 67, 63, 74))
        self.assertEqual((listing.TEXT_FAULTS, listing.FAULTS_WITH_CAUSE, listing.LOSSES,
                          listing.UNDECIDED),
                         ((50, 51), {63, 72, 74}, {45, 79}, 78))

    def test_describes_faults_without_a_number(self) -> None:
        named_fault = listing.NamedFault("not shown", "words")
        for fault, place in ((named_fault, ""), (named_fault._replace(block=0), " block 0"),
                             (named_fault._replace(block=7), " block 7"),
                             (named_fault._replace(time="00:00:01:00"), " frame 00:00:01:00")):
            self.assertEqual(fault.line, f"refused not shown{place}", (fault, place))
        self.assertEqual({*listing.read_named_meanings()},
                         {*listing.FAULT_NAMES, *listing.READING_FAULT_NAMES})
        self.assertTrue(all(map(all, listing.read_named_meanings().values())))
        self.assertEqual(listing.read_named_meanings()["ends early"], (
            "ends early", "the recording is damaged: the rest was not read", "record again"))
        self.assertEqual(listing.remove_markup("`a` [b c](d#e) f, [g](h)"), "a b c f, g")

    def test_parses_only_complete_lines(self) -> None:
        for line in ("accepted 1 frames 2 transmissions", "trusted frames 00:00:01:00 00:00:02:00",
                     "5 faults", "refused 72 Content frame 00:00:01:00 row 3 column 4",
                     "ended 72 Content frame 00:00:01:00", "refused 50 Character block 3 at 4",
                     "refused 68 Parity frame 00:00:01:00 packet 5", "refused 33 Flags pes 6"):
            self.assertTrue(listing.is_check_line(line), line)
            for other in (f"x {line}", f" {line}", f"{line} ", f"{line} x", f"{line}\n",
                          line.partition(" ")[2], line.rpartition(" ")[0],
                          line.replace(" ", "  ", 1), line.upper()):
                self.assertFalse(listing.is_check_line(other), other)

    def test_reads_the_number_time_and_words_of_a_fault_line(self) -> None:
        frames = {"": None, " block 7": None, " block 0 at 111": None, " pes 12": None,
                  " frame 23:59:59:24": 2_159_999, " frame 00:00:01:00 packet 9": 25,
                  " frame 10:00:00:01 row 22 column 39": 900_001}
        for word, (place, frame) in itertools.product(
                ("refused", "ended", "fault", "usage"), frames.items()):
            line = f"{word} 72 Name{place}"
            fault_line = listing.parse_fault_line(line)
            assert fault_line
            self.assertEqual((fault_line.is_fault, fault_line.frame), (word == "refused", frame),
                             line)
            if fault_line.time:
                self.assertEqual(listing.parse_place_time(fault_line.time), frame, line)
            parts = line.split(" ")
            self.assertEqual(listing.split_line(line), parts[:5] + [" ".join(parts[5:])] * (
                len(parts) > 5), line)
        for line in ("refused", "refused ", "refused x Name", "refused \u0661 Name", "ended 5 Name",
                     "refused5 6 Name"):
            self.assertIsNone(listing.parse_fault_number(line + " "), line)


class Order(unittest.TestCase):
    def test_finds_subtitles_as_a_linear_search_does_at_each_frame(self) -> None:
        for times in (list[Tuple[int, int]](), [(3, 5)], [(0, 2), (2, 4), (7, 9)],
                      [(1, 2), (4, 9), (9, 12), (15, 16)]):  # TCI and TCO of a programme
            all_of = [Subtitle(at, at + (at > 2), begin, end, 20, 2, b"")
                      for at, (begin, end) in enumerate(times, 1)]
            programme = SubtitleList(all_of)
            for frame in range(18):
                begun = [item for item in all_of if item.begin <= frame]
                due = [item for item in all_of if item.begin <= frame < item.end]
                self.assertEqual((programme.find_place(frame), programme.count_begun(frame)),
                                 (len(begun) - 1, (len(begun), bool(due))), frame)
                self.assertEqual(programme.subtitle(frame), due[0] if due else None, frame)
                for last in range(frame, 18):
                    self.assertEqual(programme.list_cues(frame, last), [
                        item for pair in times for item in pair if frame < item <= last], last)
                for count in range(1, len(times) + 1):
                    places = list(range(0, len(times), count))
                    self.assertEqual(programme.find_nearest(places, frame), min(
                        places, key=lambda place: abs(times[place][0] - frame)),
                                     count)  # the first of two at the same distance
            self.assertEqual([programme.before(at) for at in range(len(times))],
                             [0, *(end for _, end in times)][:len(times)], times)
            self.assertEqual([programme.after(at) for at in range(len(times))],
                             [*(begin for begin, _ in times[1:]), *[2_160_000] * bool(times)],
                             times)
            names = ["subtitle 1", "subtitle 2", "subtitle 3 (SN 4)", "subtitle 4 (SN 5)"]
            self.assertEqual([item.name for item in all_of], names[:len(times)], times)

    def test_names_a_subtitle_by_its_position_and_another_sn(self) -> None:
        for position, number in itertools.product(range(1, 5), range(7)):
            more = f" (SN {number})" if number != position else ""
            self.assertEqual(stl.format_subtitle_name(position, number),
                             f"subtitle {position}{more}", (position, number))


class CodeTable(unittest.TestCase):
    def test_decodes_characters_of_code_table_00(self) -> None:
        for text, expected in ((b"", ""), (b"a~ ", "a~ "), (b"\x1f\x7f\x80", "\ufffd" * 3),
                               (b"\xc1e\xcfz", "èž"), (b"\xc9e", "\ufffde"), (b"\xc2", "\ufffd"),
                               (b"a\xc2", "a\ufffd"), (b"\xa0\xaf\xb0\xbf", "\xa0↓°¿"),
                               (b"\xd0\xd7\xd8\xdb\xdc\xe4\xe5\xe6\xef\xf0\xfe\xff",
                                "—¦\ufffd\ufffd⅛Ħ\ufffdĲŉĸŋ\ufffd"), (b"\xc2e\xc2a!", "éá!")):
            self.assertEqual(decode_text(text), expected, text)

    def test_agrees_with_the_iso_6937_of_iconv(self) -> None:
        if not shutil.which("iconv"):
            self.skipTest("letters of ISO 6937, since there is no iconv")
        accented = [bytes([accent, letter]) for accent in range(0xC1, 0xD0)
                    for letter in b"AEOUZaceinouyz"]
        # iconv has no character for A4 and A6, and other code points for E0 and E2.
        others = [bytes([byte]) for byte in range(0x20, 0xFF) if not 0x7F <= byte <= 0xA0
                  and not 0xC0 <= byte <= 0xCF and byte not in (0xA4, 0xA6, 0xE0, 0xE2)]
        compared = 0
        for text in accented + others:
            process = subprocess.run(["iconv", "-f", "ISO6937", "-t", "UTF-8"], input=text,
                                     check=False, capture_output=True)
            if process.returncode == 0:
                compared += 1
                self.assertEqual(decode_text(text), process.stdout.decode(), text)
        self.assertGreater(compared, 200)


CLOCK, DAY = 8_589_934_592, 2_160_000
# Hamming 8/4 code words for 0 to 15, last bit first (EN 300 706, 8.2).
CODES = ["00010101", "00000010", "01001001", "01011110", "01100100", "01110011", "00111000",
         "00101111", "11010000", "11000111", "10001100", "10011011", "10100001", "10110110",
         "11111101", "11101010"]
NO_CODE_WORD = b"\x01"  # differs from each code word in at least two bits


class Times(unittest.TestCase):
    def test_reads_the_time_that_it_writes(self) -> None:
        for frame, text in ((0, "00:00:00:00"), (24, "00:00:00:24"), (25, "00:00:01:00"),
                            (1499, "00:00:59:24"), (1500, "00:01:00:00"), (89_999, "00:59:59:24"),
                            (90_000, "01:00:00:00"), (2_159_999, "23:59:59:24"),
                            (979_331, "10:52:53:06")):
            code = bytes(map(int, text.split(":")))
            self.assertEqual((times.format_frame(frame), times.parse_frame(text)), (text, frame))
            self.assertEqual((encode_time_code(frame), times.decode_time(code),
                              times.decode_frame(code)), (code, text, frame), text)
        self.assertEqual(times.format_frame(DAY), "24:00:00:00")
        self.assertEqual(times.format_seconds(93_549), "25:59:09")

    def test_shows_a_stored_code_that_is_no_time_as_its_numbers(self) -> None:
        self.assertEqual(times.decode_time(bytes([24, 99, 255, 25])), "24:99:255:25")

    def test_reads_no_text_that_is_no_time_of_day(self) -> None:
        for text in ("24:00:00:00", "23:60:00:00", "23:59:60:00", "23:59:59:25", "", "1:00:00:00",
                     "00:00:00:000", "00:00:00:00\n", " 00:00:00:00", "00:00:00;00",
                     "00:00:00:0\u0661"):
            self.assertIsNone(times.parse_frame(text), text)

    def test_counts_pts_over_33_bits(self) -> None:
        half = CLOCK // 2
        for first, second, later in ((0, 0, 0), (0, 1, 1), (1, 0, -1), (CLOCK - 1, 0, 1),
                                     (0, CLOCK - 1, -1), (0, half - 1, half - 1), (0, half, -half),
                                     (7, half + 6, half - 1), (half + 7, 6, half - 1),
                                     (half + 7, 7, -half), (CLOCK - 5, 20, 25)):
            self.assertEqual(times.subtract_pts(first, second), later, (first, second, later))
        before = (CLOCK - 3600 * DAY) // 2  # the most ticks by which a PTS may precede its origin
        for origin, ticks in itertools.product((0, 7, half, CLOCK - 1), (
                -before, -1, 0, half, 3600 * DAY, CLOCK - before - 1)):
            self.assertEqual(times.subtract_origin(origin, (origin + ticks) % CLOCK), ticks,
                             (origin, ticks))
        for ticks, expected in ((-1, CLOCK - 1), (0, 0), (CLOCK - 1, CLOCK - 1), (CLOCK, 0)):
            self.assertEqual(times.wrap_pts(ticks), expected, ticks)
        for frame, origin, expected in ((0, 5, 5), (1, 5, 3605), (1, CLOCK - 1, 3599),
                                        (DAY, 0, 7_776_000_000), (DAY, CLOCK - 1, 7_775_999_999)):
            self.assertEqual(times.pts_of(frame, origin), expected, (frame, origin))

    def test_finds_the_frame_and_the_time_of_each_pts(self) -> None:
        offs = (-901, -900, -899, -1, 0, 1, 1800, 2699, 2700, 3599)
        rows = [[frame * 3600 + off] for frame in (0, 1, 7, DAY - 1, DAY) for off in offs]
        rows += [[first + 3600 * number for number in range(count)] for count in (2, 3)
                 for first in (off + 3600 * frame for frame in (0, DAY - 3, DAY - 2, DAY - 1)
                               for off in (-900, 0, 1, 2700))]
        rows += [[], [0, 3600, 7201], [0, 7200], [3600, 0], [0, 0]]
        # PTS that are evenly spaced on average, with an empty frame.
        rows += [[0, 3600, 3600, 10800], [0, 7200, 7200, 10800], [0, 7200, 3600, 10800],
                 [0, 3600, 7250, 10800], [0, 3599, 7200]]
        for origin, ticks, within in itertools.product((0, 1, 900, CLOCK - 3600, CLOCK - 1), rows,
                                                       (0, 1, 50)):
            several = [(origin + item) % CLOCK for item in ticks]
            # With --within, a frame begins a quarter of a frame early. Otherwise, only PTS at the
            # start of a frame belong to it.
            early = 900 if within else 0
            distances = [(pts - origin + early) % CLOCK for pts in several]
            expected = [item // 3600 if item < 3600 * DAY and (within or item % 3600 == 0) else -1
                        for item in distances]
            result = times.find_frames_of_day(several, origin, within)
            self.assertEqual(list(result), expected, ticks)
            # The frames of PTS that are a frame apart and do not wrap are returned as a range.
            is_row = len(ticks) > 1 and -1 not in expected and several == [
                several[0] + 3600 * at for at in range(len(ticks))]
            self.assertTrue(isinstance(result, range) or not is_row, ticks)
            for pts, frame, distance in zip(several, expected, distances):
                self.assertEqual(times.find_frame_of_day(pts, origin, within), None if frame < 0
                                 else frame, (pts, frame, distance))
                self.assertEqual(times.compute_frame(pts, origin, within), distance // 3600,
                                 (pts, frame, distance))
                if not within:
                    time = times.format_frame(distance // 3600) if distance < 3600 * DAY else None
                    self.assertEqual(times.compute_time(pts, origin), time, (pts, origin))


class Codes(unittest.TestCase):
    def test_decodes_each_byte_by_its_bits(self) -> None:
        for byte in range(256):
            bits = f"{byte:08b}"
            self.assertEqual(teletext.is_odd(byte), bits.count("1") % 2 == 1, byte)
            self.assertEqual(pes.reverse_bits(bytes([byte])), bytes([int(bits[::-1], 2)]), byte)
            near = [number for number, code in enumerate(CODES)
                    if sum(item != two for item, two in zip(bits, code)) < 2]
            self.assertEqual(teletext.NUMBER[byte], near[0] if near else None, byte)
        for code in range(128):
            self.assertIn(pes.add_odd_parity(code), (code, code + 128), code)
            self.assertTrue(teletext.is_odd(pes.add_odd_parity(code)), code)

    def test_reads_each_magazine_and_packet_number(self) -> None:
        for magazine, number in itertools.product(range(8), range(32)):
            packet = pes.make_packet(magazine, number, (), b"a")
            self.assertEqual(pes.decode_address(packet), (magazine, number), (magazine, number))
            self.assertEqual(packet[2], 0x61, (magazine, number))
            for at in (0, 1):
                damaged = packet[:at] + NO_CODE_WORD + packet[at + 1:]
                self.assertIsNone(pes.decode_address(damaged), at)

    def test_reads_each_number_of_a_header(self) -> None:
        numbers = bytes([8, 7, 0, 9, 1, 14, 2, 15])
        packet = pes.make_packet(1, 0, numbers, b" " * 32)
        self.assertEqual((len(packet), pes.decode_header(packet)), (42, numbers))
        for at in range(2, 10):
            damaged = packet[:at] + NO_CODE_WORD + packet[at + 1:]
            self.assertIsNone(pes.decode_header(damaged), at)
        self.assertEqual(pes.get_page_number(numbers), 0x78)
        # `damaged` has an unreadable control bit.
        rows = [make_numbered_row(1, b"a"), packet, damaged, NO_CODE_WORD + packet[1:], HEADER,
                CLOSING]
        self.assertEqual([header[:2] for header in pes.find_headers(rows)],
                         [(1, 0x78), (0, 0x88), (0, 0xFF)])

    def test_reads_each_control_bit(self) -> None:
        # The bit of each control bit in the eight four-bit numbers of a header
        places = {4: 3 * 4 + 3, 5: 5 * 4 + 2, 6: 5 * 4 + 3, 7: 24, 8: 25, 9: 26, 10: 27, 11: 28,
                  12: 29, 13: 30, 14: 31}
        for bit, place in places.items():
            alone = [(place // 4 == at) << place % 4 for at in range(8)]
            for header, is_set in ((bytes(alone), True),
                                   (bytes(15 - item for item in alone), False)):
                found = [item for item in places if teletext.has_bit(header, item) == is_set]
                self.assertEqual(found, [bit], (header, is_set))

    def test_names_pages_by_three_digits(self) -> None:
        for name, page in (("888", (0, 0x88)), ("100", (1, 0)), ("7FE", (7, 0xFE))):
            self.assertEqual(teletext.page_name(*page), name, page)


class Packets(unittest.TestCase):
    def test_writes_each_bit_of_a_pts_in_its_place(self) -> None:
        for pts in (0, 1, CLOCK - 1, 0x155555555, 0xAAAAAAAA, *(1 << bit for bit in range(33))):
            bits = f"{pts:033b}"
            expected = int(f"0010{bits[:3]}1{bits[3:18]}1{bits[18:]}1", 2).to_bytes(5, "big")
            self.assertEqual(pes.encode_pts(pts), expected, pts)
            data = pes.make_pes_packet(pts, [])
            self.assertEqual(pes.decode_pts(data), pts, pts)
