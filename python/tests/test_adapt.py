"""Tests of `adapt` and `columns`: responses with columns that the program refuses."""
from __future__ import annotations

import contextlib
import gzip
import io
import itertools
import lzma
import os
import random
import struct
import subprocess
import sys
import tempfile
import tracemalloc
import unittest
from decimal import Decimal
from typing import IO, Any, Optional, cast
from unittest import mock

import gavyreto
from gavyreto import floats, tds
from gavyreto.adapting import Adapter, variant_text
from gavyreto.columns import postgresql_type, sqlite_type
from gavyreto.payload import Descriptions, Ended, Payload, columns_again, columns_of
from tests import test_readings
from tests.beside import PROGRAM, Live, answered, exported, need, responses, served, serving, started, wait_for, wire

from plain import reader  # isort: skip  the tools are on the path after it

LONG = 200_000_000


def adapted(data: bytes, charset: str = "windows-1252") -> bytes:
    out = io.BytesIO()
    Adapter(io.BytesIO(data).read, out.write, charset).run()
    return out.getvalue()


def quoted(value: Any) -> str:
    return "NULL" if value is None else '"' + str(value).replace('"', '""') + '"'


def refused_text() -> bytes:
    """What the rows of `refused` give: numbers are text, and a sql_variant is the text of its base type."""
    columns = responses.REFUSED
    lines = [",".join(f'"{column.name}"' for column in columns)]
    for values, variant in zip(responses.REFUSED_ROWS, ("42", "", None)):
        fields = [quoted(value) if column.name in ("real", "float", "real_or_null", "float_or_null") else column.text_of(value)
                  for column, value in zip(columns, values)]
        fields[responses.NAMES_OF_REFUSED.index("variant")] = quoted(variant)
        lines.append(",".join(fields))
    return "".join(line + "\r\n" for line in lines).encode()


def shortest_real(data: bytes) -> str:
    """The text of a real with the fewest digits that reads back to it."""
    value, = struct.unpack("<f", data)
    nearest = [Decimal(f"{value:.{digits}g}") for digits in range(1, 10)]
    steps = [Decimal((0, (1,), it.adjusted() - digits)) for digits, it in enumerate(nearest)]
    texts = (str(it + way * step) for it, step in zip(nearest, steps) for way in (0, 1, -1))
    return next(repr(float(text)) for text in texts if abs(float(text)) < 3.40282356e38 and struct.pack("<f", float(text)) == data)


def payload_of(data: bytes) -> bytes:
    """The payload of a response."""
    payload = Payload(io.BytesIO(data).read)
    return b"".join(iter(lambda: payload.need(len(payload.data) - payload.at) if payload.has_more() else b"", b""))


class Adapted(unittest.TestCase):
    def test_what_is_not_refused_stays_byte_for_byte(self) -> None:
        """Packets and all, also empty ones."""
        for name in ("kinds", "sets", "orders", "error", "broken"):
            for size in (512, 4096, 32767):
                with self.subTest(name=name, size=size):
                    data = wire(name, 40, size)
                    self.assertEqual(adapted(data), data)
        payload = b"".join(responses.kinds(0))
        for size in range(9, 80):
            data = b"".join(packet + tds.packet(tds.PacketType.ANSWER, b"", False) for packet in list(tds.packets([payload], size))[:-1])
            data += list(tds.packets([payload], size))[-1]
            self.assertEqual(adapted(data), data)

    def test_each_refused_kind_in_packets_of_each_size(self) -> None:
        payload, wanted = b"".join(responses.refused(0)), refused_text()
        for size in (*range(9, 60), 512, 4096):
            with self.subTest(size=size):
                self.assertEqual(exported(adapted(b"".join(tds.packets([payload], size)))), (0, wanted))

    def test_each_base_type_of_a_sql_variant(self) -> None:
        status, text = exported(adapted(wire("variants")))
        wanted = ['"variant"', *(quoted(text) for _, text in responses.VARIANTS), "NULL"]
        self.assertEqual((status, text.decode()), (0, "".join(line + "\r\n" for line in wanted)))

    def test_text_of_a_sql_variant_by_character_set(self) -> None:
        column = responses.Column("v", "62491F0000", responses.variant, responses.as_it_is, bytes)
        data = answered(responses.description([column]), responses.row([column], [b"\xA7\x07" + responses.TEXT_PROPERTIES + "5 €".encode()]), served.done())
        self.assertEqual(exported(adapted(data, "utf-8")), (0, '"v"\r\n"5 €"\r\n'.encode()))
        every = responses.row([column], [b"\xA7\x07" + responses.TEXT_PROPERTIES + bytes(range(0x80, 0xA0))])
        narrow = responses.Column("v", "A72800", responses.long, responses.as_it_is, bytes)
        own = answered(responses.description([narrow]), responses.row([narrow], [bytes(range(0x80, 0xA0))]), served.done())
        self.assertEqual(exported(adapted(answered(responses.description([column]), every, served.done()))), exported(own))

    def test_other_sets_and_returned_values(self) -> None:
        """Sets before and after, a returned value of float, and what else a response has."""
        value = b"\xAC\x01\0\x02@\0x\0\x01" + bytes(6) + b"\x6D\x08\x08" + responses.double("0.5")
        pieces = [*responses.sets(0)][:-1] + [served.done(1), *responses.refused(0)][:-1] + [served.done(1), value, *responses.order_rows(5), served.done()]
        status, text = exported(adapted(b"".join(tds.packets(pieces, 600))))
        sets = exported(wire("sets"))[1]
        self.assertEqual((status, text), (0, sets + b"\r\n" + refused_text() + b"\r\n" + exported(wire("orders", 5))[1]))

    def test_floats_read_back_to_the_same_bits(self) -> None:
        numbers = random.Random(1)
        for type_info, form, size in (("6D08", "<d", 8), ("6D04", "<f", 4), ("3E", "<d", 8), ("3B", "<f", 4)):
            cell = responses.fixed if len(type_info) == 2 else responses.short
            column = responses.Column("x", type_info, cell, responses.as_it_is, bytes)
            values = [it for it in (numbers.randbytes(size) for _ in range(3000)) if struct.unpack(form, it)[0] == struct.unpack(form, it)[0]]
            values += [struct.pack(form, sign * 2.0**power) for sign in (1, -1) for power in range(-149, 128)]
            rows = b"".join(responses.row([column], [value]) for value in values)
            status, text = exported(adapted(b"".join(tds.packets([responses.description([column]), rows, served.done()], 4096))))
            came = [line.strip('"') for line in text.decode().split("\r\n")[1:-1]]
            self.assertEqual((status, [struct.pack(form, float(it)) for it in came]), (0, values))
            if size == 4:
                self.assertEqual(came, [shortest_real(it) for it in values])

    def test_rows_that_are_converted_at_once(self) -> None:
        """They are as those that are cut by packets, which are converted one by one: beside columns of other kinds, with NULL, as ROW and NBCROW."""
        kinds = [responses.Column("x", info, cell, responses.as_it_is, bytes) for info, cell in (
            ("6D08", responses.short), ("6D04", responses.short), ("3E", responses.fixed), ("3B", responses.fixed), ("38", responses.fixed),
            ("2604", responses.short), ("A72800", responses.long), ("E7FFFF", responses.chunked))]
        sizes, numbers = [8, 4, 8, 4, 4, 4, 7, 300], random.Random(5)
        for _ in range(60):
            chosen = [numbers.randrange(8) for _ in range(numbers.randrange(1, 7))]
            columns, share = [kinds[it] for it in chosen], numbers.choice((0.0, 0.02, 0.5))
            rows = b""
            for _ in range(numbers.choice((1, 40, 200))):
                values = [struct.pack("<f" if it in (1, 3) else "<d", numbers.uniform(-1, 1) * 10 ** numbers.randrange(-39, 38)) if it < 4
                          else numbers.randbytes(sizes[it]) for it in chosen]
                cells: list[Any] = [None if numbers.random() < share and kinds[it].cell is not responses.fixed else value for it, value in zip(chosen, values)]
                rows += (responses.row_with_bitmap if numbers.random() < share else responses.row)(columns, cells)
            pieces = [responses.description(columns), rows, served.done()]
            whole, cut = (adapted(b"".join(tds.packets(pieces, size))) for size in (32767, 40))
            self.assertEqual(payload_of(whole), payload_of(cut))

    def test_rows_of_nothing_but_null(self) -> None:
        """As NBCROW they have no value, and stay rows; alone, beside each other, and among rows that have some."""
        kinds = {"6D08": ("0.5", responses.double), "6D04": ("0.5", responses.single), "2604": ("7", responses.whole(4)), "E7FFFF": ("x", responses.wide)}
        for described, rows, size in itertools.product(("6D08", "6D04 6D08", "2604 6D04", "6D08 E7FFFF 6D08"), ("0", "00", "010", "100" * 30), (40, 32767)):
            infos = described.split()
            columns = [responses.Column("x", info, responses.chunked if info == "E7FFFF" else responses.short, kinds[info][1], str) for info in infos]
            values = [[kinds[info][0] if it == "1" else None for info in infos] for it in rows]
            lines = [['"x"'] * len(infos), *([it if it == "7" else quoted(it) for it in line] for line in values)]
            text = "".join(",".join(line) + "\r\n" for line in lines)
            data = b"".join(tds.packets([responses.description(columns), *(responses.row_with_bitmap(columns, it) for it in values), served.done()], size))
            with self.subTest(infos=infos, rows=rows, size=size):
                self.assertEqual(exported(adapted(data)), (0, text.encode()))

    def test_rows_of_many_floats_in_little_memory(self) -> None:
        """Each with other NULLs: what is remembered of them doesn't grow with the columns."""
        numbers, count = random.Random(3), 10_000
        rows = [numbers.getrandbits(count) for _ in range(30)]
        body = b"\x81" + struct.pack("<H", count) + (bytes(4) + b"\x01\0\x6d\x08\0") * count
        body += b"".join(b"\xD2" + row.to_bytes(count // 8, "little") + bytes(count - bin(row).count("1")) for row in rows) + served.done()
        tracemalloc.start()
        came = adapted(b"".join(tds.packets([body], 32767)))
        peak = tracemalloc.get_traced_memory()[1]
        tracemalloc.stop()
        self.assertEqual(exported(came, "--column-room", "2000000")[1].count(b"\r\n"), 31)
        self.assertLess(peak, 20_000_000)

    def test_responses_that_end_early(self) -> None:
        """What came before is written, so the program names the same place of the wire or the payload."""
        data = wire("refused", 0, 512)
        for length in range(0, len(data), 13):
            out = io.BytesIO()
            with self.assertRaises(Ended):
                Adapter(io.BytesIO(data[:length]).read, out.write, "windows-1252").run()
            self.assertNotEqual(exported(out.getvalue())[0], 0)
            self.assertTrue(refused_text().startswith(exported(out.getvalue())[1]))

    def test_what_cannot_be_followed(self) -> None:
        column = responses.Column("x", "6D08", responses.short, responses.as_it_is, bytes)
        variant = responses.Column("v", "62491F0000", responses.variant, responses.as_it_is, bytes)
        for pieces in (
            [b"\x99"], [b"\xD1"], [b"\x81\x01\0" + bytes(6) + b"\x99"], [responses.description([column]), b"\xD1\x08" + b"\xFF" * 8],
            [responses.description([variant]), responses.row([variant], [b"\x99\0"])], [responses.description([variant]), responses.row([variant], [b"\x28\0\xFF\xFF\xFF"])],
            [responses.description([variant]), responses.row([variant], [b"\x29\x01\x00\xFF\xFF\xFF"])],
            *([responses.description([responses.Column("x", f"6D{length:02x}", responses.short, responses.as_it_is, bytes)])] for length in (0, 2, 24)),
        ):
            with self.subTest(pieces=pieces), self.assertRaises(ValueError):
                adapted(answered(*pieces, served.done()))

    def test_rows_of_fixed_lengths_that_packets_cut(self) -> None:
        """Nothing in a value tells where it ends: a row that isn't whole in what was read is converted once it is."""
        columns = [responses.Column(name, info, responses.fixed, responses.as_it_is, bytes) for name, info in (("a", "3E"), ("b", "38"), ("c", "3B"))]
        rows = (responses.row(columns, [struct.pack("<d", it / 8), struct.pack("<i", it), struct.pack("<f", -it / 4)]) for it in range(40))
        payload = b"".join([responses.description(columns), *rows, served.done()])
        wanted = exported(adapted(b"".join(tds.packets([payload], 32767))))
        self.assertEqual(wanted[1].split()[2], b'"0.125",1,"-0.25"')
        for size in range(20, 60):
            self.assertEqual(exported(adapted(b"".join(tds.packets([payload], size)))), wanted, size)

    def test_a_type_without_a_name(self) -> None:
        """It ends what `columns` tells, and a reading has no types from its set on."""
        column = responses.Column("x", "6D03", responses.short, responses.as_it_is, bytes)
        data = answered(*list(responses.order_rows(0)), served.done(tds.MORE), responses.description([column]), served.done(tds.MORE), *responses.order_rows(0), served.done())
        with self.assertRaisesRegex(ValueError, "no type of a column: 0x6d of 3 bytes"):
            list(columns_of(Payload(io.BytesIO(data).read)))
        found = Descriptions(columns_again(io.BytesIO(data).read))
        self.assertEqual([bool(found.of(place)) for place in (0, 1, 1, 2)], [True, False, False, False])

    def test_floats_that_are_no_number(self) -> None:
        """Infinities, and what isn't a number at all: alone, behind rows that are converted at once, and in a sql_variant. What comes before is written."""
        for (type_info, form), value, count in itertools.product((("6D08", "<d"), ("6D04", "<f"), ("3E", "<d"), ("3B", "<f")), ("inf", "-inf", "nan"), (0, 5, 500)):
            column = responses.Column("x", type_info, responses.fixed if len(type_info) == 2 else responses.short, responses.as_it_is, bytes)
            rows = b"".join(responses.row([column], [struct.pack(form, float(it))]) for it in ["0.5"] * count + [value])
            out = io.BytesIO()
            with self.subTest(type_info=type_info, value=value, count=count):
                with self.assertRaisesRegex(ValueError, "no number"):
                    Adapter(io.BytesIO(answered(responses.description([column]), rows, served.done())).read, out.write, "windows-1252").run()
                self.assertEqual(exported(out.getvalue())[1], b'"x"\r\n' + b'"0.5"\r\n' * count)
            self.assertIsNone(variant_text_or_none(0x3E if form == "<d" else 0x3B, b"", struct.pack(form, float(value))))

    def test_rows_before_what_is_no_number_are_tried_once(self) -> None:
        """At once; then each is read by itself, so that a packet of many takes no more than twice the time of its rows."""
        column, values = responses.Column("x", "3B", responses.fixed, responses.as_it_is, bytes), ["0.5"] * 6000 + ["nan"]
        data = answered(responses.description([column]), b"".join(responses.row([column], [struct.pack("<f", float(it))]) for it in values), served.done())
        with mock.patch.object(floats, "spelt", wraps=floats.spelt) as spelt, self.assertRaises(ValueError):
            adapted(data)
        self.assertLess(sum(len(call.args[1]) for call in spelt.call_args_list), 2 * len(values))

    def test_values_of_a_sql_variant_that_none_has(self) -> None:
        """Each base type with lengths, scales and values in and out of their ranges is read or refused as a plain reading does."""
        numbers, counts, wrong = random.Random(2), {True: 0, False: 0}, []
        for number in range(20_000):
            byte = BASES[number % len(BASES)]
            rest = numbers.choice((b"", bytes([numbers.randrange(9)]), bytes([numbers.randrange(42), numbers.randrange(42)]), b"\xFF"))
            kind = reader.Kind(byte, b"\x11" + rest if byte in (0x6A, 0x6C) else rest)
            length = numbers.choice((0, 1, 2, 3, 4, 5, 6, 7, 8, 9, 10, 13, 16, 17))
            data = numbers.choice((bytes(length), b"\xFF" * length, numbers.randbytes(length), numbers.randbytes(length)[:-2] + b"\x84\x03"))[:length]
            wanted = plain_text(kind, data)
            counts[wanted is None] += 1
            came = variant_text_or_none(byte, rest, data)
            wrong += [(byte, rest, data, came, wanted)] if came != wanted else []
        self.assertEqual(wrong[:5], [])
        self.assertGreater(min(counts.values()), 200)

    def test_texts_of_a_sql_variant_that_none_has(self) -> None:
        for byte, properties, data in (
            (0xE7, responses.TEXT_PROPERTIES, b"abc"), (0xA7, b"", b"abc"), (0xA7, bytes(5) + b"\x02\0", b"abc"), (0xA5, b"\x02\0", b"abc"), (0x62, b"", b""),
            (0x22, b"", b""), (0x1F, b"", b""), (0xF1, b"", b""),
        ):
            with self.subTest(byte=byte):
                self.assertIsNone(variant_text_or_none(byte, properties, data))

    def test_lengths_that_none_has(self) -> None:
        """Floats of another length than their column, and a sql_variant, text or image that is too long or too short for what it has."""
        float_, image, ntext = (responses.Column("x", info, responses.fixed, responses.as_it_is, bytes) for info in (
            "6D08", "22" + responses.LAST + responses.table("t"), "63" + responses.LAST + responses.COLLATION.hex() + responses.table("t")))
        variant = responses.Column("v", "62491F0000", responses.variant, responses.as_it_is, bytes)
        old = b"\x10" + responses.POINTER
        cases = [(float_, bytes([length]) + bytes(length)) for length in (1, 2, 3, 4, 5, 7, 9, 255)]
        cases += [(image, old + b"\xFF\xFF\xFF\xFF"), (ntext, old + b"\x03\0\0\0abc")]
        cases += [(variant, struct.pack("<I", length) + b"\x38\0" + bytes(4)) for length in (1, 5, 7, 8017, 2**24, 2**32 - 1)]
        cases += [(variant, struct.pack("<I", 3) + b"\x38\x07\0")]
        for column, cell in cases:
            with self.subTest(column=column.name, cell=cell[:8]), self.assertRaises(ValueError):
                adapted(answered(responses.description([column]), b"\xD1" + cell, served.done()))

    def test_a_later_packet_of_another_type(self) -> None:
        packets = list(tds.packets([*responses.refused_float(0)], 30))
        self.assertEqual(exported(adapted(b"".join(packets)))[0], 0)
        for wrong in (b"\x01" + packets[1][1:], packets[1][:2] + b"\0\x07" + packets[1][4:]):
            with self.assertRaises(ValueError):
                adapted(packets[0] + wrong + b"".join(packets[2:]))


BASES = (0x30, 0x32, 0x34, 0x38, 0x7F, 0x3A, 0x3D, 0x7A, 0x3C, 0x24, 0x28, 0x29, 0x2A, 0x2B, 0x6A, 0x6C)
SCALAR = {**reader.FIXED_LENGTH, 0x24: 16}


def plain_text(kind: reader.Kind, data: bytes) -> Optional[str]:
    """The text of a value by a plain reading of a column of its kind, or None."""
    with contextlib.suppress(ValueError, IndexError, KeyError):
        if kind.byte in SCALAR:
            return reader.scalar_text(kind, data) if not kind.rest and len(data) == SCALAR[kind.byte] else None
        if len(kind.rest) == reader.REST[kind.byte] and reader.is_described(kind.byte, kind.rest) and data:
            return reader.scalar_text(kind, data) if reader.is_allowed(kind, len(data)) else None
    return None


def variant_text_or_none(byte: int, properties: bytes, data: bytes) -> Optional[str]:
    with contextlib.suppress(ValueError):
        return variant_text(byte, properties, data, "windows-1252")
    return None


class FromPython(unittest.TestCase):
    def test_clr_types_with_names_of_others(self) -> None:
        """Their values stay bytes, and a table for them has no column of numbers."""
        for parts in itertools.product(("", "int(", "binary"), ("", "sys"), ("int", "float", "bit", "decimal(5,0)", "date", "datetime2(3)", "")):
            info = "F0FFFF" + responses.names(*parts) + "0000"
            column = responses.Column("c", info, responses.chunked, responses.as_it_is, bytes)
            data = answered(responses.description([column]), responses.row([column], [b"12"]), served.done())
            with self.subTest(parts=parts):
                rows = gavyreto.export(data, program=PROGRAM, adapt=True).only()
                self.assertEqual(([(it.type, it.kind) for it in rows.columns or []], list(rows)), ([(".".join(parts), "")], [(b"12",)]))
                self.assertEqual([type_of(it) for it in rows.columns or [] for type_of in (sqlite_type, postgresql_type)], ["TEXT", "text"])

    def test_rows_of_each_refused_kind(self) -> None:
        """Of any source, live and recorded: the values of the text, floats as such, and the columns as they came."""
        data = wire("refused", 0, 512)
        with open(os.path.join(tempfile.mkdtemp(), "refused.tds"), "wb") as file:
            file.write(data)
        wanted = gavyreto.export(adapted(data), program=PROGRAM).only()
        kinds, rows = [column.type for column in wanted.columns or []], list(wanted)
        self.assertEqual(kinds[:4] + kinds[9:10], ["varchar(40)"] * 4 + ["nvarchar(max)"])
        rows_of_floats = [tuple(None if it is None else float(str(it)) for it in row[:4]) + row[4:] for row in rows]
        with serving(data, data) as port, test_readings.connected(port) as connection, open(file.name, "rb") as opened:
            sources: list[Any] = [file.name, data, opened, io.BytesIO(data), opened.fileno()]
            for source in [*sources, None, None]:
                opened.seek(0)
                with gavyreto.export(source, adapt=True, program=PROGRAM) if source else connection.query("x", adapt=True, program=PROGRAM) as response:
                    came = response.only()
                    self.assertEqual([it.type for it in came.columns or []], ["real", "float", "real", "float", "text", "ntext", "image", "xml", "db.sys.geography", "sql_variant", "varchar(40)"])
                    self.assertEqual(repr([tuple(row) for row in came]), repr(rows_of_floats))
                self.assertTrue(response.is_whole)

    def test_floats_beside_a_long_value(self) -> None:
        """A row that is read field by field has the same values, and no float is a file."""
        columns = [responses.Column("f", "6D08", responses.short, responses.double, float), responses.Column("t", "E7FFFF", responses.chunked, responses.wide, str)]
        for length in (9, 1_100_000):
            pieces = [responses.description(columns), responses.row(columns, ["1.5", "x" * length]) * 3, served.done()]
            data = b"".join(tds.packets(pieces, 32767))
            with self.subTest(length=length), gavyreto.export(data, adapt=True, program=PROGRAM) as response:
                rows = response.only()
                with self.assertRaisesRegex(ValueError, "1.5 has neither bytes nor text"):
                    rows.open("f")
                self.assertEqual([row[0] for row in rows], [1.5, 1.5])

    def test_what_cannot_be_followed(self) -> None:
        float_ = responses.Column("x", "6D08", responses.fixed, responses.as_it_is, bytes)
        good, bad = b"\x08" + struct.pack("<d", 0.5), b"\x08" + b"\xFF" * 8
        with gavyreto.export(answered(responses.description([float_]), b"\xD1" + good, b"\xD1" + bad, served.done()), adapt=True, program=PROGRAM) as response:
            rows = response.only()
            self.assertEqual(next(rows), (0.5,))
            with self.assertRaisesRegex(gavyreto.BadAnswer, "the response can't be followed: "):
                next(rows)
        for length in range(20, 200, 31):
            with self.assertRaises(gavyreto.Fault):
                for one in gavyreto.export(wire("refused")[:length], adapt=True, program=PROGRAM):
                    list(one)


class Commands(Live):
    def run_command(self, *words: str, data: bytes = b"") -> subprocess.CompletedProcess[bytes]:
        given = started()
        del given["stdin"]
        return subprocess.run([sys.executable, "-m", "gavyreto", *words], input=data, cwd=self.folder, capture_output=True, check=False, **given)

    def test_adapt(self) -> None:
        for name, data in (("float.tds", b""), ("-", wire("float"))):
            self.assertEqual(exported(self.run_command("adapt", name, data=data).stdout), (0, b'"id","ratio"\r\n1,NULL\r\n'))
        self.assertEqual(exported(self.run_command("adapt", data=wire("float")).stdout), (0, b'"id","ratio"\r\n1,NULL\r\n'))
        self.assertEqual(self.run_command("adapt", "-o", "out", "float.tds").returncode, 0)
        self.assertEqual(exported(self.text("out"))[0], 0)
        for words, status in ((["nothere"], 5), (["-o", "none/out", "float.tds"], 5), (["--charset", "latin1"], 2), (["."], 5)):
            self.assertEqual(self.run_command("adapt", *words).returncode, status)
        self.assertEqual(exported(self.run_command("adapt", data=wire("float") + wire("sets") + wire("float")).stdout, "--all"), (
            0, exported(wire("sets"))[1].join([b'"id","ratio"\r\n1,NULL\r\n'] * 2)))
        self.assertEqual(self.run_command("adapt", data=wire("sets") + b"\4").returncode, 4)
        for data, line in ((wire("float")[:40], "the response ends before its last packet\n"), (answered(b"\x99"), "the response can't be followed: no token of an answer to a statement: 0x99\n")):
            came = self.run_command("adapt", data=data)
            self.assertEqual((came.returncode, came.stderr.decode()), (4, line))
        full = subprocess.run(["sh", "-c", f"{sys.executable} -m gavyreto adapt float.tds > /dev/full"], cwd=self.folder, capture_output=True, check=False, **started())
        self.assertEqual((full.returncode, full.stderr.count(b"\n")), (5, 1))

    def test_what_is_no_response(self) -> None:
        """The file is named for what it is, with what reads it, and nothing of it is written."""
        for data, line in (
            (b"\xD4\xC3\xB2\xA1" + bytes(100), "a capture of the network: gavyreto capture reads it"),
            (b"\x0A\x0D\x0D\x0A" + bytes(100), "a capture of the network: gavyreto capture reads it"),
            (gzip.compress(wire("float")), "compressed: gunzip -c gives what is in it"), (lzma.compress(b"x"), "compressed: xz -dc gives what is in it"),
            (b'"a"\r\n1\r\n', "a text that tds_replay wrote, and no packets: gavyreto.read reads it"), (b"SELECT 1\n", "a text, and no packets"),
            (b"net.c:100:Received packet\n0000 04 01\n", "the dump of a client of FreeTDS: gavyreto capture reads it"),
            (b"", "empty"), (tds.packet(1, tds.statement("SELECT 1")), "what a client sent: the packets of the server are needed"), (b"\x17\x03\x03\0\x01x", "encrypted: the bytes after decryption are needed"),
            (b"\xFF\xFE", "no response: its first byte is 0xff, and that of a packet of a server is 0x04"),
        ):
            with open(self.path("it"), "wb") as file:
                file.write(data)
            for command in ("columns", "adapt"):
                with self.subTest(command=command, line=line):
                    self.assert_ends(self.run_command(command, "it"), 4, b"", f"it is {line}")
                    self.assert_ends(self.run_command(command, data=data), 4, b"", f"standard input is {line}")
            self.assertEqual(self.run_command("adapt", "-o", "out", "it").returncode, 4)
            self.assertFalse(os.path.exists(self.path("out")))

    def test_an_output_that_another_command_writes(self) -> None:
        own = started()
        own["stdin"] = subprocess.PIPE
        with subprocess.Popen([sys.executable, "-m", "gavyreto", "adapt", "-o", "out"], cwd=self.folder, **own) as first:
            given = cast(IO[bytes], first.stdin)
            given.write(wire("float")[:20])
            given.flush()
            waiting = self.path("out.partial")
            wait_for(lambda: os.path.exists(waiting))
            wait_for(lambda: self.run_command("adapt", "-o", "out", "orders.tds").stderr == f"{waiting}: another command writes there\n".encode())
            given.write(wire("float")[20:])
        self.assertEqual((first.returncode, self.text("out"), os.path.exists(waiting)), (0, adapted(wire("float")), False))

    def test_an_output_has_its_name_when_it_is_whole(self) -> None:
        """What is there under its name stays if it isn't, and until it is, and is kept from whom it was kept before."""
        for data, status in ((wire("float") + wire("float")[:40], 4), (wire("float") * 2, 0)):
            with open(self.path("out"), "wb") as file:
                file.write(b"before")
            os.chmod(file.name, 0o600)
            self.assertEqual(self.run_command("adapt", "-o", "out", data=data).returncode, status)
            self.assertTrue(self.text("out.partial" if status else "out").startswith(adapted(wire("float")) * (1 if status else 2)))
            self.assertEqual((self.text("out") == b"before", os.stat(file.name).st_mode & 0o777), (status > 0, 0o600))

    def test_an_output_that_loses_its_name(self) -> None:
        """What was written there goes with the name, or nobody finds it."""
        for is_kept in (False, True):
            for is_replaced in (False, True):
                own: dict[str, Any] = started() | {"stdin": subprocess.PIPE, "stderr": subprocess.PIPE}
                with self.subTest(is_kept=is_kept, is_replaced=is_replaced), subprocess.Popen(
                        [sys.executable, "-m", "gavyreto", "adapt", "-o", "out"], cwd=self.folder, **own) as run:
                    given = cast(IO[bytes], run.stdin)
                    given.write(wire("float")[:20])
                    given.flush()
                    waiting = self.path("out.partial")
                    wait_for(lambda: os.path.exists(waiting))
                    os.rename(waiting, self.path("renamed"))
                    if not is_kept:
                        os.remove(self.path("renamed"))
                    if is_replaced:
                        with open(waiting, "xb") as file:
                            file.write(b"another")
                    said = run.communicate(wire("float")[20:])[1].decode()
                    line = f"{waiting}: another file has its name now\n" if is_replaced else f"{self.path('out')}: No such file or directory\n"
                    self.assertEqual((run.returncode, said), (5, line))
                    self.assertEqual((os.path.exists(self.path("out")), os.path.exists(waiting) and self.text("out.partial")), (False, is_replaced and b"another"))
                    self.setUp()

    def test_what_the_system_puts_off(self) -> None:
        """What can't be written of it in the end is told, as of a file of another machine whose disk is full."""
        script = (
            "import errno, os, sys\nfrom gavyreto.__main__ import main\nname, close = sys.argv.pop(1), os.close\n"
            "def closed(it):\n    found = os.readlink(f'/proc/self/fd/{it}')\n    close(it)\n"
            "    if found.endswith(name): raise OSError(errno.EDQUOT, 'Disk quota exceeded')\nos.close = closed\nmain()\n")
        self.script("put_off", f"exec {sys.executable} -c \"$SCRIPT\" \"$@\"")
        for words, name in (
            ("/out.partial adapt -o out float.tds", self.path("out")), ("/out adapt float.tds > out", "standard output"), ("/out columns float.tds > out", "standard output"),
            ("/out.partial query -S 127.0.0.1,$PORT -U reader -C --program \"$PROGRAM\" -o out 'SELECT * FROM orders'", self.path("out"))):
            came = self.beside((), "exec ./put_off " + words, SCRIPT=script)
            with self.subTest(words=words):
                self.assertEqual((came.returncode, came.stderr.decode().splitlines()[-1]), (5, f"{name}: Disk quota exceeded"))

    def test_an_input_is_no_output(self) -> None:
        with open(self.path("x"), "wb") as file:
            file.write(wire("float"))
        os.link(self.path("x"), self.path("y"))
        os.link(self.path("x"), self.path("z.partial"))
        for words in ("-o x x", "-o y x", "-o x < x", "x >> x", "< x >> y", "-o z x"):
            came = subprocess.run(["sh", "-c", f"exec {sys.executable} -m gavyreto adapt {words}"], cwd=self.folder, capture_output=True, check=False, **started())
            with self.subTest(words=words):
                self.assertEqual((came.returncode, came.stdout), (2, b""))
                self.assertRegex(came.stderr.decode(), "^[^\n]*: the response is read from it\n$")
                self.assertEqual(self.text("x"), wire("float"))

    def test_responses_of_random_bytes_end_with_a_line(self) -> None:
        """Each command ends by itself, with one line and a status."""
        numbers, whole = random.Random(3), wire("refused")
        for _ in range(300):
            data = bytearray(whole)
            for _ in range(numbers.choice((1, 1, 3))):
                data[numbers.randrange(8, len(data))] = numbers.choice((0, 1, 2, 0x7F, 0x80, 0xFF, numbers.randrange(256)))
            with contextlib.suppress(ValueError, Ended):
                adapted(bytes(data))
            with contextlib.suppress(ValueError, Ended):
                for columns in columns_of(Payload(io.BytesIO(data).read)):
                    self.assertTrue(all(isinstance(column.type, str) for column in columns))

    def test_columns(self) -> None:
        came = self.run_command("columns", "sets.tds")
        self.assertEqual(came.stdout.decode(), (
            '"set","name","type","length","precision","scale","nullable"\r\n1,"id","int",NULL,NULL,NULL,0\r\n'
            '1,"note","nvarchar(40)",40,NULL,NULL,1\r\n2,"total","decimal(9,2)",NULL,9,2,1\r\n3,"id","int",NULL,NULL,NULL,0\r\n'))
        both = self.run_command("columns", data=wire("sets") + wire("float"))
        self.assertEqual(both.stdout, came.stdout + b'4,"id","int",NULL,NULL,NULL,0\r\n4,"ratio","float",NULL,NULL,NULL,1\r\n')
        came = self.run_command("columns", "--as", "postgresql", "--table", 'a"b{}', "sets.tds")
        self.assertTrue(came.stdout.startswith(b'CREATE TABLE "a""b1" (\n    "id" integer NOT NULL,\n    "note" text\n);\nCREATE TABLE'))
        cases: list[tuple[list[str], bytes, int]] = [
            (["--as", "sqlite", "--table", "t", "sets.tds"], b"", 2), (["nothere"], b"", 5), ([], b"", 4), ([], answered(b"\x99"), 4), (["--as", "x"], b"", 2),
            (["--table", "t", "sets.tds"], b"", 2),
            *((["--as", "sqlite"], answered(responses.description([responses.Column(name, "38", responses.fixed, responses.whole(4), int)]), served.done()), 2)
              for name in ("", "a\0b")),
        ]
        for words, data, status in cases:
            came = self.run_command("columns", *words, data=data)
            with self.subTest(words=words):
                self.assertEqual((came.returncode, came.stdout), (status, b""))

    def test_a_long_value_in_fixed_memory(self) -> None:
        need(self, "time")
        column = responses.Column("data", "22" + responses.LAST + responses.table("t"), responses.after_pointer, responses.as_it_is, bytes)
        with open(self.path("image.tds"), "wb") as file:
            head = responses.description([column]) + b"\xD1\x10" + responses.POINTER + struct.pack("<I", LONG)
            for packet in tds.packets((head, *(responses.CHUNK for _ in range(LONG // 8000)), served.done()), 4096):
                file.write(packet)
        command = f'/usr/bin/time -f %M -o peak {sys.executable} -m gavyreto adapt image.tds | "$PROGRAM" check'
        came = subprocess.run(["sh", "-c", command], cwd=self.folder, capture_output=True, check=False, **started(PROGRAM=PROGRAM))
        self.assertEqual((came.returncode, came.stderr), (0, f"sets 1 rows 1 errors 0 infos 0 written {2 * LONG + 12}\n".encode()))
        self.assertLess(int(self.text("peak")), 25_000)
        print(f"adapt of a value of {LONG} bytes: a peak of {self.text('peak').decode().strip()} kilobytes")
        os.remove(self.path("image.tds"))

    def test_a_long_description_in_little_memory(self) -> None:
        """Names of tables are as long as a server makes them; of a column no more is kept than its values need."""
        need(self, "time")
        column = responses.Column("x", "22" + responses.LAST + responses.table("t" * 3000), responses.after_pointer, responses.as_it_is, bytes)
        with open(self.path("long.tds"), "wb") as file:
            file.writelines(tds.packets([responses.description([column] * 10_000), served.done()], 4096))
        self.assertGreater(os.path.getsize(self.path("long.tds")), 60_000_000)
        command = f'/usr/bin/time -f %M -o peak {sys.executable} -m gavyreto adapt -o adapted.tds long.tds && "$PROGRAM" check adapted.tds'
        came = subprocess.run(["sh", "-c", command], cwd=self.folder, capture_output=True, check=False, **started(PROGRAM=PROGRAM))
        self.assertEqual((came.returncode, came.stderr.decode()[:14]), (0, "sets 1 rows 0 "))
        self.assertLess(int(self.text("peak")), 40_000)
        os.remove(self.path("long.tds"))
        os.remove(self.path("adapted.tds"))

    def test_what_tsql_prints(self) -> None:
        """FreeTDS reads the refused columns themselves: each number has the same bits, each text is the same."""
        need(self, "tsql")
        settings = "[global]\ntds version = 7.4\nclient charset = UTF-8\nencryption = off\n[here]\nhost = 127.0.0.1\nport = %s\n"
        command = (
            f"printf '{settings}' $PORT > freetds.conf; printf 'SELECT * FROM refused\\ngo\\nSELECT * FROM variants\\ngo\\nexit\\n' | "
            "tsql -S here -U reader -P secret -o q -t '|' 2> notes")
        came = self.beside(("--encrypt", "none"), command, FREETDSCONF=self.path("freetds.conf")).stdout.decode()
        first, variants = came.split("\nvariant\n")
        rows = [line.split("|") for line in first.split("\n")[1:]]
        (_, ours), = [(one.names, list(one)) for one in gavyreto.export(io.BytesIO(adapted(wire("refused"))), program=PROGRAM)]
        for theirs, values in zip(rows, ours):
            self.assert_same("<f", theirs[0], values[0])
            self.assert_same("<d", theirs[1], values[1])
            self.assertEqual(theirs[4:6] + theirs[7:8], ["NULL" if it is None else it for it in values[4:6] + values[7:8]])
            self.assertEqual(theirs[6], values[6].hex() if isinstance(values[6], bytes) else "NULL")
        texts = [text for _, text in responses.VARIANTS]
        for theirs_, text in zip(variants.split("\n"), texts):
            if any(it in text for it in ("-02-", "-06-", "-12-", ":", "0x", "0.1", "e+")):
                continue  # dates and binary values, which tsql prints in other forms or not at all, and floats
            self.assertEqual(theirs_.lower() if text.count("-") == 4 else theirs_, text)

    def assert_same(self, form: str, theirs: str, ours: Any) -> None:
        self.assertEqual(struct.pack(form, float(theirs)), struct.pack(form, float(ours)))


if __name__ == "__main__":
    unittest.main()
