"""Tests of `frame`, beside pandas, by Debian's Python."""
from __future__ import annotations

import os
import subprocess
import sys
import unittest

from tests.beside import PROGRAM, ROOT, skip, started

sys.path[:0] = [os.path.join(ROOT, "tools")]
from lib import requirements  # noqa: E402

SCRIPT = """
import sys, tempfile, decimal, gavyreto, pandas
from tests import beside
program = beside.PROGRAM
rows = gavyreto.export(beside.wire("kinds", 3000), program=program).only()
table = rows.frame()
values = [list(row) for row in gavyreto.export(beside.wire("kinds", 3000), program=program).only()]
assert list(table.columns) == rows.names and table.shape == (3000, len(rows.names)), table.shape
for place in range(table.shape[1]):
    came = [None if it is pandas.NA else it for it in table.iloc[:, place]]
    assert came == [row[place] for row in values], (rows.names[place], came[:3])
print(sorted({(column.type.partition("(")[0], str(kind)) for column, kind in zip(rows.columns, table.dtypes)}))
empty = gavyreto.export(beside.wire("sets"), program=program)
*_, last = empty
print(dict(last.frame().dtypes))
with tempfile.NamedTemporaryFile() as file:
    file.write(b'"a","b","a","c"\\r\\n1,"x",NULL,1.50\\r\\nNULL,NULL,NULL,99999999999999999999999999999999999.00\\r\\n')
    file.flush()
    table = next(gavyreto.read(file.name)).frame()
responses, served = beside.responses, beside.served
for parts in ("", "", "int"), ("int(", "sys", "t"):
    column = responses.Column("c", "F0FFFF" + responses.names(*parts) + "0000", responses.chunked, responses.as_it_is, bytes)
    data = beside.answered(responses.description([column]), responses.row([column], [b"12"]), served.done())
    assert gavyreto.export(data, program=program, adapt=True).only().frame()["c"].tolist() == [b"12"], parts
# no package of Debian has pyarrow: what it is asked for
import types
class Table:
    @staticmethod
    def from_pandas(frame, preserve_index):
        return frame, preserve_index
sys.modules["pyarrow"] = types.ModuleType("pyarrow")
sys.modules["pyarrow"].Table = Table
whole, keeps_index = gavyreto.export(beside.wire("kinds", 3000), program=program).only().arrow()
assert whole.shape == (3000, len(rows.names)) and not keeps_index
print(list(table.columns), [str(kind) for kind in table.dtypes], table.iloc[1, 3] == decimal.Decimal("99999999999999999999999999999999999.00"))
"""
# Floats, and dates and times, of which pandas has those of some centuries.
TYPED = """
import gavyreto, pandas
from tests import beside
frame = gavyreto.export(beside.wire("refused"), adapt=True, program=beside.PROGRAM).only().frame()
assert [str(it) for it in frame.dtypes[4:]] == ["string", "string", "object", "string", "object", "string", "string"], frame.dtypes
print([str(it) for it in frame.dtypes[:4]], [frame.iloc[:, it].tolist()[0] for it in range(4)], frame.iloc[:, 3].isna().tolist())
orders = gavyreto.export(beside.wire("orders"), dates=True, program=beside.PROGRAM).only().frame()
print(orders.dtypes["ordered"], [str(it) for it in orders["ordered"]])
kinds = gavyreto.export(beside.wire("kinds"), dates=True, program=beside.PROGRAM).only()
described, frame = kinds.columns, kinds.frame()
rows = list(gavyreto.export(beside.wire("kinds"), dates=True, program=beside.PROGRAM).only())
for place, column in enumerate(described):
    if column.type.partition("(")[0] in ("date", "datetime", "datetime2", "smalldatetime"):
        values = [row[place] for row in rows]
        same = [None if pandas.isna(it) else pandas.Timestamp(it) for it in values] if str(frame.dtypes.iloc[place]) == "datetime64[ns]" else values
        assert [None if pandas.isna(it) else it for it in frame.iloc[:, place]] == same, (column, values)
print(sorted({str(kind) for kind in frame.dtypes}))
"""
# Rows before an error are left as they were, floats of four bytes too, also one of what is made of them; after an interrupt none is.
LEFT = """
import gavyreto, pandas, sys
from unittest import mock
from tests import beside
for failure, wanted in (ValueError, [1, 2, 3]), (OverflowError, [1, 2, 3]), (KeyboardInterrupt, None):
    rows = gavyreto.export(beside.wire("orders"), program=beside.PROGRAM).only()
    with mock.patch.dict(sys.modules, pyarrow=mock.Mock()) as modules:
        modules["pyarrow"].Table.from_pandas.side_effect = failure
        try:
            rows.arrow()
        except failure as raised:
            print(type(raised).__name__)
    try:
        assert list(rows.frame()["id"]) == wanted
    except gavyreto.Interrupted:
        assert not wanted
kept = [*beside.responses.refused(0)][:-1]
failed = beside.answered(*kept, beside.served.server_error(8134, "no", 1), beside.served.done(2))
for options in ({}, {"dates": True}):
    wanted = [*map(tuple, gavyreto.export(beside.wire("refused"), adapt=True, program=beside.PROGRAM, **options).only())]
    rows = gavyreto.export(failed, adapt=True, program=beside.PROGRAM, **options).only()
    first = [tuple(next(rows))]
    try:
        rows.frame()
    except gavyreto.ServerError as error:
        print(error.number, error.rows)
    try:
        first += map(tuple, rows)
    except gavyreto.ServerError:
        pass
    assert repr(first) == repr(wanted), (first, wanted)
"""
# What is read of a server, and where an error ends the rows: no frame is there then, but the rows are.
LIVE = """
import gavyreto, pandas
from tests import beside, test_readings
gavyreto.Connection.query.__kwdefaults__["program"] = beside.PROGRAM
with test_readings.serving(test_readings.ORDERED, beside.wire("broken", 5)) as port, test_readings.connected(port) as connection:
    frame = pandas.read_sql("SELECT * FROM orders", connection)
    print(list(frame.columns), list(frame["id"]))
    rows = next(connection.query("x"))
    try:
        rows.frame()
    except gavyreto.ServerError as error:
        print(error.number)
    print([(row.id, type(row.id).__name__) for row in rows.fetchmany(5)])
"""
KINDS = {
    "tinyint": "UInt8", "smallint": "Int16", "int": "Int32", "bigint": "Int64", "bit": "UInt8", "char": "string", "nchar": "string", "varchar": "string",
    "nvarchar": "string",
}


class Frames(unittest.TestCase):
    def test_each_kind(self) -> None:
        """Each value as the rows have it, in columns typed by those of SQL; a text's by its values."""
        if not requirements.has_module(requirements.DEBIAN_PYTHON, "pandas"):
            skip(self, "Python's module pandas isn't there: `make needs` installs it")
        came = subprocess.run(
            [requirements.DEBIAN_PYTHON, "-B", "-c", SCRIPT], cwd=os.path.join(ROOT, "python"), capture_output=True, text=True, check=False, **started(PROGRAM=PROGRAM))
        self.assertEqual((came.returncode, came.stderr), (0, ""))
        kinds, empty, text = came.stdout.splitlines()
        found = dict(eval(kinds))
        self.assertEqual({kind: found[kind] for kind in KINDS if kind in found}, {kind: it for kind, it in KINDS.items() if kind in found})
        self.assertEqual({it for kind, it in found.items() if kind not in KINDS}, {"object"})
        self.assertEqual((empty, text), ("{'id': Int32Dtype()}", "['a', 'b', 'a', 'c'] ['Int64', 'string', 'object', 'object'] True"))

    def test_floats_and_moments(self) -> None:
        if not requirements.has_module(requirements.DEBIAN_PYTHON, "pandas"):
            skip(self, "Python's module pandas isn't there: `make needs` installs it")
        command = [requirements.DEBIAN_PYTHON, "-B", "-c", TYPED]
        came = subprocess.run(command, cwd=os.path.join(ROOT, "python"), capture_output=True, text=True, check=False, **started(PROGRAM=PROGRAM))
        self.assertEqual((came.returncode, came.stderr), (0, ""))
        floats, orders, kinds = came.stdout.splitlines()
        self.assertEqual(floats, "['float32', 'float64', 'float32', 'float64'] [0.10000000149011612, 0.1, 16777216.0, 123456789.125] [False, False, True]")
        self.assertEqual(orders, "datetime64[ns] ['2024-02-29 12:34:56.123456700', '2024-03-01 00:00:00', '2024-03-02 23:59:59.999999900']")
        self.assertEqual(kinds, "['Int16', 'Int32', 'Int64', 'UInt8', 'datetime64[ns]', 'object', 'string']")

    def test_rows_that_are_left(self) -> None:
        if not requirements.has_module(requirements.DEBIAN_PYTHON, "pandas"):
            skip(self, "Python's module pandas isn't there: `make needs` installs it")
        command = [requirements.DEBIAN_PYTHON, "-B", "-c", LEFT]
        came = subprocess.run(command, cwd=os.path.join(ROOT, "python"), capture_output=True, text=True, check=False, **started(PROGRAM=PROGRAM))
        self.assertEqual((came.returncode, came.stderr, came.stdout), (0, "", "ValueError\nOverflowError\nKeyboardInterrupt\n" + "8134 1\n" * 2))

    def test_frames_of_answers(self) -> None:
        """By the cursor that `pandas.read_sql` takes, and of rows before an error."""
        if not requirements.has_module(requirements.DEBIAN_PYTHON, "pandas"):
            skip(self, "Python's module pandas isn't there: `make needs` installs it")
        command = [requirements.DEBIAN_PYTHON, "-B", "-W", "ignore", "-c", LIVE]
        came = subprocess.run(command, cwd=os.path.join(ROOT, "python"), capture_output=True, text=True, check=False, **started(PROGRAM=PROGRAM))
        wanted = f"['id', 'customer', 'total', 'ordered', 'note'] [1, 2, 3]\n8134\n{[(it, 'int') for it in (1, 2, 3, 1, 2)]}\n"
        self.assertEqual((came.returncode, came.stdout), (0, wanted), came.stderr)


if __name__ == "__main__":
    unittest.main()
