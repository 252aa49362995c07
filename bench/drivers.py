"""Measures the package beside pymssql and pyodbc, all by Debian's Python on tools/stand-in.

Each asks on a connection of its own, unencrypted. Counted are the processor's seconds of all processes of a client, its start included,
the least of five runs, and the peak of the greatest process. pyodbc goes by FreeTDS's driver, tdsodbc."""
from __future__ import annotations

import os
import subprocess
import sys
import tempfile
from collections.abc import Iterator

import beside
from lib import repository as repo, requirements, sample_responses as responses
from lib.served import done
from gavyreto import tds

ROWS, STATEMENTS = 300_000, 1_000
NEEDED = {"pymssql": "python3-pymssql", "pyodbc": "python3-pyodbc", "pandas": "python3-pandas", "tsql": "freetds-bin", "openssl": "openssl", "time": "time"}
DRIVER = "/usr/lib/x86_64-linux-gnu/odbc/libtdsodbc.so"
CONNECT = {
    "gavyreto": "import gavyreto; it = gavyreto.connect('127.0.0.1', port=PORT, user='u', password='p', encrypt='none')",
    "pymssql": "import pymssql; it = pymssql.connect('127.0.0.1', 'u', 'p', port=PORT)",
    "pyodbc": f"import pyodbc; it = pyodbc.connect('DRIVER={DRIVER};SERVER=127.0.0.1;UID=u;PWD=p;TDS_Version=7.4;Encryption=off;PORT=' + str(PORT), autocommit=True)",
}
ASK = {
    "gavyreto": "def ask(text): return it.cursor().execute(text, program=PROGRAM)",
    "pymssql": "def ask(text):\n    cursor = it.cursor()\n    cursor.execute(text)\n    return cursor",
    "pyodbc": "def ask(text): return it.cursor().execute(text)",
}
WORK = {
    f"{STATEMENTS:,} statements of 3 rows": f"for _ in range({STATEMENTS}): ask('SELECT * FROM small').fetchall()",
    f"{ROWS:,} rows, one by one": "for row in ask('SELECT * FROM rows'): pass",
    f"{ROWS:,} rows as a DataFrame": (
        "cursor = ask('SELECT * FROM rows')\n"
        "if hasattr(cursor, '_set'): frame = cursor._rows().frame()\n"
        "else:\n    import pandas\n    names = [column[0] for column in cursor.description]\n"
        "    frame = pandas.DataFrame.from_records([tuple(row) for row in cursor.fetchall()], columns=names)"),
    "one row": "ask('SELECT * FROM one').fetchall()",
}


def response(count: int) -> Iterator[bytes]:
    """So many rows of five columns: int, nvarchar, decimal, datetime and varchar, which all of them read."""
    columns = [responses.COLUMNS[responses.NAMES.index(name)] for name in ("whole", "title", "amount", "moment_or_null", "name")]
    yield responses.description(columns)
    rows = [responses.row(columns, [column.values[place] for column in columns]) for place in range(2)]
    yield from (rows[number % 2] for number in range(count))
    yield done(0x10)


def script(client: str, work: str) -> str:
    """What a client runs."""
    return f"import os\nPORT, PROGRAM = int(os.environ['PORT']), os.environ['PROGRAM']\n{CONNECT[client]}\n{ASK[client]}\n{work}\n"


def measure(program: str) -> None:
    """Prints the table, beside a server whose port is in the environment."""
    variables = {"PYTHONPATH": beside.compiled().name, "PROGRAM": program}
    bare = beside.least([requirements.DEBIAN_PYTHON, "-c", ""], ".")
    print(f"Python alone: {bare.seconds:.2f} seconds")
    print("| work | " + " | ".join(f"{client}: seconds | peak, MB" for client in CONNECT) + " |")
    print("|---" * (1 + 2 * len(CONNECT)) + "|")
    for name, work in WORK.items():
        costs = [beside.least([requirements.DEBIAN_PYTHON, "-c", script(client, work)], ".", **variables) for client in CONNECT]
        print(f"| {name} | " + " | ".join(it.cells() for it in costs) + " |", flush=True)


def compare(program: str) -> None:
    """Makes the responses, and measures beside a server of them."""
    absent = beside.absent(NEEDED) + ["tdsodbc"] * (not os.path.exists(DRIVER))
    if absent:
        sys.exit(f"Debian's packages of these are needed: {' '.join(absent)}")
    with tempfile.TemporaryDirectory() as folder:
        for name, count in {"rows": ROWS, "small": 3, "one": 1}.items():
            with open(os.path.join(folder, name + ".tds"), "wb") as file:
                file.writelines(tds.packets(response(count), 4096))
        own = [sys.executable, repo.path_of("bench", "run"), "drivers", program, "--beside"]
        served = [repo.path_of("tools", "stand-in"), "--encrypt", "none", "--connections", "100000", "--seconds", "10000"]
        subprocess.run([*served, "rows.tds", "small.tds", "one.tds", "--", *own], cwd=folder, check=True)
