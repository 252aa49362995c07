"""Descriptions of columns: their types as SQL writes them (MS-TDS, COLMETADATA, Data Type Definitions)."""
from __future__ import annotations

import re
import struct
from typing import Callable, NamedTuple, Optional

from gavyreto.tds import DataType

Need = Callable[[int], bytes]  # hands out as many bytes as it is asked for, or raises `payload.Ended`

# Types without a length, and how many bytes a value has.
FIXED: dict[int, int] = {
    DataType.NULL: 0, DataType.INT1: 1, DataType.BIT: 1, DataType.INT2: 2, DataType.INT4: 4, DataType.DATETIME4: 4, DataType.FLT4: 4,
    DataType.MONEY: 8, DataType.DATETIME: 8, DataType.FLT8: 8, DataType.MONEY4: 4, DataType.INT8: 8,
}
# Types with a length of one byte before each value, and how many bytes follow the type's byte.
COUNTED: dict[int, int] = {
    DataType.GUID: 1, DataType.INTN: 1, DataType.DATE: 0, DataType.TIME: 1, DataType.DATETIME2: 1, DataType.DATETIMEOFFSET: 1,
    DataType.BITN: 1, DataType.DECIMAL: 3, DataType.NUMERIC: 3, DataType.FLTN: 1, DataType.MONEYN: 1, DataType.DATETIMEN: 1,
}
# Types with a length of two bytes before each value, or in chunks if they are described as FFFF long.
LONG: dict[int, int] = {
    DataType.VARBINARY: 2, DataType.BINARY: 2, DataType.VARCHAR: 7, DataType.CHAR: 7, DataType.NVARCHAR: 7, DataType.NCHAR: 7,
}
MAX = 0xFFFF
NO_METADATA = 0xFFFF  # the count of a COLMETADATA without columns
ROWVERSION = 80  # the user type of a rowversion, which is a binary(8) otherwise
NULLABLE = 0x8001  # bits of the flags: NULL is allowed, or it isn't known whether it is

NAMES: dict[int, str] = {
    DataType.INT1: "tinyint", DataType.BIT: "bit", DataType.INT2: "smallint", DataType.INT4: "int", DataType.INT8: "bigint",
    DataType.DATETIME4: "smalldatetime", DataType.DATETIME: "datetime", DataType.MONEY4: "smallmoney", DataType.MONEY: "money",
    DataType.FLT4: "real", DataType.FLT8: "float", DataType.GUID: "uniqueidentifier", DataType.DATE: "date", DataType.BITN: "bit",
    DataType.IMAGE: "image", DataType.TEXT: "text", DataType.NTEXT: "ntext", DataType.VARIANT: "sql_variant", DataType.XML: "xml",
    DataType.DECIMAL: "decimal", DataType.NUMERIC: "numeric", DataType.TIME: "time", DataType.DATETIME2: "datetime2",
    DataType.DATETIMEOFFSET: "datetimeoffset", DataType.VARBINARY: "varbinary", DataType.VARCHAR: "varchar", DataType.BINARY: "binary",
    DataType.CHAR: "char", DataType.NVARCHAR: "nvarchar", DataType.NCHAR: "nchar",
}
SIZED: dict[int, dict[int, str]] = {
    DataType.INTN: {1: "tinyint", 2: "smallint", 4: "int", 8: "bigint"}, DataType.FLTN: {4: "real", 8: "float"},
    DataType.MONEYN: {4: "smallmoney", 8: "money"}, DataType.DATETIMEN: {4: "smalldatetime", 8: "datetime"},
}
WHOLE, BINARY = ("tinyint", "smallint", "int", "bigint"), ("binary", "varbinary", "rowversion")
FLOATS = ("float", "real")


class Type(NamedTuple):
    """A type: its byte, the bytes of its description after that, and what they say."""

    byte: int
    info: bytes
    length: Optional[int] = None  #: bytes of a value at most, as described; FFFF stands for (max)
    precision: Optional[int] = None
    scale: Optional[int] = None
    name: str = ""  #: of a CLR type: database, schema and type

    def spelt(self) -> bytes:
        """As a description has it."""
        return bytes([self.byte]) + self.info

    def is_chunked(self) -> bool:
        """Whether its values come in chunks."""
        return self.byte in (DataType.XML, DataType.UDT) or self.byte in LONG and self.length == MAX

    def sql(self) -> str:
        """As SQL writes it, for example `decimal(18,4)`. Raises ValueError for a type that no server of today sends."""
        if self.byte == DataType.UDT:
            return self.name
        name = SIZED[self.byte].get(self.length or 0) if self.byte in SIZED else NAMES.get(self.byte)
        if name is None:
            raise ValueError(f"no type of a column: 0x{self.byte:02x}" + (f" of {self.length} bytes" if self.byte in SIZED else ""))
        if self.byte in LONG:
            return f"{name}({'max' if self.most() is None else self.most()})"
        digits = [str(it) for it in (self.precision, self.scale) if it is not None]
        return f"{name}({','.join(digits)})" if digits else name

    def most(self) -> Optional[int]:
        """The most bytes of a value, or characters of nchar and nvarchar; None if there is no limit, or it is fixed."""
        if self.byte not in LONG or self.length is None or self.length == MAX:
            return None
        return self.length // 2 if self.byte in (DataType.NVARCHAR, DataType.NCHAR) else self.length


class Column(NamedTuple):
    """A column of a result set."""

    name: str
    type: str  #: as SQL writes it, for example `decimal(18,4)` or `nvarchar(50)`
    length: Optional[int]  #: the most bytes of a value, or characters of nchar and nvarchar; None if there is no limit, or it is fixed
    precision: Optional[int]  #: digits of a decimal
    scale: Optional[int]  #: digits after the point, of a decimal or a second
    nullable: bool

    @property
    def kind(self) -> str:
        """The type without its length or digits; "" of a CLR type, whose name has dots."""
        return "" if "." in self.type else self.type.partition("(")[0]


def read_type(need: Need) -> Type:
    """Reads a type from its byte on. Raises ValueError for one that MS-TDS doesn't have."""
    byte, = need(1)
    if byte in FIXED:
        return Type(byte, b"")
    if byte in COUNTED:
        return _counted(byte, need(COUNTED[byte]))
    if byte in LONG or byte == DataType.VARIANT:
        info = need(LONG.get(byte, 4))
        return Type(byte, info, int.from_bytes(info[:2] if byte in LONG else info, "little"))
    if byte in (DataType.TEXT, DataType.NTEXT, DataType.IMAGE):
        return _old(byte, need)
    if byte == DataType.XML:
        return _xml(need)
    if byte == DataType.UDT:
        return _clr(need)
    raise ValueError(f"no type: 0x{byte:02x}")


def _old(byte: int, need: Need) -> Type:
    """Text, ntext or image: the length, of text the collation, and the name of the table in parts."""
    info = need(4 if byte == DataType.IMAGE else 9)
    parts = need(1)
    return Type(byte, info + parts + b"".join(_name(need, 2) for _ in range(parts[0])), int.from_bytes(info[:4], "little"))


def _xml(need: Need) -> Type:
    """Whether there is a schema, and its names."""
    flag = need(1)
    return Type(DataType.XML, flag + b"".join((_name(need), _name(need), _name(need, 2))) if flag[0] else flag)


def _clr(need: Need) -> Type:
    """The length, the names of database, schema and type, and that of the assembly."""
    length, names = need(2), [_name(need) for _ in range(3)]
    name = ".".join(it[1:].decode("utf-16-le", "replace") for it in names)
    return Type(DataType.UDT, length + b"".join(names) + _name(need, 2), int.from_bytes(length, "little"), name=name)


def _counted(byte: int, info: bytes) -> Type:
    if byte in (DataType.DECIMAL, DataType.NUMERIC):
        return Type(byte, info, *info)
    if byte in (DataType.TIME, DataType.DATETIME2, DataType.DATETIMEOFFSET):
        return Type(byte, info, scale=info[0])
    return Type(byte, info, info[0] if info else None)


def _name(need: Need, size: int = 1) -> bytes:
    """A name behind the count of its units, which has so many bytes."""
    count = need(size)
    return count + need(2 * int.from_bytes(count, "little"))


class Described(NamedTuple):
    """A column as its description has it."""

    user_type: int
    flags: int
    type: Type
    spelt_name: bytes  #: a byte that counts UTF-16 units, then the units

    def spelt(self, info: bytes = b"") -> bytes:
        """As a description has it, or with another type, whose byte comes first."""
        return struct.pack("<IH", self.user_type, self.flags) + (info or self.type.spelt()) + self.spelt_name

    @property
    def name(self) -> str:
        return self.spelt_name[1:].decode("utf-16-le", "replace")

    def column(self) -> Column:
        sql = "rowversion" if self.user_type == ROWVERSION and self.type.byte == DataType.BINARY else self.type.sql()
        return Column(self.name, sql, self.type.most(), self.type.precision, self.type.scale, bool(self.flags & NULLABLE))


def read_description(need: Need) -> Optional[list[Described]]:
    """Reads a COLMETADATA after its token byte; None if it has no metadata."""
    count, = struct.unpack("<H", need(2))
    return None if count == NO_METADATA else [read_column(need) for _ in range(count)]


def read_column(need: Need) -> Described:
    """Reads a column of a COLMETADATA."""
    user_type, flags = struct.unpack("<IH", need(6))
    return Described(user_type, flags, read_type(need), _name(need))


# Tables that have room for all values of a column, as `gavyreto.export` gives them.

def sqlite_type(column: Column) -> str:
    """The type of a column of SQLite, in which each value is stored as it is: decimals and dates as text, with all digits. A BLOB alone leaves
    a float as it is, where TEXT keeps 15 digits of it, and REAL no sign of a zero."""
    if column.type in ("bit", *WHOLE):
        return "INTEGER"
    return "BLOB" if column.kind in (*BINARY, *FLOATS) else "TEXT"


POSTGRESQL = {  # by the kind of a column, which is filled in; others are text
    "tinyint": "smallint", "smallint": "smallint", "int": "integer", "bigint": "bigint", "bit": "boolean", "uniqueidentifier": "uuid",
    "date": "date", "smalldatetime": "timestamp(0)", "datetime": "timestamp(3)", "smallmoney": "numeric(10,4)", "money": "numeric(19,4)",
    **dict.fromkeys(("decimal", "numeric"), "numeric({0.precision},{0.scale})"), "time": "time({0.scale})", "datetime2": "timestamp({0.scale})",
    **dict.fromkeys(BINARY, "bytea"),
}


def postgresql_type(column: Column) -> str:
    """The type of a column of PostgreSQL. Times of seven digits stay text, since PostgreSQL has six; a datetimeoffset too, since
    a timestamptz keeps no offset."""
    return "text" if column.scale == 7 and column.kind in ("time", "datetime2") else POSTGRESQL.get(column.kind, "text").format(column)


def create_table(table: str, columns: list[Column], type_of: Callable[[Column], str]) -> str:
    """The statement that creates a table with these columns. Raises ValueError if two have one name, or one has none or a NUL character,
    at which the shell of SQLite leaves out the rest of a line, and with it the end of the quoted name."""
    names = [column.name for column in columns]
    if "" in names or "\0" in "".join(names) or len({name.lower() for name in names}) < len(names):
        raise ValueError("a column without a name or with a NUL character in it, or two of one name: name them in the query")
    lines = [f"    {quoted(column.name)} {type_of(column)}{'' if column.nullable else ' NOT NULL'}" for column in columns]
    return f"CREATE TABLE {table_name(table)} (\n" + ",\n".join(lines) + "\n);\n"


def table_name(name: str) -> str:
    """The name of a table as SQL writes it: a.b is the table b of the schema a, and a part in double quotes is taken as it is."""
    parts = re.findall(r'("(?:[^"]|"")*"|[^".][^.]*)(?:\.|$)', name)
    if ".".join(parts) != name or not parts:
        raise ValueError(f"{name} is no name of a table")
    return ".".join(part if part.startswith('"') else quoted(part) for part in parts)


def quoted(name: str) -> str:
    return '"' + name.replace('"', '""') + '"'


TABLES: dict[str, Callable[[Column], str]] = {"sqlite": sqlite_type, "postgresql": postgresql_type}
