"""The texts of scalar values, as tds_replay writes them (docs/PROTOCOL.md, Text), for the values of a sql_variant."""
from __future__ import annotations

import struct
from datetime import date, timedelta
from math import isfinite
from typing import Callable, Sequence
from uuid import UUID

from gavyreto.columns import FIXED, LONG
from gavyreto.tds import DataType

FIRST_DAY, DAY_1900 = date(1, 1, 1), date(1900, 1, 1)
MONEY_SCALE = 4
GREATEST_OFFSET = 840  # minutes
GREATEST_PRECISION = 38
TIME_LENGTHS = (3, 3, 3, 4, 4, 5, 5, 5)  # bytes of a time, by its scale
DAYS_LENGTH, OFFSET_LENGTH = 3, 2
SAFE_DIGITS = 6  # of a real, that all have
LEAST_NORMAL = 2.0**-126  # of the reals
SHORTER = {"1.26217745e-29": "1.2621775e-29", "1.54742505e+26": "1.5474251e+26", "1.23794004e+27": "1.2379401e+27"}
SHORTER |= {"-" + long: "-" + short for long, short in SHORTER.items()}  # powers of two whose shortest texts aren't the nearest


def decimal_text(units: int, scale: int) -> str:
    """A number of units of 10^-scale, with all digits of the scale."""
    digits = str(abs(units)).rjust(scale + 1, "0")
    point = len(digits) - scale
    return ("-" if units < 0 else "") + digits[:point] + ("." + digits[point:] if scale else "")


def _day(number: int, first: date = FIRST_DAY) -> str:
    """The date of a number of days since the first. Raises ValueError outside of the years 0001 to 9999."""
    try:
        return (first + timedelta(number)).isoformat()
    except OverflowError:
        raise ValueError("a date out of its range") from None


def _clock(seconds: int) -> str:
    if seconds >= 86400:
        raise ValueError("a time out of its range")
    return f"{seconds // 3600:02}:{seconds // 60 % 60:02}:{seconds % 60:02}"


def _time_of(units: int, scale: int) -> str:
    seconds, fraction = divmod(units, 10**scale)
    return _clock(seconds) + (f".{fraction:0{scale}}" if scale else "")


def _number(data: bytes) -> int:
    return int.from_bytes(data, "little")


def _date_time_offset(data: bytes, scale: int) -> str:
    """Time and date in UTC and minutes, as the local time with its offset."""
    minutes, = struct.unpack("<h", data[-2:])
    day, units = 86400 * 10**scale, _number(data[:-5])
    if units >= day or abs(minutes) > GREATEST_OFFSET:
        raise ValueError("a time or an offset out of its range")
    days, local = divmod(_number(data[-5:-2]) * day + units + minutes * 60 * 10**scale, day)
    sign = "-" if minutes < 0 else "+"
    return f"{_day(days)} {_time_of(local, scale)} {sign}{abs(minutes) // 60:02}:{abs(minutes) % 60:02}"


def doubles(values: Sequence[float]) -> list[str]:
    """The shortest texts of numbers of 64 bits that read back to the same bits. Raises ValueError for what is no number."""
    _check_numbers(values)
    return list(map(repr, values))


def singles(values: Sequence[float]) -> list[str]:
    """The same of numbers of 32 bits. By way of these bits each decimal of six digits reads back to itself, so where a text has fewer digits
    it is that of six; only below the least normal number it may be another one."""
    _check_numbers(values)
    texts = [""] * len(values)
    _spell(texts, values, list(range(len(values))), SAFE_DIGITS)
    _spell(texts, values, [place for place, value in enumerate(values) if 0 < abs(value) < LEAST_NORMAL], 1)
    return [SHORTER.get(it, it) for it in (text if "." in text and "e" not in text else repr(float(text)) for text in texts)]


def _spell(texts: list[str], values: Sequence[float], places: list[int], digits: int) -> None:
    """Puts the first of the texts with so many digits or more that reads back to the same 32 bits, for each of these places."""
    while places:
        tried = [values[place] for place in places]
        came = (f"%.{digits}g " * len(tried) % tuple(tried)).split()
        for place, text in zip(places, came):
            texts[place] = text
        read_back = struct.unpack(f"<{len(came)}f", struct.pack(f"<{len(came)}f", *map(float, came)))
        places = [place for place, value, other in zip(places, tried, read_back) if value != other]
        digits += 1


def _check_numbers(values: Sequence[float]) -> None:
    if not all(map(isfinite, values)):
        raise ValueError("a float or real that is no number")


def _whole(data: bytes, _: int) -> str:
    return str(int.from_bytes(data, "little", signed=len(data) > 1))


def _decimal(data: bytes, scale: int) -> str:
    return decimal_text(_number(data[1:]) if data[0] else -_number(data[1:]), scale)


def _old_date_time(data: bytes, _: int) -> str:
    days, thirds = struct.unpack("<iI", data)
    return f"{_day(days, DAY_1900)} {_clock(thirds // 300)}.{(10 * (thirds % 300) + 1) // 3:03}"


# What makes the text of a value from its bytes and its scale.
TEXTS: dict[int, Callable[[bytes, int], str]] = {
    **dict.fromkeys((DataType.INT1, DataType.INT2, DataType.INT4, DataType.INT8, DataType.INTN), _whole),
    **dict.fromkeys((DataType.BIT, DataType.BITN), lambda data, _: "1" if any(data) else "0"),
    **dict.fromkeys((DataType.DECIMAL, DataType.NUMERIC), _decimal),
    DataType.MONEY: lambda data, _: decimal_text(int.from_bytes(data[4:] + data[:4], "little", signed=True), MONEY_SCALE),
    DataType.MONEY4: lambda data, _: decimal_text(int.from_bytes(data, "little", signed=True), MONEY_SCALE),
    DataType.GUID: lambda data, _: str(UUID(bytes_le=data)),
    DataType.DATE: lambda data, _: _day(_number(data)),
    DataType.TIME: lambda data, scale: _time_of(_number(data), scale),
    DataType.DATETIME2: lambda data, scale: f"{_day(_number(data[-3:]))} {_time_of(_number(data[:-3]), scale)}",
    DataType.DATETIMEOFFSET: _date_time_offset,
    DataType.DATETIME4: lambda data, _: f"{_day(_number(data[:2]), DAY_1900)} {_clock(60 * _number(data[2:]))}",
    DataType.DATETIME: _old_date_time,
    DataType.FLT8: lambda data, _: doubles(struct.unpack("<d", data))[0],
    DataType.FLT4: lambda data, _: singles(struct.unpack("<f", data))[0],
}
# How many bytes of properties a base type of a sql_variant has, if it has some (MS-TDS, sql_variant Values).
PROPERTIES: dict[int, int] = {
    DataType.TIME: 1, DataType.DATETIME2: 1, DataType.DATETIMEOFFSET: 1, DataType.DECIMAL: 2, DataType.NUMERIC: 2, **LONG,
}
# How many bytes a value may have, of those without a scale.
LENGTHS: dict[int, tuple[int, ...]] = {
    **{byte: (length,) for byte, length in FIXED.items() if length}, DataType.INTN: (1, 2, 4, 8), DataType.BITN: (1,),
    DataType.DECIMAL: (5, 9, 13, 17), DataType.NUMERIC: (5, 9, 13, 17), DataType.GUID: (16,), DataType.DATE: (DAYS_LENGTH,),
}
BESIDE_TIME: dict[int, int] = {DataType.TIME: 0, DataType.DATETIME2: DAYS_LENGTH, DataType.DATETIMEOFFSET: DAYS_LENGTH + OFFSET_LENGTH}


def check_variant(base: int, properties: bytes, length: int) -> None:
    """Sees to it that a sql_variant may have a base type with these properties and a value of so many bytes. Raises
    ValueError."""
    if base not in LENGTHS and base not in PROPERTIES:
        raise ValueError(f"no base type of a sql_variant: 0x{base:02x}")
    if len(properties) != PROPERTIES.get(base, 0):
        raise ValueError(f"a sql_variant of the type 0x{base:02x} with {len(properties)} bytes of properties")
    if not _is_value(base, properties, length):
        raise ValueError(f"a sql_variant of the type 0x{base:02x}, the properties {properties.hex()} and {length} bytes")


def _is_value(base: int, properties: bytes, length: int) -> bool:
    """Whether scale and precision are in their ranges, and a value may have so many bytes."""
    if base in BESIDE_TIME:
        return properties[0] < len(TIME_LENGTHS) and length == TIME_LENGTHS[properties[0]] + BESIDE_TIME[base]
    if base in (DataType.DECIMAL, DataType.NUMERIC) and not max(1, properties[1]) <= properties[0] <= GREATEST_PRECISION:
        return False
    if base in LENGTHS:
        return length in LENGTHS[base]
    is_whole = length % 2 == 0 or base not in (DataType.NVARCHAR, DataType.NCHAR)
    return is_whole and length <= int.from_bytes(properties[-2:], "little")
