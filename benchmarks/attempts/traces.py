"""The rows of a trace, and its faults, T1 to T6. By docs/FORMATS.md."""
import re

from ends import Ended
from operations import fit


def fields_of(line):
    """The fields of a line of a trace."""
    return re.split("[ \t]+", line) if line else []


def rows_of(cut, content):
    """The inputs of each row of a trace."""
    lines = content.decode("latin-1").split("\n")
    lines = [line.removesuffix("\r") for line in lines[:-1]] + ([lines[-1]] if lines[-1] else [])
    names = [name for name in cut.inputs if name not in cut.driven]
    header = fields_of(lines[0]) if lines else []
    for field, name in enumerate(header):
        if (name != "cycle") if field == 0 else (name not in names or name in header[1:field]):
            raise Ended(7, f"trace: T1 field {field}")
    if len(header) < len(names) + 1:
        raise Ended(7, f"trace: T1 field {len(header)}")
    return [row_of(cut, header, row, fields_of(line)) for row, line in enumerate(lines[1:])]


def row_of(cut, header, row, fields):
    """The inputs of one row."""
    if row == 1_000_000:
        raise Ended(7, "trace: T6 row 1000000")
    if len(fields) != len(header):
        raise Ended(7, f"trace: T5 row {row} {len(fields)}")
    if fields[0] != str(row):
        raise Ended(7, f"trace: T2 row {row}")
    values = {}
    for field, (name, value) in enumerate(zip(header[1:], fields[1:]), 1):
        if not value or any(c not in "0123456789abcdefABCDEF" for c in value):
            raise Ended(7, f"trace: T3 row {row} field {field}")
        if int(value, 16) >> cut.flat.types[name][1]:
            raise Ended(7, f"trace: T4 row {row} field {field}")
        values[name] = fit(cut.flat.types[name], int(value, 16))
    return values
