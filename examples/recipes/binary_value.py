"""Turns the text of one binary value, the only one of its row, back into its bytes, however long it is.

    tds_replay export response.tds | python3 examples/recipes/binary_value.py > value.bin

Needs: `python3`.

It prints the bytes, and holds 65,536 characters of the text at a time; or a line with what is wrong, with status 1."""
import sys

read, write, end = sys.stdin.buffer.read, sys.stdout.buffer.write, b""
sys.stdin.buffer.readline()  # the names of the columns
if read(2) != b"0x":
    sys.exit("no binary value")
try:
    while piece := read(65536):
        write(bytes.fromhex(piece.decode()))
        end = (end + piece)[-2:]
except ValueError:
    sys.exit("more or less than a binary value")
if end != b"\r\n":
    sys.exit("the text ends within a row")
