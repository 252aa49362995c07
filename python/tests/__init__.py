"""The tests of the package: python3 -m tests, in the folder python. The variable PROGRAM names tds_replay if it isn't bin/tds_replay."""
