"""The version of the package, which is the program's."""

__version__ = "1.0.0"

# The commit that the package was built of, which whoever builds it writes here; nothing in the sources.
COMMIT = ""
