"""Which of Debian's packages have the programs and Python modules that tests, recipes and pictures need."""
import glob
import os
import shutil
import subprocess

DEBIAN_PYTHON = "/usr/bin/python3"
POSTGRESQL = "/usr/lib/postgresql/*/bin"  # which Debian keeps off the path
PROGRAMS = {
    "tshark": "tshark", "xxd": "xxd", "sqlite3": "sqlite3", "initdb": "postgresql", "pg_ctl": "postgresql", "psql": "postgresql-client",
    "sha256sum": "coreutils", "nproc": "coreutils", "xargs": "findutils", "openssl": "openssl", "socat": "socat", "tsql": "freetds-bin",
    "freebcp": "freetds-bin", "pv": "pv", "strip": "binutils", "dpkg-deb": "dpkg", "dpkg": "dpkg", "dask-scheduler": "python3-distributed",
    "dask-worker": "python3-distributed", "time": "time", "mypy": "mypy", "lintian": "lintian", "cc": "gcc",
    "tcpdump": "tcpdump", "editcap": "wireshark-common", "zsh": "zsh", "fish": "fish", "shellcheck": "shellcheck",
    "flake8": "flake8", "kinit": "krb5-user", "krb5kdc": "krb5-kdc", "kadmin.local": "krb5-admin-server",
}
MODULES = {
    "pandas": "python3-pandas", "distributed": "python3-distributed", "pymssql": "python3-pymssql", "ensurepip": "python3-venv",
    "matplotlib": "python3-matplotlib", "hypothesis": "python3-hypothesis", "gssapi": "python3-gssapi", "nbclient": "python3-nbclient",
    "ipykernel": "python3-ipykernel",
}


def path() -> str:
    """The path for programs, with the folders that Debian keeps off it, as some users have none for its daemons."""
    return os.pathsep.join([os.environ.get("PATH", os.defpath), *glob.glob(POSTGRESQL), "/usr/sbin"])


def has_program(name: str) -> bool:
    """Whether a program is on the path."""
    return shutil.which(name, path=path()) is not None


def has_module(python: str, name: str) -> bool:
    """Whether a Python has a module."""
    return subprocess.run([python, "-c", f"import {name}"], capture_output=True, check=False).returncode == 0


def lacking() -> list[str]:
    """The packages whose programs and modules aren't there."""
    found = {package for name, package in PROGRAMS.items() if not has_program(name)}
    found |= {package for name, package in MODULES.items() if not has_module(DEBIAN_PYTHON, name)}
    return sorted(found)
