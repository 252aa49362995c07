"""Tests of the package as it is installed by pip."""
from __future__ import annotations

import os
import re
import shutil
import subprocess
import sys
import tempfile
import unittest

import gavyreto
from tests.beside import PROGRAM, ROOT, skip

DEBIAN = "/usr/bin/python3"


# In a clone: leaves what a build leaves, with the program of the first argument as the one that was built.
AS_BUILT = """
import os, shutil, sys
sys.path.insert(0, "tools")
from lib import repository
for name in (*repository.below("replay"), "replay"):
    repository.set_done("proved", name, repository.sum_of(name))
os.makedirs("crates/replay/out")
shutil.copy2(sys.argv[1], "crates/replay/out/replay")
"""


def made_without_kit(clone: str, *words: str) -> subprocess.CompletedProcess[str]:
    """What `make` does in a clone where `rt` isn't on the path."""
    folders = [it for it in os.environ["PATH"].split(os.pathsep) if not os.path.exists(os.path.join(it, "rt"))]
    return subprocess.run(["make", *words], cwd=clone, env={"PATH": os.pathsep.join(folders)}, capture_output=True, text=True, check=False)


def packed(folder: str, into: str) -> tuple[str, bytes]:
    """The name and the bytes of the package for Debian that a clone of the repository makes."""
    os.mkdir(os.path.join(folder, into))
    variables = {name: value for name, value in os.environ.items() if name != "SOURCE_DATE_EPOCH"}
    words = [os.path.join(folder, "clone", "tools", "deb"), PROGRAM, os.path.join(folder, into)]
    path = subprocess.run(words, env=variables, check=True, capture_output=True, text=True).stdout.strip()
    with open(path, "rb") as file:
        return os.path.basename(path), file.read()


def environment_in(folder: str) -> str:
    """The folder of programs of a new environment of Python, which has pip and nothing else."""
    environment = os.path.join(folder, "environment")
    subprocess.run([DEBIAN, "-m", "venv", environment], check=True, capture_output=True)
    programs = os.path.join(environment, "bin")
    subprocess.run([os.path.join(programs, "python"), "-m", "pip", "uninstall", "--quiet", "--yes", "setuptools", "wheel"], check=True, capture_output=True)
    return programs


def names_below(folder: str) -> list[str]:
    """All files and folders below a folder."""
    return sorted(os.path.join(at, name) for at, folders, names in os.walk(folder) for name in [*folders, *names])


class Packed(unittest.TestCase):
    def test_what_cannot_be_packed(self) -> None:
        """Another program, and a folder that isn't there: a line. A folder for temporary files that isn't there is no matter."""
        with tempfile.TemporaryDirectory() as folder:
            for program, into, line in (
                (sys.executable, folder, f"{sys.executable} isn't tds_replay"), (PROGRAM, os.path.join(folder, "none"), "No such file or directory"), (PROGRAM, folder, ""),
            ):
                words = [os.path.join(ROOT, "tools", "deb"), program, into]
                came = subprocess.run(words, env=os.environ | {"TMPDIR": os.path.join(folder, "none")}, capture_output=True, text=True, check=False)
                with self.subTest(line):
                    self.assertEqual((came.returncode, came.stderr.strip().count("\n")), (int(bool(line)), 0), came.stderr)
                    self.assertIn(line, came.stderr)
            self.assertEqual([name[-4:] for name in os.listdir(folder)], [".deb"])


class Installed(unittest.TestCase):
    def test_pip_installs_the_package_and_its_command(self) -> None:
        """From a copy of its folder alone, in an environment without setuptools and wheel. No index is asked, and nothing is left in the copy."""
        if subprocess.run([DEBIAN, "-c", "import venv, ensurepip"], capture_output=True, check=False).returncode != 0:
            skip(self, "Python's module venv isn't there: `make needs` installs it")
        with tempfile.TemporaryDirectory() as folder:
            copy, programs = os.path.join(folder, "python"), environment_in(folder)
            shutil.copytree(os.path.join(ROOT, "python"), copy, ignore=shutil.ignore_patterns("__pycache__", "tests"))
            variables = {name: value for name, value in os.environ.items() if name not in ("PYTHONPATH", "PYTHONDONTWRITEBYTECODE")}
            variables["PATH"] = programs + os.pathsep + variables["PATH"]
            was = names_below(copy)
            for word in ("--no-deps", "--no-build-isolation"):
                subprocess.run(["pip", "install", "--quiet", "--no-index", "--force-reinstall", word, "./python"], cwd=folder, env=variables, check=True, capture_output=True)
                self.assertEqual(names_below(copy), was)
                self.look_at_installed(folder, variables)

    def look_at_installed(self, folder: str, variables: dict[str, str]) -> None:
        """Looks whether the command and the modules are those of this repository, and are whole."""
        code = "import sys, gavyreto; print(gavyreto.__version__, [len(list(it)) for it in gavyreto.export(sys.argv[1], program=sys.argv[2])])"
        example = os.path.join(ROOT, "examples", "first.tds")
        for command, wanted in (
            (["gavyreto", "--version"], f"gavyreto {gavyreto.__version__}\n"),
            (["python", "-m", "gavyreto", "--version"], f"gavyreto {gavyreto.__version__}\n"),
            (["python", "-c", code, example, PROGRAM], f"{gavyreto.__version__} [1]\n"),
            (["gavyreto", "columns", example], '"set","name","type","length","precision","scale","nullable"\n1,"a","int",NULL,NULL,NULL,0\n'),
        ):
            with self.subTest(command=command[:3]):
                came = subprocess.run(command, cwd=folder, env=variables, capture_output=True, text=True, check=False)
                self.assertEqual((came.returncode, came.stdout.replace("\r", "")), (0, wanted), came.stderr)
        listed = subprocess.run(["pip", "show", "--files", "gavyreto"], env=variables, check=True, capture_output=True, text=True).stdout
        for name in ("gavyreto/py.typed", "gavyreto/commands/query.py"):
            self.assertIn(f"  {name}\n", listed)

    def test_the_version_is_that_of_the_program(self) -> None:
        said = subprocess.run([PROGRAM, "--version"], capture_output=True, text=True, check=True).stdout
        self.assertRegex(said, rf"^tds_replay {re.escape(gavyreto.__version__)} \(sources [0-9a-f]{{16}}\)\n$")

    def test_two_packages_for_debian_of_one_commit_are_equal_and_of_two_commits_are_not(self) -> None:
        with tempfile.TemporaryDirectory() as folder:
            subprocess.run(["git", "clone", "--quiet", "--shared", ROOT, os.path.join(folder, "clone")], check=True)
            first, again = (packed(folder, into) for into in ("one", "two"))
            own = ["-c", "user.name=A", "-c", "user.email=a@example.org", "commit", "--quiet", "--allow-empty", "--date", "2040-01-01T00:00:00Z", "-m", "Next"]
            subprocess.run(["git", "-C", os.path.join(folder, "clone"), *own], check=True, env=os.environ | {"GIT_COMMITTER_DATE": "2040-01-01T00:00:00Z"})
            other = packed(folder, "three")
            with open(os.path.join(folder, "clone", "README.md"), "a", encoding="utf-8") as file:
                file.write("\n")
            modified = packed(folder, "four")
        self.assertEqual(first, again)
        self.assertEqual(len({name for name, _ in (first, other, modified)}), 3)
        self.assertEqual([name.count("+modified") for name, _ in (first, other, modified)], [0, 0, 1])

    def test_make_installs_what_is_built_without_the_kit(self) -> None:
        """As under sudo, where `rt` isn't on the path: if the sources are those of the program, and not if one of them changed."""
        with tempfile.TemporaryDirectory() as folder:
            clone, prefix = os.path.join(folder, "clone"), os.path.join(folder, "prefix")
            subprocess.run(["git", "clone", "--quiet", "--shared", ROOT, clone], check=True)
            subprocess.run([DEBIAN, "-B", "-c", AS_BUILT, PROGRAM], cwd=clone, check=True)
            first = made_without_kit(clone, "install", f"PREFIX={prefix}")
            self.assertEqual(first.returncode, 0, first.stderr)
            self.assertEqual(sum(os.path.isfile(it) for it in names_below(prefix)), 5)
            self.assertEqual(made_without_kit(clone, "uninstall", f"PREFIX={prefix}").returncode, 0)
            self.assertEqual(names_below(prefix), [])
            with open(os.path.join(clone, "crates", "tds_meter", "src", "limits.rt"), "a", encoding="utf-8") as source:
                source.write("\n")
            changed = made_without_kit(clone, "install", f"PREFIX={prefix}")
            self.assertIn("rt isn't there", changed.stderr)
            self.assertEqual((changed.returncode == 0, names_below(prefix)), (False, []))

    def test_completion(self) -> None:
        """Each command's words complete; the words that help names are held to completion by `tools/lint`."""
        for program, words, wanted in (
            ("gavyreto", ["ca"], ["capture"]), ("gavyreto", ["--v"], ["--version"]), ("gavyreto", ["many", "--sch"], ["--scheduler"]), ("gavyreto", ["columns", "--as", "s"], ["sqlite"]), ("gavyreto", ["help", "c"], ["capture", "columns"]),
            ("tds_replay", ["-V"], ["-V"]), ("tds_replay", ["--v"], ["--version"]), ("tds_replay", ["recut", "--c"], []), ("tds_replay", ["export", "--c"], ["--column-room", "--charset"]),
        ):
            path = os.path.join(ROOT, "tools", "completion", f"{program}.bash")
            script = f'. {path}; COMP_WORDS=({program} {" ".join(words)}); COMP_CWORD={len(words)}; _{program}; printf "%s\\n" "${{COMPREPLY[@]}}"'
            with self.subTest(program=program, words=words):
                self.assertEqual(subprocess.run(["bash", "-c", script], capture_output=True, text=True, check=True).stdout.split(), wanted)

    def test_names(self) -> None:
        """Each name that the package promises is there; others aren't."""
        for name in gavyreto.__all__:
            self.assertTrue(hasattr(gavyreto, name), name)
        self.assertLessEqual(set(gavyreto.__all__), set(dir(gavyreto)))
        with self.assertRaises(AttributeError):
            getattr(gavyreto, "nothing")

    def test_commands(self) -> None:
        cases: list[tuple[list[str], int]] = [(["--help"], 0), (["query", "--help"], 0), (["help", "query"], 0), (["help"], 0), (["help", "nothing"], 2), ([], 2), (["nothing"], 2), (["query"], 2)]
        for words, status in cases:
            came = subprocess.run([shutil.which("python3") or DEBIAN, "-m", "gavyreto", *words], cwd=os.path.join(ROOT, "python"), capture_output=True, check=False)
            with self.subTest(words=words):
                self.assertEqual((came.returncode, bool(came.stdout), bool(came.stderr)), (status, status == 0, status != 0))

    def test_flags_of_sqlcmd(self) -> None:
        """A flag that means something else here is refused by a line that says what to write; a password isn't repeated."""
        for words, wanted in (
            (["-Q", "SELECT 1"], "argument"), (["-P", "secret"], "SQLCMDPASSWORD"), (["-Psecret"], "SQLCMDPASSWORD"), (["-G"], "--access-token-file FILE"),
            (["-T"], "write -E"), (["-c"], "CSV"), (["-x"], "variables"),
            (["-t", "5"], "--seconds"), (["-a", "4096"], "--packet-size"), (["-S", "db:1434"], "db,1434"), (["-S", "tcp:db:1434"], "db,1434"),
        ):
            command = [shutil.which("python3") or DEBIAN, "-m", "gavyreto", "query", "-U", "reader", *words]
            came = subprocess.run(command, cwd=os.path.join(ROOT, "python"), capture_output=True, text=True, check=False)
            with self.subTest(words=words):
                self.assertEqual((came.returncode, came.stdout, "secret" in came.stderr), (2, "", False))
                self.assertIn(wanted, came.stderr.splitlines()[-1])
