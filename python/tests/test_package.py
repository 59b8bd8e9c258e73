"""The package as it is built, installed and documented."""

import base64
import contextlib
import csv
import doctest
import hashlib
import importlib.util
import inspect
import os
import re
import subprocess
import sys
import tarfile
import unittest
import unittest.mock
import venv
import zipfile
from types import ModuleType
from typing import Any, Dict, List

import elide
from elide import errors

from .support import COUNTER, PYTHON, Case, environment


def backend() -> ModuleType:
    """What builds the package."""
    path = os.path.join(PYTHON, "backend", "elide_build.py")
    spec = importlib.util.spec_from_file_location("elide_build", path)
    assert spec is not None and spec.loader is not None
    module = importlib.util.module_from_spec(spec)
    spec.loader.exec_module(module)
    return module


def digest(row: bytes) -> str:
    return base64.urlsafe_b64encode(hashlib.sha256(row).digest()).rstrip(b"=").decode()


class Archives(Case):
    """The wheel and the archive of the sources."""

    def test_the_wheel(self) -> None:
        name = backend().build_wheel(self.folder)
        self.assertEqual(name, f"elide-{elide.__version__}-py3-none-any.whl")
        with zipfile.ZipFile(os.path.join(self.folder, name)) as wheel:
            files = {it: wheel.read(it) for it in wheel.namelist()}
        info = f"elide-{elide.__version__}.dist-info"
        modules = [it for it in os.listdir(os.path.join(PYTHON, "elide")) if it.endswith(".py")]
        wanted = {f"elide/{it}" for it in [*modules, "py.typed"]}
        self.assertEqual(
            set(files), wanted | {f"{info}/{it}" for it in ("METADATA", "WHEEL", "RECORD")}
        )
        rows = list(csv.reader(files[f"{info}/RECORD"].decode().splitlines()))
        self.assertEqual({row[0] for row in rows}, set(files))
        for path, total, size in rows:
            if path != f"{info}/RECORD":
                row = files[path]
                self.assertEqual((total, size), (f"sha256={digest(row)}", str(len(row))))
        self.assertIn(b"\nRequires-Python: >=3.9\n", files[f"{info}/METADATA"])

    def test_the_same_bytes(self) -> None:
        one, two = self.folder + "/one", self.folder + "/two"
        for folder in (one, two):
            os.mkdir(folder)
            backend().build_wheel(folder)
            backend().build_sdist(folder)
        for name in os.listdir(one):
            with open(f"{one}/{name}", "rb") as first, open(f"{two}/{name}", "rb") as second:
                self.assertEqual(first.read(), second.read(), name)

    def test_the_archive_builds_the_same_wheel(self) -> None:
        name = backend().build_sdist(self.folder)
        with tarfile.open(os.path.join(self.folder, name)) as archive:
            for it in archive.getmembers():
                # No path leads out of the folder.
                self.assertTrue(it.name.startswith(f"elide-{elide.__version__}/") and it.isfile())
                path = os.path.join(self.folder, it.name)
                os.makedirs(os.path.dirname(path), exist_ok=True)
                content = archive.extractfile(it)
                assert content is not None
                with open(path, "wb") as file:
                    file.write(content.read())
        top = os.path.join(self.folder, name[: -len(".tar.gz")])
        source = "import elide_build, sys; print(elide_build.build_wheel(sys.argv[1]))"
        given = environment(PYTHONPATH=os.path.join(top, "backend"))
        subprocess.run(
            [sys.executable, "-c", source, top], env=given, check=True, capture_output=True
        )
        wheel = backend().build_wheel(self.folder)
        with open(f"{top}/{wheel}", "rb") as one, open(f"{self.folder}/{wheel}", "rb") as two:
            self.assertEqual(one.read(), two.read())


class Installed(Case):
    """What pip installs, without a network."""

    def test_pip(self) -> None:
        there = self.folder + "/there"
        python = there + "/bin/python"
        # With the pip of this Python, if it has one: to make another takes long.
        venv.create(there, system_site_packages=True)
        if subprocess.run([python, "-m", "pip", "--version"], capture_output=True).returncode != 0:
            try:
                venv.create(there, with_pip=True, clear=True)
            except (subprocess.CalledProcessError, ImportError) as error:
                self.skipTest(f"this Python makes no environment with pip: {error}")
        # No index, and a proxy that is not there.
        none = "http://127.0.0.1:9"
        given = environment(PYTHONPATH=None, PIP_NO_INDEX="1", http_proxy=none, https_proxy=none)

        def run(*words: str) -> str:
            ran = subprocess.run(
                [python, *words],
                env=given,
                cwd=self.folder,
                capture_output=True,
                text=True,
                check=False,
            )
            self.assertEqual(ran.returncode, 0, ran.stdout + ran.stderr)
            return ran.stdout

        before = self.sources()
        pip = ["-m", "pip", "--disable-pip-version-check", "--no-cache-dir"]
        run(*pip, "install", PYTHON)
        self.assertEqual(self.sources(), before, "the sources are as they were")
        source = f"""\
import elide
with elide.Program.from_source({COUNTER!r}) as program, program.machine() as machine:
    print(elide.__file__.startswith({self.folder!r}), machine.run(100).end)
"""
        given["ELIDE"] = elide.program_path()
        self.assertEqual(run("-I", "-c", source), "True all stopped\n")
        self.assertIn(f"Version: {elide.__version__}\n", run(*pip, "show", "elide"))
        run(*pip, "uninstall", "-y", "elide")
        run(*pip, "install", "-e", PYTHON)
        told = run("-c", "import elide; print(elide.__file__)")
        self.assertEqual(told, f"{PYTHON}/elide/__init__.py\n")
        self.assertEqual(self.sources(), before, "the sources are as they were")

    def sources(self) -> List[str]:
        return sorted(
            os.path.join(at, it)
            for at, _, names in os.walk(PYTHON)
            for it in names
            if "__pycache__" not in at
        )


class Documents(Case):
    """What is said of the package."""

    def test_the_readme(self) -> None:
        """Its examples print what stands below them."""
        path = os.path.join(PYTHON, "README.md")
        names: Dict[str, object] = {}
        result = doctest.testfile(path, module_relative=False, globs=names)
        self.assertGreater(result.attempted, 8)
        self.assertEqual(result.failed, 0)

    def test_the_example(self) -> None:
        """Its tests pass, here without pytest: of that they take a fixture alone."""
        path = os.path.join(PYTHON, "examples", "test_counter.py")
        with open(path, encoding="utf-8") as file:
            source = file.read()
        stand_in = ModuleType("pytest")
        setattr(stand_in, "fixture", contextlib.contextmanager)
        names: Dict[str, Any] = {}
        with unittest.mock.patch.dict(sys.modules, {"pytest": stand_in}):
            exec(compile(source, path, "exec"), names)
        tests = [it for name, it in names.items() if name.startswith("test_")]
        self.assertEqual(len(tests), 4)
        for it in tests:
            with self.subTest(it.__name__), names["program"]() as program:
                it(*[program] * len(inspect.signature(it).parameters))

    def test_docstrings(self) -> None:
        for name in elide.__all__:
            value = getattr(elide, name)
            self.assertTrue(inspect.getdoc(value), name)
            for member, it in vars(value).items() if inspect.isclass(value) else ():
                if not member.startswith("_") and (
                    inspect.isfunction(it) or isinstance(it, property)
                ):
                    self.assertTrue(inspect.getdoc(it), f"{name}.{member}")

    def test_the_version(self) -> None:
        """It is the program's."""
        words = [elide.program_path(), "--version"]
        told = subprocess.run(words, capture_output=True, text=True, check=True).stdout
        found = re.match(r"elide (\d+\.\d+\.\d+)", told)
        assert found is not None, told
        self.assertEqual(elide.__version__, found[1])

    def test_the_names_of_refusals(self) -> None:
        """They are those of the program."""
        words = [elide.program_path(), "explain"]
        told = subprocess.run(words, capture_output=True, text=True, check=True).stdout
        named = {int(it[1]): it[2] for it in re.finditer(r"^ *(\d+) (\w+)", told, re.MULTILINE)}
        for number, name in errors.REFUSALS.items():
            self.assertEqual(named[number], name)
        self.assertEqual(named[errors.INPUT], "Input")
        self.assertEqual({named[it] for it in errors.OF_SCHEDULES}, {"BadSchedule", "TooManySteps"})

    def test_nothing_but_the_standard_library(self) -> None:
        """Each import of the package is one of the package, or of Python."""
        names = set()
        for it in os.listdir(os.path.join(PYTHON, "elide")):
            if it.endswith(".py"):
                with open(os.path.join(PYTHON, "elide", it), encoding="utf-8") as file:
                    names |= set(
                        re.findall(r"^(?:from|import) ([a-z]\w*)", file.read(), re.MULTILINE)
                    )
        for name in names:
            spec = importlib.util.find_spec(name)
            assert spec is not None
            origin = spec.origin or "built-in"
            self.assertNotIn("site-packages", origin)
            self.assertNotIn("dist-packages", origin)


if __name__ == "__main__":
    unittest.main()
