"""Which program is run."""

import os
import shutil
import subprocess
import sys
import unittest

import elide

from .support import COUNTER, PYTHON, TOP, Case, environment


class Paths(Case):
    """The argument, the variable ELIDE, PATH, and the wrapper of a checkout, in this order."""

    def setUp(self) -> None:
        super().setUp()
        self.before = dict(os.environ)
        self.one = self.fake("", "one")
        self.two = self.fake("", "elide")
        self.addCleanup(self.restore)

    def restore(self) -> None:
        os.environ.clear()
        os.environ.update(self.before)

    def test_the_order(self) -> None:
        os.environ["ELIDE"] = self.one
        os.environ["PATH"] = self.folder
        self.assertEqual(elide.program_path(self.two), self.two)
        self.assertEqual(elide.program_path(), self.one)
        os.environ["ELIDE"] = ""
        self.assertEqual(elide.program_path(), self.two)
        del os.environ["ELIDE"]
        self.assertEqual(elide.program_path(), self.two)
        os.environ["PATH"] = self.folder + "/nowhere"
        self.assertEqual(elide.program_path(), os.path.join(TOP, "elide"))

    def test_names_on_the_path(self) -> None:
        os.environ["PATH"] = self.folder
        os.environ["ELIDE"] = "one"
        self.assertEqual(elide.program_path(), self.one)
        self.assertEqual(elide.program_path("elide"), self.two)

    def test_what_is_no_program(self) -> None:
        nowhere = self.folder + "/nowhere"
        plain = self.file("plain", "text")
        for path in (nowhere, plain, self.folder, "a\nb"):
            with self.subTest(path=path):
                with self.assertRaises(elide.ProgramNotFound) as caught:
                    elide.program_path(path)
                self.assertIn(repr(path), str(caught.exception))
                os.environ["ELIDE"] = path
                with self.assertRaises(elide.ProgramNotFound) as caught:
                    elide.program_path()
                self.assertIn("variable ELIDE", str(caught.exception))

    def test_nowhere(self) -> None:
        """Outside of a checkout, all places that were looked at are told."""
        shutil.copytree(os.path.join(PYTHON, "elide"), self.folder + "/lib/here/elide")
        source = "import elide; print(elide.program_path())"
        words = [sys.executable, "-B", "-c", source]
        given = environment(PYTHONPATH=self.folder + "/lib/here", ELIDE=None, PATH="/nowhere")
        ran = subprocess.run(
            words, env=given, cwd=self.folder, capture_output=True, text=True, check=False
        )
        said = ran.stderr.strip().splitlines()[-1]
        self.assertEqual(ran.returncode, 1)
        self.assertTrue(said.startswith("elide.errors.ProgramNotFound: no program elide: "), said)
        for word in ("ELIDE is not set", "PATH (/nowhere)", self.folder + "/lib"):
            self.assertIn(word, said)

    def test_what_cannot_be_started(self) -> None:
        path = self.file("garbage", "\0\0 no program\n")
        os.chmod(path, 0o755)
        script = self.file("script", "#!/nowhere/interpreter\n")
        os.chmod(script, 0o755)
        for it in (path, script):
            with self.subTest(path=it), elide.Program.from_source(COUNTER, elide=it) as program:
                with self.assertRaises(elide.ProgramNotFound) as caught:
                    program.machine()
                self.assertIn(it, str(caught.exception))
                with self.assertRaises(elide.ProgramNotFound):
                    elide.outcomes(program, "count")


if __name__ == "__main__":
    unittest.main()
