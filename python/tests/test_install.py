"""The package as pip installs it by setuptools, without a network, and without being installed."""
import os
import shutil
import subprocess
import sys
import unittest
from typing import List, Optional

from .support import INVERTER, ROOT, WithFolder, first_python_with

FOLDER = os.path.join(ROOT, "python")

# What an installation without a network wants; setuptools can't be imported behind pip.
WANTED = "setuptools, wheel, pip, venv"


def sources(folder: str) -> List[str]:
    """The files of a package below its folder, but for what Python compiled."""
    found = (os.path.relpath(os.path.join(top, it), folder) for top, _, names in os.walk(folder) for it in names)
    return sorted(it for it in found if "__pycache__" not in it)


class WithPackage(WithFolder):
    def run_by(self, python: str, *words: str, package: Optional[str] = None, cwd: Optional[str] = None) -> str:
        """What a Python prints, with the package in a folder."""
        environment = {name: value for name, value in os.environ.items() if not name.startswith("PIP_")}
        environment.pop("PYTHONPATH", None)
        if package:
            environment["PYTHONPATH"] = package
        ran = subprocess.run([python, *words], cwd=cwd or self.folder, env=environment, capture_output=True, text=True, timeout=300)
        self.assertEqual(ran.returncode, 0, ran.stderr)
        return ran.stdout

    def is_used(self, python: str, package: Optional[str] = None) -> str:
        """Whether the package carries out a check; the folder that it lies in."""
        self.write("m.v", INVERTER)
        self.write("commands", "design m.v --horizon 20\nstim a 0 0\nexpect-wave y 0 x 2 1\n")
        self.assertIn("failures: 0", self.run_by(python, "-m", "gatebench", "check", "commands", package=package))
        where = self.run_by(python, "-c", "import gatebench; print(gatebench.__file__)", package=package)
        return os.path.dirname(where.strip())


class NotInstalled(WithPackage):
    def test_it_works_without_being_installed(self) -> None:
        self.assertEqual(self.is_used(sys.executable, FOLDER), os.path.join(FOLDER, "gatebench"))


class Installed(WithPackage):
    """In an environment which has the packages of a Python that is here, with no index for pip to load from."""

    def setUp(self) -> None:
        super().setUp()
        python = first_python_with(WANTED)
        if python is None:
            self.skipTest(f"no Python here has {WANTED} (Debian: python3-venv, python3-wheel)")
        # Without pip in it that of the system does, and this takes no time.
        self.run_by(python, "-m", "venv", "--system-site-packages", "--without-pip", "environment")
        self.python = os.path.join(self.folder, "environment", "bin", "python")
        # Setuptools writes into the folder that it builds.
        self.copy = os.path.join(self.folder, "copy")
        shutil.copytree(FOLDER, self.copy, ignore=shutil.ignore_patterns("__pycache__", "build", "*.egg-info"))

    def install(self, *words: str) -> None:
        self.run_by(self.python, "-m", "pip", "install", "--quiet", "--no-index", "--no-build-isolation", *words)

    def test_it_has_all_files(self) -> None:
        self.install(self.copy)
        found = self.is_used(self.python)
        self.assertNotIn(self.copy, found)
        self.assertEqual(sources(found), sources(os.path.join(FOLDER, "gatebench")))
        script = os.path.join(self.folder, "environment", "bin", "gatebench-py")
        self.assertIn("check", self.run_by(script, "--help"))
        self.assertEqual(self.run_by(script, "--version"), self.run_by(sys.executable, "-m", "gatebench", "--version", package=FOLDER))
        plugins = "from importlib.metadata import distribution as of; print([it.value for it in of('gatebench').entry_points if it.group == 'pytest11'])"
        self.assertEqual(self.run_by(self.python, "-c", plugins), "['gatebench.pytest_plugin']\n")

    def test_it_can_be_edited(self) -> None:
        self.install("--editable", self.copy)
        self.assertEqual(self.is_used(self.python), os.path.join(self.copy, "gatebench"))
        self.write("copy/gatebench/added.py", "print('counts at once')")
        self.assertEqual(self.run_by(self.python, "-m", "gatebench.added"), "counts at once\n")

    def test_the_package_of_sources(self) -> None:
        build = "import setuptools.build_meta as it; print(it.build_sdist('..'))"
        name = self.run_by(self.python, "-c", build, cwd=self.copy).splitlines()[-1]
        self.install(os.path.join(self.folder, name))
        self.assertEqual(sources(self.is_used(self.python)), sources(os.path.join(FOLDER, "gatebench")))


if __name__ == "__main__":
    unittest.main()
