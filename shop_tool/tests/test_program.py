"""Which program is used."""

import os
import pathlib
import tempfile
import unittest
from unittest import mock

from shop_tool import program


class Program(unittest.TestCase):
    def found(self, script: str) -> str:
        """The program that is used where RUBIS names this script, in whose folder it is named as `.`."""
        with tempfile.TemporaryDirectory() as folder:
            path = pathlib.Path(folder) / "rubis"
            path.write_text(f"#!/bin/sh\n{script}\n")
            path.chmod(0o755)
            with mock.patch.dict(os.environ, {"RUBIS": str(path)}):
                return program.checked_path().replace(folder, ".")

    def test_it_is_the_one_that_the_launcher_runs(self) -> None:
        self.assertEqual(self.found("[ $1 = --which ] && echo /out/rubis || echo rubis 1"), "/out/rubis")

    def test_it_is_itself_where_it_knows_no_other(self) -> None:
        self.assertEqual(self.found("[ $1 = --version ] && echo rubis 1 || { echo usage; exit 2; }"), "./rubis")
