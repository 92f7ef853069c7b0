"""Whether a site's files are there still."""

import os
import tempfile
import unittest

from shop_tool.carrier.files import File, is_there
from shop_tool.site import file_at


class Files(unittest.TestCase):
    def test_what_is_missed(self) -> None:
        was = File(1, 2, 100)
        for now, there in ((was, True), (File(1, 2, 101), True), (File(1, 2, 99), False), (File(1, 3, 100), False),
                           (File(2, 2, 100), False), (None, False)):
            with self.subTest(now=now):
                self.assertEqual(is_there(was, now, was.size), there)
        self.assertTrue(is_there(was, File(1, 2, 99), 99))
        self.assertTrue(is_there(None, None, 100))

    def test_a_file_that_is_put_back_is_the_same(self) -> None:
        with tempfile.TemporaryDirectory() as folder:
            path = f"{folder}/kept"
            self.assertIsNone(file_at(path))
            for text in ("user,ann\n", "user,ann\nuser,bob\n"):
                with open(path, "a") as file:
                    file.write(text)
                was = file_at(path)
                os.rename(path, f"{path}.aside")
                assert was
                self.assertFalse(is_there(was, file_at(path), was.size))
                os.rename(f"{path}.aside", path)
                self.assertTrue(is_there(was, file_at(path), was.size))
