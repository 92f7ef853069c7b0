"""What an asker is told of a record that has no answer."""

import unittest

from shop_tool.carrier.told import Once, is_called, not_given


class Told(unittest.TestCase):
    def test_what_was_answered_before_was_given(self) -> None:
        self.assertEqual(not_given(), "nothing was given to it")
        self.assertEqual(not_given(3), "nothing more was given to it")
        for answered in (0, 3):
            self.assertEqual(not_given(answered, was_refused=True), "not accepted")


class Calls(unittest.TestCase):
    def test_the_folder_that_has_the_site_answers(self) -> None:
        self.assertTrue(is_called("here:5", "here:5"))
        self.assertFalse(is_called("here:5", "here:6"))

    def test_a_call_is_answered_once(self) -> None:
        calls = Once()
        self.assertEqual([calls.is_new(name) for name in (b"a", b"b", b"a", b"c", b"b", b"d", b"a")], [True, True, False, True, False, True, False])
