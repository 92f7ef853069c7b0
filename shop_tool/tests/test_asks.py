"""What `shop ask` asks for by one request."""

import argparse
import unittest

from shop_tool.asks import _request
from shop_tool.carrier.records import KEY_BYTES
from shop_tool.ends import Fault


class Asks(unittest.TestCase):
    def test_keys_that_get_too_long(self) -> None:
        """The request with the first one isn't made, and what is said of it holds where others were made before."""
        args = argparse.Namespace(records=["-"], site=0, timeout=1.0, no_wait=False, published=False, key=None, keys="p" * 250)
        self.assertEqual(len(_request(args, [b"list,users"] * 999, 9000)["keys"][-1]), KEY_BYTES)
        with self.assertRaises(Fault) as raised:
            _request(args, [b"list,users"] * 1000, 9000)
        self.assertIn("nothing more was asked", raised.exception.text)
