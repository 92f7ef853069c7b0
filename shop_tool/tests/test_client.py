"""What a client says of a supervisor that doesn't answer."""

import contextlib
import json
import os
import socket
import tempfile
import threading
import unittest
from typing import Any
from unittest import mock

from shop_tool import client
from shop_tool.ends import Ended, Fault, Status

ASK: dict[str, Any] = {"op": "ask", "site": 2, "records": ["user,ann"], "timeout": 0.1}


class Calls(unittest.TestCase):
    def setUp(self) -> None:
        folder = tempfile.TemporaryDirectory()
        self.addCleanup(folder.cleanup)
        self.folder = folder.name
        self.asked: list[dict[str, Any]] = []
        margin = mock.patch.object(client, "MARGIN", 0.1)
        margin.start()
        self.addCleanup(margin.stop)

    def listen(self, *says: bytes) -> threading.Thread:
        """Somebody who answers requests so, one after the other, and goes; takes connections and does nothing, where nothing is said."""
        with contextlib.suppress(FileNotFoundError):
            os.unlink(f"{self.folder}/sock")
        self.socket = socket.socket(socket.AF_UNIX)
        self.addCleanup(self.socket.close)
        self.socket.bind(f"{self.folder}/sock")
        self.socket.listen(1)
        answering = threading.Thread(target=self._answer, args=says, daemon=True)
        answering.start()
        return answering

    def _answer(self, *says: bytes) -> None:
        for said in says:
            line, _ = self.socket.accept()
            with line:
                self.asked.append(json.loads(line.recv(1 << 16)))
                line.sendall(said)

    def told(self, request: dict[str, Any]) -> str:
        with self.assertRaises(Fault) as caught:
            list(client.call(self.folder, request))
        self.assertEqual(caught.exception.status, Status.AWAY)
        return caught.exception.text

    def test_it_takes_no_connection(self) -> None:
        self.listen()
        waiting = []
        with self.assertRaises(Fault) as caught:
            for _ in range(10):
                waiting.append(client.connect(self.folder, 0.1))
        self.assertIn("takes no connection; nothing was asked", caught.exception.text)
        for line in waiting:
            assert line
            line.close()

    def test_it_ends(self) -> None:
        for says in (b"", b'{"record": "user,a'):
            with self.subTest(says=says):
                self.listen(says)
                self.assertIn("ended before it answered; whether it was accepted isn't known (shop log 2)", self.told(ASK))

    def test_what_has_keys_is_asked_again_from_where_it_ended(self) -> None:
        answers = [b'{"record": "user,%b"}\n' % name for name in (b"ann", b"bob")]
        for keys, count in ((["a", "b"], 2), (["a", None], 1), (None, 1)):
            with self.subTest(keys=keys):
                self.asked.clear()
                answering = self.listen(*(answers[0], answers[1] + b'{"end": true}\n')[:count])
                steps = client.asked(self.folder, {"op": "ask", "site": 2, "records": ["user,ann", "user,bob"], "timeout": 5.0, "keys": keys}, None)
                if count == 1:
                    self.assertRaises(Ended, list, steps)
                else:
                    self.assertEqual([answer.get("record") for answer in steps], ["user,ann", "user,bob", None])
                    self.assertEqual((self.asked[1]["records"], self.asked[1]["keys"]), (["user,bob"], ["b"]))
                answering.join()
                self.assertEqual(len(self.asked), count)
