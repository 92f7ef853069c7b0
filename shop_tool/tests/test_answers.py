"""Answers are cut alike however the bytes come in."""

import io
import unittest

from shop_tool.carrier.answers import AnswerReader, KeptReader

TEXT = (b"reply,1,ok,0.1\nsend,msg,1,0,1,1,0:0,user,ann\nreply,2,rows,2\nrow,user,0.1,ann,0,0,0,0\nrow,user,0.2,bob,0,0,0,0\n"
        b"reply,3,rows,0\nreply,4,refused,5,NickTaken\nreply,5,passed\nsend,token,1,1,1,1\nreply,6,holding\n")


class Cutting(unittest.TestCase):
    def test_pieces_of_any_size(self) -> None:
        for size in (1, 2, 7, 50, len(TEXT)):
            reader = AnswerReader()
            answers = [answer for at in range(0, len(TEXT), size) for answer in reader.feed(TEXT[at:at + size])]
            self.assertEqual([answer.kind for answer in answers], [b"ok", b"rows", b"rows", b"refused", b"passed", b"holding"])
            self.assertEqual(b"".join(line + b"\n" for answer in answers for line in answer.lines), TEXT)
            self.assertEqual([answer.size for answer in answers], [sum(map(len, answer.lines)) + len(answer.lines) for answer in answers])

    def test_what_an_answer_has(self) -> None:
        answers = AnswerReader().feed(TEXT)
        self.assertEqual([answer.refusal for answer in answers], [None, None, None, "NickTaken", None, None])
        self.assertEqual([answer.packet for answer in answers if answer.packet], [b"msg,1,0,1,1,0:0,user,ann", b"token,1,1,1,1"])

    def test_other_lines_are_no_answers(self) -> None:
        for line in (b"row,user\n", b"hello\n", b"reply\n"):
            with self.assertRaises(ValueError):
                AnswerReader().feed(line)


class Kept(unittest.TestCase):
    """The records of `kept` are those that a site counts, also where others than a supervisor wrote it."""

    KEPT = b'\nuser,ann\n\r\nuser,bob\r\nstop\rgo\r\r\nitem,0.1,"a\rb ""c""",7\ra"b\n""\n\nlist,users\n\n'
    RECORDS = [b"user,ann", b"user,bob", b"stop", b"go", b'item,0.1,"a\rb ""c""",7', b'a"b', b'""', b"list,users"]

    def test_records(self) -> None:
        reader = KeptReader(io.BytesIO(self.KEPT).readline)
        found = [reader.next() for _ in self.RECORDS]
        self.assertEqual([record for record, _ in found], self.RECORDS)
        self.assertEqual(sum(size for _, size in found) + reader.next()[1], len(self.KEPT))
        self.assertEqual(reader.next(), (b"", 0))

    def test_from_behind_any_record(self) -> None:
        reader, place = KeptReader(io.BytesIO(self.KEPT).readline), 0
        for count in range(len(self.RECORDS)):
            rest = KeptReader(io.BytesIO(self.KEPT[place:]).readline)
            self.assertEqual([rest.next()[0] for _ in self.RECORDS[count:]], self.RECORDS[count:])
            place += reader.next()[1]
