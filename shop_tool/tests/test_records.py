"""Records, packets, rows."""

import unittest

from shop_tool.carrier.records import (
    BYTES_OF_A_RECORD, Message, Purpose, Token, ask_of, bare, fields_of, key_in, kind_of, line_of, packet_of, row_of, under, why_not_one_record)


class OneRecord(unittest.TestCase):
    def test_what_a_site_keeps_as_it_is(self) -> None:
        item = b'item,0.1,"a ""blue"" vase, old",7,1,100,0'
        for record in (b"user,ann", item, b"list,log", b"", b"x" * BYTES_OF_A_RECORD, b"user,\xff", b'a,""'):
            with self.subTest(record=record[:40]):
                self.assertEqual(why_not_one_record(record) is None, record != b"")

    def test_what_would_swallow_or_lose_others(self) -> None:
        for record in (b'user,"eve', b'item,0.1,a"b,"c,7,1,1,0', b"user,dan\rrest", b"user,dan\nuser,eve", b"x" * (BYTES_OF_A_RECORD + 1),
                       b"\xef\xbb\xbfuser,ann", b"\xef", b"msg,1,0,1,1,0,user,ann", b"token,1,1,1,0", b'"user",ann', b"key,k,user,ann"):
            with self.subTest(record=record[:40]):
                self.assertIsNotNone(why_not_one_record(record))

    def test_what_it_is_for(self) -> None:
        fits = {Purpose.ASK: [b"user,ann", b"pass,1", b"list,log", b"stop"], Purpose.LISTING: [b"list,log"],
                Purpose.PACKET: [b"msg,1,0,1,1,0,user,ann", b"token,1,1,1,0"]}
        for purpose, records in fits.items():
            for record in [*sum(fits.values(), []), b"", b"list,log\n", b"token,1,1,1,0\n", b"msg,1,0,1,1,0,item,0.1,\"a"]:
                with self.subTest(purpose=purpose, record=record):
                    self.assertEqual(why_not_one_record(record, purpose) is None, record in records)


class Packets(unittest.TestCase):
    def test_a_message_and_a_token(self) -> None:
        self.assertEqual(packet_of(b'msg,1,2,7,3,4:5:6,item,0.1,"a, b",7,1,1,0'), Message(2, 7, 3, (4, 5, 6), b'item,0.1,"a, b",7,1,1,0'))
        self.assertEqual(packet_of(b"token,1,4,2,9"), Token(4, 2, 9))

    def test_what_is_under_a_key(self) -> None:
        """The key goes with the text, and what the record or packet is says what stands behind it."""
        for key, text in ((b"k", b"key,k,"), (b"a, b", b'key,"a, b",'), (b'"', b'key,"""",'), (b" ~" * 127 + b"x", b"key," + b" ~" * 127 + b"x,"),
                          (b'"' * 255, b'key,"' + b'""' * 255 + b'",')):
            for record in (b"user,ann", b'msg,1,2,7,3,4:5:6,item,0.1,"a, b",7,1,1,0', b"x"):
                self.assertEqual((under(key, record), key_in(text + record), bare(text + record)), (text + record, text, record))
                self.assertEqual((packet_of(text + record), kind_of(text + record)), (packet_of(record), record.split(b",")[0]))

    def test_what_is_under_no_key(self) -> None:
        """A token has none, and what isn't a key stands in front of nothing."""
        for line in (b"key,k,token,1,4,2,9", b"key,,user,ann", b"key,k", b"key," + b"k" * 256 + b",user,ann", b"key,\xe9,user,ann", b"key,\t,user,ann",
                     b'key,"k,user,ann', b'key,k"k,user,ann', b"Key,k,user,ann"):
            self.assertEqual((key_in(line), bare(line), packet_of(line)), (b"", line, None))
            self.assertIsNotNone(why_not_one_record(bare(line), Purpose.PACKET))

    def test_other_lines(self) -> None:
        for line in (b"", b"user,ann", b"msg,1,0,1", b"token,1,x,1,0", b"msg,1,0,1,1,:,user,ann", b"token,1,1,1,0,0"):
            self.assertIsNone(packet_of(line))

    def test_the_ask_of_a_shadow(self) -> None:
        def seller(item: bytes) -> bytes:
            return {b"0.3": b"1.1"}[item]
        for shadow, ask in ((b"close,0.3,7,none", b"close,0.3,1.1"), (b"restock,0.3,5", b"restock,0.3,1.1,5"),
                            (b"rename,0.1,ann,ada", b"rename,0.1,ada"), (b"bid,0.3,0.2,500", b"bid,0.3,0.2,500")):
            self.assertEqual(ask_of(shadow, seller), ask)


class Rows(unittest.TestCase):
    def test_columns_have_names(self) -> None:
        row = row_of('row,item,0.3,0.1,"vase, blue",7,1,2,50,80,1,0.4,60,open,none')
        self.assertEqual((row["kind"], row["id"], row["name"], row["sold"], row["winner"]), ("item", "0.3", "vase, blue", 2, "none"))

    def test_fields_that_are_quoted_come_back(self) -> None:
        for fields in (["a", "b"], ["a,b", 'say "c"', ""], ["plain"]):
            self.assertEqual(fields_of(line_of(fields)), fields)
