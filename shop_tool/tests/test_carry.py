"""What is carried to a new shop, and what isn't."""

import unittest

from shop_tool.carry import plan_of
from shop_tool.carrier.records import row_of

ROWS = [row_of(line) for line in (
    "row,user,0.1,ann,3,0,4,1", "row,user,1.1,bob,0,0,0,0", 'row,item,0.3,0.1,"vase, blue",7,1,2,50,80,2,1.4,70,open,none',
    "row,item,0.4,0.1,cup,7,5,0,50,0,0,none,0,closed,none", "row,item,0.5,0.1,jug,7,0,3,50,80,0,none,0,open,none",
    "row,bid,0.9,0.3,1.1,60,8", "row,bid,1.4,0.3,1.1,70,7", "row,bid,1.5,0.5,1.1,70,9",
    "row,purchase,0.8,0.3,1.1,2", "row,comment,0.7,0.3,1.1,0.1,4,good",
    "row,category,7,3,2")]


class Plans(unittest.TestCase):
    def test_the_asks_in_their_order(self) -> None:
        plan = plan_of(ROWS)
        self.assertEqual(plan.asks, ["user,ann", "user,bob", 'item,0.1,"vase, blue",7,1,50,80', "bid,0.3,0.2,70", "bid,0.3,0.2,60"])
        self.assertEqual(plan.map_text(), "user,0.1,0.1\nuser,1.1,0.2\nitem,0.3,0.3\nbid,1.4,0.4\nbid,0.9,0.5\n")

    def test_what_is_left_behind(self) -> None:
        plan = plan_of(ROWS)
        self.assertEqual(plan.without_stock, ["0.5"])
        self.assertEqual(dict(plan.left), {
            "users with ratings": 1, "closed sales": 1, "bids on what isn't carried": 1, "purchases": 1, "comments": 1})
