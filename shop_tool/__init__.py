"""Runs the sites of a shop, carries their packets, and is how operators ask and watch them; `shop` at the top is its command."""
