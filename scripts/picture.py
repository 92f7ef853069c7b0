#!/usr/bin/env python3
"""Draws an order of operations: scripts/picture.py --help."""

import pathlib
import sys

sys.path.insert(0, str(pathlib.Path(__file__).resolve().parent.parent))

from picture_tool.cli import main  # noqa: E402

if __name__ == "__main__":
    sys.exit(main())
