"""How the Python is written: types, the length of lines, and names that nothing uses."""

import re
import subprocess

from tests.needs import PYTHON, TOP, need

PARTS = ["scripts", "tests", "shop_tool", "shop_ask", "shop_web", "picture_tool"]


def expect_none(*command: str) -> None:
    """The command has nothing to say against the sources."""
    done = subprocess.run(command, cwd=TOP, capture_output=True, text=True)
    assert done.returncode == 0, done.stdout + done.stderr


def test_types() -> None:
    need("python3:mypy")
    expect_none(PYTHON, "-m", "mypy", *PARTS)


def test_lines() -> None:
    """pycodestyle, with the length of .editorconfig."""
    need("pycodestyle")
    length = re.findall(r"^max_line_length = (\d+)$", (TOP / ".editorconfig").read_text(), re.M)[0]
    expect_none("pycodestyle", f"--max-line-length={length}", *PARTS)


def test_names() -> None:
    """pylint, of names that aren't there and of those that nothing uses."""
    need("pylint")
    expect_none("pylint", "--jobs=0", "--disable=all", "--enable=undefined-variable,unused-import,unused-variable,function-redefined,unreachable", *PARTS)
