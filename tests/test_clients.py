"""The clients of docs/CALLING.md: the page has one in Python, one in Rust, and what both write. Each is run as it stands on the page."""

import pathlib
import re
import subprocess

import pytest

from tests.folder import SECONDS
from tests.needs import PYTHON, TOP, need

PAGE = (TOP / "docs/CALLING.md").read_text()
CLIENTS = {
    "python": ("client.py", "import subprocess", [[PYTHON, "client.py"]]),
    "rust": ("client.rs", "use std::io", [["rustc", "--edition", "2021", "client.rs"], ["./client"]]),
}


def block(language: str, begin: str) -> str:
    """The block of the page in that language that begins so."""
    blocks: list[str] = re.findall(rf"^```{language}\n(.*?)^```$", PAGE, re.M | re.S)
    return next(text for text in blocks if text.startswith(begin))


@pytest.mark.parametrize("language", CLIENTS)
def test_client(language: str, program: pathlib.Path, folder: pathlib.Path) -> None:
    name, begin, commands = CLIENTS[language]
    if language == "rust":
        need("rustc")
    (folder / "rubis").symlink_to(program)
    (folder / name).write_text(block(language, begin))
    said = ""
    for command in commands:
        done = subprocess.run(command, cwd=folder, capture_output=True, text=True, timeout=SECONDS)
        said += done.stdout + done.stderr
    assert said == block("text", "reply,1")
