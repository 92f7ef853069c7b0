"""Pages against sources: man pages and completions, the list of what is trusted, names, links, contracts, and the client in TypeScript."""

import pathlib

import pytest

from tests.needs import PYTHON, need
from tests.test_style import expect_none


@pytest.mark.parametrize("words", ["check_pages.py", "unused.py", "write_help.py --check"])
def test_sources(words: str) -> None:
    expect_none(PYTHON, *f"scripts/{words}".split())


@pytest.mark.parametrize("words", ["write_help.py --check", "trusted.py"])
def test_program(words: str, program: pathlib.Path) -> None:
    if words == "trusted.py":
        need("rt")
    expect_none(PYTHON, *f"scripts/{words}".split(), str(program))


def test_client_in_typescript() -> None:
    need("python3:aiohttp")
    expect_none(PYTHON, "scripts/write_client.py", "--check")
