"""`./install`: it puts everything below a prefix, and a shop runs from there.

It installs into a folder of its own, with a file in place of the program's build: all is where it should be, `shop` runs from there and needs
nothing of the repository, a second run replaces the first, the units are some by systemd's own reader, and a wrong prefix is refused."""

import os
import pathlib
import re
import shutil
import subprocess

import pytest

from tests.needs import TOP, need

PLACES = """bin/rubis bin/shop lib/rubis/shop lib/rubis/shop_tool/cli.py share/man/man1/rubis.1 share/man/man1/shop.1
share/bash-completion/completions/shop share/zsh/site-functions/_shop share/fish/vendor_completions.d/shop.fish
lib/systemd/system/shop@.service lib/systemd/system/shop-http@.service lib/sysusers.d/shop.conf
lib/rubis/shop_ask/quick.py lib/rubis/shop_web/serving.py lib/rubis/shop_web/page.html lib/rubis/shop_tool/view/tables.py
bin/shop-picture lib/rubis/picture_tool/web/picture.js share/doc/rubis/OPERATING.md share/rubis/clients/shop.ts share/rubis/monitoring/alerts.yml
share/rubis/examples/shop_pages/pages.py share/rubis/examples/shop_pages/static/pages.js""".split()


def install(program: pathlib.Path, *words: str) -> "subprocess.CompletedProcess[str]":
    return subprocess.run([str(TOP / "install"), *words], env={**os.environ, "RUBIS": str(program)}, capture_output=True, text=True)


@pytest.fixture
def prefix(program: pathlib.Path, folder: pathlib.Path) -> pathlib.Path:
    """Where it is installed, twice."""
    for _ in range(2):
        done = install(program, str(folder / "usr"))
        assert done.returncode == 0, done.stderr
    return folder / "usr"


def shop(prefix: pathlib.Path, *words: str) -> str:
    """What the installed command says, run in a folder that isn't the repository and without its variables."""
    done = subprocess.run([str(prefix / "bin/shop"), *words], cwd="/", env={"PATH": "/usr/bin:/bin"}, capture_output=True, text=True)
    assert done.returncode == 0, f"shop {' '.join(words)}: status {done.returncode}: {done.stderr}"
    return done.stdout


def test_files(prefix: pathlib.Path) -> None:
    assert not [place for place in PLACES if not (prefix / place).is_file()]
    assert not list(prefix.rglob("tests")), "tests were installed"
    assert list((prefix / "lib/rubis/shop_ask/__pycache__").glob("quick.*.pyc")), "nothing is translated"


def test_installed_shop(prefix: pathlib.Path, folder: pathlib.Path) -> None:
    """A shop is started by what was installed, asked, and stopped."""
    auction = str(folder / "auction")
    shop(prefix, "start", auction, "--sites", "2")
    try:
        assert shop(prefix, "-C", auction, "ask", "0", "user,ann") == "ok,0.1\n"
        assert shop(prefix, "-C", auction, "ask", "0", 'item,0.1,"a  lamp",7,1,100,0') == "ok,0.2\n", "words with blanks come as they are"
        assert shop(prefix, "-C", auction, "audit") == "audit,Agree\n"
    finally:
        shop(prefix, "stop", auction)


def test_units(prefix: pathlib.Path) -> None:
    """systemd's own reader finds no fault with the units."""
    unit = prefix / "lib/systemd/system/shop@.service"
    assert f"ExecStart={prefix}/bin/shop run" in unit.read_text() and f"RUBIS={prefix}/bin/rubis" in unit.read_text()
    need("systemd-analyze")
    for name in ("shop", "shop-http"):
        copy = unit.with_name(f"{name}@one.service")
        shutil.copy(unit.with_name(f"{name}@.service"), copy)
        done = subprocess.run(["systemd-analyze", "verify", "--man=no", str(copy)], capture_output=True, text=True)
        assert not [line for line in done.stderr.splitlines() if f"{name}@" in line]


def test_units_are_hardened(prefix: pathlib.Path) -> None:
    """An exposure of 3 at most by systemd's own count, and what the units name is installed."""
    need("systemd-analyze")
    for name in ("shop", "shop-http"):
        copy = prefix / f"lib/systemd/system/{name}@one.service"
        shutil.copy(copy.with_name(f"{name}@.service"), copy)
        done = subprocess.run(["systemd-analyze", "security", "--offline=true", "--threshold=30", str(copy)], capture_output=True, text=True)
        assert done.returncode == 0, done.stdout.splitlines()[-1]
        page = re.findall(r"^Documentation=file:(\S+)", copy.read_text(), re.M)[0]
        assert page.startswith(f"{prefix}/") and pathlib.Path(page).is_file()


def test_pictures(prefix: pathlib.Path, folder: pathlib.Path) -> None:
    """A picture of a shop's folder by what was installed."""
    auction = str(folder / "auction")
    shop(prefix, "start", auction)
    shop(prefix, "-C", auction, "ask", "0", "user,ann")
    shop(prefix, "stop", auction)
    done = subprocess.run([prefix / "bin/shop-picture", auction, "--grid", "--text"], cwd="/", env={"PATH": "/usr/bin:/bin"}, capture_output=True, text=True)
    assert done.returncode == 0 and "site 0" in done.stdout, done.stderr


def test_words(program: pathlib.Path, folder: pathlib.Path) -> None:
    """--help and --prefix are as usual; a wrong prefix or option is refused, and nothing is installed."""
    said = install(program, "--help")
    assert said.returncode == 0 and "--prefix PREFIX" in said.stdout
    for words in (("usr",), ("/a", "/b"), ("--prefix", "usr"), ("--prefix",), ("--perfix=/a",), ("--uninstall", "--prefix", str(folder / "nowhere"))):
        done = install(program, *words)
        assert done.returncode == 2 and "(./install --help)" in done.stderr, words
    for words in (("--prefix", str(folder / "one")), (f"--prefix={folder}/two",)):
        assert install(program, *words).returncode == 0
    assert (folder / "one/bin/shop").is_file() and (folder / "two/bin/shop").is_file()


def test_uninstall(prefix: pathlib.Path, program: pathlib.Path) -> None:
    """Whatever was put there is gone, and nothing else."""
    (prefix / "bin/other").write_text("mine")
    assert install(program, "--uninstall", str(prefix)).returncode == 0
    assert [path for path in prefix.rglob("*") if path.is_file()] == [prefix / "bin/other"]
