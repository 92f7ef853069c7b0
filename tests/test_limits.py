"""Each limit of the manual that no conversation shows, tried at its end and one past it."""

import pathlib
import subprocess

import pytest

OPTIONS: dict[str, tuple[int, int, list[str]]] = {
    "--site": (0, 15, ["--sites", "16"]), "--sites": (1, 16, []), "--keep": (1, 1_000_000, []), "--batch": (1, 65_536, []),
    "--shards": (1, 64, []), "--workers": (1, 16, [])}
MESSAGES = 66_000


def run(program: pathlib.Path, words: list[str], text: str = "") -> "subprocess.CompletedProcess[str]":
    return subprocess.run([program, *words], input=text, capture_output=True, text=True, encoding="latin-1")


@pytest.mark.parametrize("option", OPTIONS)
def test_ranges_of_options(program: pathlib.Path, option: str) -> None:
    least, most, others = OPTIONS[option]
    for value in (least, most):
        assert run(program, ["site", *others, option, str(value)], "user,ann\n").stdout.startswith("reply,1,"), f"{option} {value}"
    for value in ([least - 1] if least else []) + [most + 1]:
        told = run(program, ["site", *others, option, str(value)], "user,ann\n")
        assert told.returncode == 2 and f"{value} is not in {least}..={most}" in told.stderr, f"{option} {value}: {told.stderr}"
    page = pathlib.Path(__file__).parent.parent.joinpath("docs/MANUAL.md").read_text()
    assert f"| `{option} n` | {least} to {most:,} |" in page or f"| `{option} n` | {least} to {most} |" in page, "what the manual says"


def test_lines_of_a_kept_site(program: pathlib.Path, folder: pathlib.Path) -> None:
    """4,096 bytes of a record, or of a question."""
    for words in ("comment,0.1,0.1,0.2,5,", "?row,user,"):
        for length, is_long in ((4096, False), (4097, True)):
            line = words + (length - len(words)) * "x"
            told = run(program, ["keep", str(folder / f"{words[0]}{length}")], line + "\n")
            answer = told.stdout.splitlines()[-1] if told.stdout else ""
            if words.startswith("?"):
                assert (answer == "?refused,TooLong") == is_long, f"{length}: {answer}"
            else:
                kept = (folder / f"{words[0]}{length}/kept").read_text()
                assert (kept == line + "\n") != is_long, f"{length}: {len(kept)} bytes are kept"


def test_rows_and_places_of_a_page(program: pathlib.Path, folder: pathlib.Path) -> None:
    shop = folder / "0"
    users = "".join(f"user,u{number}\n" for number in range(MESSAGES))
    questions = [f"?page,{most},{place},,list,users\n" for most, place in ((65_536, 0), (65_537, 0), (1, MESSAGES - 1), (1, 4_294_967_295), (1, 4_294_967_296))]
    told = run(program, ["keep", str(shop)], users + "".join(questions)).stdout
    heads = [line for line in told.splitlines() if line.startswith("?")]
    assert heads == ["?rows,65536", "?refused,BadQuestion", "?rows,1", "?rows,0", "?refused,BadQuestion"], heads
