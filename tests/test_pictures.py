"""Pictures: what scripts/picture.py says of everything that it is given, 20,000 messages by size and time, where labels stand, and the page."""

import functools
import pathlib
import re
import subprocess
import sys
import tempfile
import time

import pytest

from measure_shop import seconds_of
from picture_tool import colours
from picture_tool.tests.browser import Browser
from picture_tool.tests.shops import MadeShop, Network
from tests.folder import SECONDS
from tests.needs import TOP

MANY, MOST_BYTES, MOST_SECONDS = 20_000, 3_000_000, 5.0
HALF, ALL = 25.0, 1000.0    # ms: what half of the drawings and steps of 20,000 messages may take, and any, on a machine with other work
PICTURE = [sys.executable, str(TOP / "scripts/picture.py")]
READY = "document.documentElement?.dataset.ready === 'yes'"
CLASH = "site,0\nmsg,1,0,1,1,0:0,user,ann\nmsg,1,0,2,2,1:0,user,eve\nsite,1\nmsg,1,0,1,1,0:0,user,ann\nmsg,1,0,2,2,1:0,user,bob\n"

# The boxes of the texts of an SVG whose ink may meet: their letters, without the room above and below them.
MEETING = """(() => {
  const boxes = [...document.querySelectorAll("text")].filter(text => !text.closest("title")).map(text => {
    const box = text.getBBox(), size = parseFloat(text.getAttribute("font-size")), y = parseFloat(text.getAttribute("y"));
    return {text: text.textContent, left: box.x, right: box.x + box.width, top: y - 0.76 * size, bottom: y + 0.22 * size};
  });
  const meet = [];
  boxes.forEach((a, at) => boxes.slice(at + 1).forEach(b => {
    if (a.left < b.right && b.left < a.right && a.top < b.bottom && b.top < a.bottom) meet.push(a.text + " / " + b.text);
  }));
  return [boxes.length, meet.slice(0, 5)];
})()"""


class Room:
    """A folder in which pictures are made."""

    def __init__(self, path: pathlib.Path, program: pathlib.Path) -> None:
        self.path, self.program = path, program

    def rubis(self, words: str, text: str) -> str:
        done = subprocess.run([self.program, *words.split()], input=text.encode(), capture_output=True, timeout=SECONDS)
        assert done.returncode == 0, f"rubis {words} ended with status {done.returncode}: {done.stderr.decode()}"
        return done.stdout.decode()

    def picture(self, *words: str, status: int = 0) -> tuple[str, str]:
        """What scripts/picture.py writes, and what it says on standard error."""
        done = subprocess.run([*PICTURE, *words], cwd=self.path, capture_output=True, text=True, timeout=SECONDS, stdin=subprocess.DEVNULL)
        assert done.returncode == status, f"{words} ended with status {done.returncode}: {done.stderr}"
        return done.stdout, done.stderr

    def timed(self, *words: str) -> tuple[str, float]:
        """What scripts/picture.py writes, and the processor time that it takes."""
        with tempfile.TemporaryFile() as written:
            took = seconds_of([*PICTURE, *words], cwd=self.path, stdout=written, stdin=subprocess.DEVNULL)
            written.seek(0)
            return written.read().decode(), took

    def write(self, name: str, text: str) -> str:
        (self.path / name).write_text(text)
        return str(self.path / name)

    def shop(self, name: str, made: MadeShop) -> str:
        made.write(str(self.path / name))
        return str(self.path / name)


@pytest.fixture
def room(folder: pathlib.Path, program: pathlib.Path) -> Room:
    return Room(folder, program)


@functools.cache
def many() -> MadeShop:
    return MadeShop(4, MANY, 5)


def lines(texts: list[str]) -> str:
    return "".join(text + "\n" for text in texts)


def test_runs(room: Room) -> None:
    """What is made up for the tests is what the program answers."""
    lagging, late = Network(lagging=2, from_step=50), Network(late=60, share=20)
    for sites, messages, network in ((1, 30, None), (3, 200, late), (16, 60, None), (3, 90, lagging)):
        made = MadeShop(sites, messages, 3, network)
        for site in made.sites:
            said = room.rubis(f"site --site {site.number} --sites {sites}", lines(site.kept))
            assert said == lines(site.out), f"site {site.number} of {sites}"
        said = room.rubis(f"world --sites {sites}", lines(made.world_records))
        assert said == lines(made.world_answers), f"a world of {sites}"
        assert room.rubis(f"audit --sites {sites}", made.logs()) == "audit,Agree\n", f"the logs of {sites}"


def test_inputs(room: Room) -> None:
    """Each kind of input, by what it begins with; records without answers are answered by the program."""
    made = MadeShop(3, 40, 1)
    shop, logs = room.shop("auction", made), room.write("logs", made.logs())
    records, answers = room.write("records", lines(made.world_records)), room.write("answers", lines(made.world_answers))
    for words in ([shop], [f"{shop}/1"], [logs], [records, answers], [answers, records], [f"{shop}/0/kept", f"{shop}/0/out"]):
        assert room.picture(*words)[0].startswith("<svg "), f"{words}"
    assert room.picture(records, "--program", str(room.program))[0] == room.picture(records, answers)[0], "records that the program answers"
    assert room.picture(logs, "--as", "audit")[0] == room.picture(logs)[0], "a kind that is said"
    verdict = room.write("verdict", room.rubis("audit --sites 2", CLASH))
    drawn = room.picture(room.write("clash", CLASH), verdict)[0]
    assert "Clash: two messages have one id" in drawn and "its other version" in drawn, "a verdict in a file"
    room.picture(shop, "--last", "5", "-o", str(room.path / "last.svg"))
    assert (room.path / "last.svg").read_text().count(" earlier<") > 0, "a picture in a file"
    grid = room.picture(shop, "--grid", "--text")[0]
    assert "* holds the token" in grid and "last answer" in grid, grid


def test_kept(room: Room) -> None:
    """What `rubis keep` keeps of odd bytes is counted as it counts."""
    odd = b'user,ann\n\n"open\nuser,bob\ruser,cat\r\nlist,users\nitem,0.1,"a ""b"", c",7,1,100,0\nmsg,x\n\xffuser\nuser,dan'
    folder = str(room.path / "odd")
    subprocess.run([room.program, "keep", folder, "--sites", "2"], input=odd, capture_output=True, timeout=SECONDS, check=True)
    titles = re.findall(r"<g><title>site 0, (\d+): (\w+): ([^<]*)</title>", room.picture(folder)[0])
    assert [(number, kind) for number, kind, _ in titles] == [
        ("1", "made"), ("2", "refused"), ("3", "made"), ("4", "made"), ("6", "made"), ("7", "refused"), ("8", "refused")], f"{titles}"
    assert titles[1][2] == "BadRecord: broken" and titles[4][2] == 'msg,1,0,4,0,3:0,item,0.1,"a ""b"", c",7,1,100,0', f"{titles}"


def test_misuse(room: Room) -> None:
    """What it says of what it can't draw."""
    logs, odd, empty = room.write("logs", CLASH), room.write("odd", "hello\n"), room.write("empty", "")
    records = room.write("records", "at,0,user,ann\n")
    for words, says in (
            (["nowhere"], "nowhere: No such file"), ([str(room.path)], "no files kept and out"), ([odd], "no record that is known"),
            ([empty], "no record that is known"), ([logs, "--verdict", "audit,Clash,9,9"], "no such entry"),
            ([logs, "--between", "0.9,0.1"], "no message 0.9"), ([logs, "--around", "1,9"], "no entry 9"),
            ([logs, "--text"], "goes with --grid"), ([records, "--program", "/nowhere"], "records without their answers")):
        said = room.picture(*words, status=1)[1]
        assert says in said and said.count("\n") == 1, f"{words} said: {said}"
    for words in (["--around", "x", logs], ["--last", "x", logs], ["--html", "--dot", logs], ["--as", "song", logs]):
        room.picture(*words, status=2)


def test_many(room: Room) -> None:
    """20,000 messages: the page and the picture, by size and time."""
    shop, logs = room.shop("auction", many()), room.write("logs", many().logs())
    for words in ([shop, "--html"], [logs, "--html"], [shop], [shop, "--grid", "--text"]):
        said, took = room.timed(*words)
        name = " ".join([pathlib.Path(words[0]).name, *words[1:]])
        print(f"pictures: {MANY:,} messages of 4 sites, {name}: {len(said):,} bytes in {took:.1f} s of processor time")
        assert len(said) < MOST_BYTES and took < MOST_SECONDS, f"{words[1:]}: {len(said)} bytes in {took:.1f} s"


def test_labels(room: Room, browser: Browser) -> None:
    """Where a browser really writes the labels of pictures, and that none meet."""
    made = MadeShop(4, 61, 1, Network(late=20, share=5))
    shop, many = room.shop("four", made), room.shop("sixteen", MadeShop(16, 40, 2))
    clash = [room.write("clash", CLASH), "--verdict", "audit,Clash,2,2"]
    conversation = str(TOP / "conversations/two_sites_and_the_token.txt")
    pictures = [[shop], [shop, "--last", "9"], [many], [shop, "--grid"], [many, "--grid"], clash, [conversation]]
    for number, words in enumerate(pictures):
        path = room.write(f"{number}.svg", room.picture(*words)[0])
        browser.open(path)
        count, meet = browser.value(MEETING)
        assert count > 5 and not meet, f"{words} has {count} labels, of which these meet: {meet}"


def test_labels_of_the_page(room: Room, browser: Browser) -> None:
    """On the page too no labels meet, at any zoom at which there are some."""
    wide = CLASH.replace("eve", "w" * 20).replace("bob", "m" * 20)
    for words in ([room.shop("four", MadeShop(4, 1200, 1))], [room.shop("sixteen", MadeShop(16, 40, 2))],
                  [room.write("clash", wide), "--verdict", "audit,Clash,2,2"]):
        page(room, browser, *words)
        count, meet = browser.value("""(() => {
          const p = page.picture, meet = []; let count = 0;
          for (p.step = 25; p.step < 110; p.step += 3) for (const part of [0, 0.4, 1]) {
            p.move(part * page.run.columns); p.draw(); count += p.boxes.length;
            p.boxes.forEach((a, at) => p.boxes.slice(at + 1).forEach(b => {
              if (a.left < b.right && b.left < a.right && a.top < b.bottom && b.top < a.bottom) meet.push([p.step, a.text, b.text]);
            }));
          }
          return [count, meet.slice(0, 4)];
        })()""")
        assert count > 50 and not meet, f"{words} has {count} labels, of which these meet: {meet}"


def page(room: Room, browser: Browser, *words: str) -> None:
    path = room.write("page.html", room.picture("--html", *words)[0])
    browser.open(path, READY)


def said(browser: Browser, name: str) -> str:
    return str(browser.value(f"el({name!r}).textContent"))


def test_page_by_the_keyboard(room: Room, browser: Browser) -> None:
    """A run is walked by keys alone: each step is told, and everything that is clicked is reached by Tab and has a name."""
    page(room, browser, str(TOP / "conversations/two_sites_and_the_token.txt"))
    assert said(browser, "number") == "Step 19 of 19", f"it opens at its end: {said(browser, 'number')}"
    browser.key("Home")
    assert said(browser, "words") == "site 0 makes 0.1, red 1: user,ann", said(browser, "words")
    told = []
    for _ in range(4):
        browser.key("ArrowRight")
        told.append(said(browser, "words"))
    assert told[2:] == ["site 1 holds 0.2: it waits for 0.1, red 1", "site 1 releases 0.1: user,ann"], f"{told}"
    assert said(browser, "status").startswith("Step 5. site 1 releases 0.1"), "what a screen reader is told"
    for key, number in (("ArrowLeft", 4), ("Home", 1), ("ArrowRight", 2), ("End", 19), ("ArrowUp", 16)):
        browser.key(key)
        assert said(browser, "number").startswith(f"Step {number} "), f"{key}: {said(browser, 'number')}"
    browser.key("p")
    assert said(browser, "words").startswith("site 1 makes 1.2"), f"where it comes from: {said(browser, 'words')}"
    names = []
    for _ in range(12):
        browser.key("Tab")
        names.append(browser.value("""(now => [now.id, now.getAttribute("aria-label") || now.textContent || (now.labels || [{}])[0].textContent])
            (document.activeElement)"""))
    assert {"first", "back", "next", "last", "out", "in", "all", "filter", "canvas"} <= {name for name, _ in names}, f"by Tab: {names}"
    assert all(text for _, text in names), f"names: {names}"
    assert not browser.faults, f"{browser.faults}"


def test_page_opens_at_its_end(room: Room, browser: Browser) -> None:
    """Of a long run the last step is shown, and stands in the picture; of one whose logs part, what the auditor names."""
    page(room, browser, room.shop("auction", MadeShop(3, 200, 4)))
    at_, count, x, width = browser.value("[page.picture.at, page.run.count, page.picture.x(page.run.column[page.picture.at]), page.picture.width]")
    assert at_ == count - 1 and 92 < x < width, f"step {at_} of {count}, at {x} of {width}"
    page(room, browser, room.write("clash", CLASH), "--verdict", "audit,Clash,2,2")
    assert browser.value("page.picture.at === page.run.divergence.at"), "where the logs part"


def test_page_by_day_and_in_the_dark(room: Room, browser: Browser) -> None:
    """The page and what it draws are as the reader's system asks, while it is open too, and each text is read; paper is white."""
    for words in ([room.shop("auction", MadeShop(3, 200, 4))], [room.write("clash", CLASH), "--verdict", "audit,Clash,2,2"]):
        page(room, browser, *words)
        for scheme, paper in (("light", colours.LIGHT["paper"]), ("dark", colours.DARK["paper"])):
            browser.scheme(scheme)
            browser.wait(f"page.run.colours.paper === {paper!r}")
            browser.value("new Promise(done => requestAnimationFrame(() => requestAnimationFrame(done)))")
            rgb = [int(paper[at:at + 2], 16) for at in (1, 3, 5)]
            assert browser.value("getComputedStyle(document.documentElement).backgroundColor") == f"rgb({', '.join(map(str, rgb))})", scheme
            for name in ("canvas", "map"):
                drawn = browser.value(f"[...el({name!r}).getContext('2d').getImageData(1, 1, 1, 1).data]")
                assert drawn == [*rgb, 255], f"{scheme}: {name} is drawn on {drawn}"
            browser.key("Home")
            assert browser.faint() == [], f"{scheme}: texts that are hard to read"
        printed = browser.value("window.dispatchEvent(new Event('beforeprint')), page.run.colours.paper")
        assert printed == colours.LIGHT["paper"], "paper is white"
        browser.scheme("light")
    assert not browser.faults, f"{browser.faults}"


def test_page_by_pointer(room: Room, browser: Browser) -> None:
    """Hovering tells a message's record, fields and predecessors; a click goes there; dragging moves."""
    page(room, browser, room.shop("auction", MadeShop(3, 200, 4)))
    browser.value("page.go(300), page.picture.draw()")
    at_, record, follows, x, y = browser.value("""(() => {
      const {run, picture} = page, box = el("canvas").getBoundingClientRect();
      const at = [...picture.seen(-4)].find(at => run.is(at, "made")), m = run.messageOf(at);
      return [at, run.record(m), run.followed(m).map(one => one.id), box.left + picture.x(run.column[at]), box.top + picture.y(run.lane[at])];
    })()""")
    browser.mouse("mouseMoved", x, y)
    browser.wait("!el('tip').hidden")
    tip = said(browser, "tip")
    assert record in tip and f"follows {', '.join(follows)}" in tip and "counts" in tip, f"hovering: {tip}"
    browser.mouse("mousePressed", x, y, button="left", clickCount=1)
    browser.mouse("mouseReleased", x, y, button="left", clickCount=1)
    assert browser.value("page.picture.at") == at_, "a click"
    left = browser.value("page.picture.left")
    browser.mouse("mousePressed", 600, 200, button="left", clickCount=1)
    browser.mouse("mouseMoved", 500, 200, button="left", buttons=1)
    browser.mouse("mouseReleased", 500, 200, button="left", clickCount=1)
    assert browser.value("page.picture.left") > left, "dragging"
    assert not browser.faults, f"{browser.faults}"


def test_page_by_filter(room: Room, browser: Browser) -> None:
    """A filter leaves what is about an item or a user, and the keys walk these."""
    made = MadeShop(3, 200, 4)
    messages = {message for site in made.sites for message in site.log}
    about = [message for message in messages if message.id == "0.2" or message.shadow[0] != "user" and "0.2" in message.shadow[1:4]]
    page(room, browser, room.shop("auction", made))
    browser.key("f")
    browser.value("el('filter').value = 'u1'; el('filter').dispatchEvent(new Event('input'))")
    assert said(browser, "matches") == f"{len(about)} of 200 messages", f"{said(browser, 'matches')}, and they are {len(about)}"
    browser.value("el('canvas').focus()")
    browser.key("Home")
    for _ in range(5):
        browser.key("ArrowRight")
        assert browser.value("page.filter.has(page.picture.at)"), "a step"
    browser.key("Escape")
    assert browser.value("page.filter.is === null"), "Escape"
    assert not browser.faults, f"{browser.faults}"


def test_page_of_a_clash(room: Room, browser: Browser) -> None:
    """Both versions stand side by side, and the page goes to each of them."""
    page(room, browser, room.write("clash", CLASH), "--verdict", "audit,Clash,2,2")
    assert said(browser, "fault").startswith("Clash: two messages have one id."), said(browser, "fault")
    rows = browser.value("[...document.querySelectorAll('#versions tr.differs td')].map(cell => cell.textContent)")
    assert rows == ["user,bob", "user,eve"], f"{rows}"
    told = browser.value("[...document.querySelectorAll('#fault button')].map(button => { button.click(); return el('words').textContent; })")
    assert told == ["site 1 makes 0.2, red 2: user,bob", "site 0 makes 0.2, red 2: user,eve", "site 1 releases 0.1: user,ann"], f"{told}"
    assert not browser.faults, f"{browser.faults}"


def test_page_of_many(room: Room, browser: Browser) -> None:
    """20,000 messages: how long it takes to open, to step, and to draw at every zoom; nothing comes from outside; it is printed."""
    text = room.picture("--html", room.shop("auction", many()))[0]
    assert "http:" not in text.replace("http://www.w3.org/", "") and "https:" not in text and "@import" not in text, "something from outside"
    began = time.monotonic()
    browser.open(room.write("page.html", text), READY)
    opened = time.monotonic() - began
    scripts = {
        "drawings": """(() => { const p = page.picture, times = [];
            for (p.step = p.narrowest(); p.step < 105; p.zoom(1.25, 500)) for (const part of [0, 0.3, 0.7, 1]) {
              p.move(part * page.run.columns); p.draw(); times.push(p.time);
            } return times; })()""",
        "steps": """(() => { const times = [];
            for (let at = 0; at < page.run.count; at += 1999) {
              const began = performance.now(); page.go(at); page.picture.draw(); times.push(performance.now() - began);
            } return times; })()""",
    }
    for name, script in scripts.items():
        # Of each the least of three, since what else runs on the machine makes one take longer.
        found_ = sorted(min(times) for times in zip(*(browser.value(script) for _ in range(3))))
        half, most = found_[len(found_) // 2], found_[-1]
        times_ = f"{len(found_)} {name}, half within {half:.1f} ms, all within {most:.1f} ms"
        print(f"pictures: a page of {MANY:,} messages, opened in {opened:.1f} s: {times_}")
        assert half < HALF and most < ALL, f"{name}: half {half:.1f} ms, all {most:.1f} ms"
    browser.value("page.picture.step = 60; page.go(5000)")
    browser.paper(str(room.path / "page.pdf"))
    assert (room.path / "page.pdf").read_bytes().startswith(b"%PDF"), "paper"
    assert browser.value("el('canvas').width > 0 && !page.printing"), "after paper"
    assert not browser.faults, f"{browser.faults}"
