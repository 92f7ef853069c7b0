"""Whether a shop is well, as load balancers, alerts and programs are told."""

import json
import re

from tests.folder import Folder
from tests.needs import TOP, need
from tests.server import Server
from tests.web import Web


def test_health(web: Web) -> None:
    """The server runs, also where the shop doesn't; it is ready while a site takes asks."""
    at = web.at
    assert (web.get("/healthz").json, web.get("/readyz").json) == ({"ok": True}, {"ok": True, "sites": {"0": "up"}})
    assert web.get("/readyz?site=1").status == 503, "a site that isn't there"
    with at.standing_still(at.site(0)["pid"]):
        at.start("./shop -C auction ask 0 user,ann")
        at.wait("a silent site", lambda: web.get("/readyz").status == 503)
        assert "silent" in web.get("/readyz").json["detail"]
    at.wait("the site", lambda: web.get("/readyz").status == 200)
    at.run("./shop stop auction")
    assert (web.get("/healthz").status, web.get("/readyz").status) == (200, 503)


def test_a_site_that_takes_no_asks_is_not_up(server: Server) -> None:
    """Where the server is away at a start, or has another password, the site waits, says so, and isn't counted as up."""
    at = server.at
    server.kill()
    at.run(f"./shop start auction --sites 2 --here 0 --over {server.over}", 3, "takes no asks")
    assert at.site(0)["state"] == "waiting"
    web = Web(at)
    assert web.get("/readyz").json["detail"].endswith("{'0': 'waiting'}")
    assert 'shop_site_up{site="0"} 0.0' in web.get("/metrics").text
    server.start()
    at.wait("the site", lambda: at.site(0)["state"] == "up")
    assert 'shop_site_up{site="0"} 1.0' in web.get("/metrics").text


def test_metrics_of_the_machine(web: Web) -> None:
    """The build, the free disk, and the memory of each process."""
    said = web.get("/metrics").text
    build = web.at.run("./shop --version").split()[1]
    for text in (f'shop_build_info{{build="{build}"}} 1.0', 'shop_resident_bytes{process="supervisor"} ', 'shop_resident_bytes{process="site 0"} ',
                 "shop_disk_free_bytes ", "process_resident_memory_bytes "):
        assert text in said, text


def test_alerts_and_dashboard(web: Web) -> None:
    """The rules are rules, and they and the dashboard ask for metrics that there are."""
    need("promtool")
    at = web.at
    at.run(f"promtool check rules {TOP}/monitoring/alerts.yml")
    at.run(f"promtool test rules {TOP}/monitoring/alerts_test.yml")
    said = web.get("/metrics").text
    dashboard = json.loads((TOP / "monitoring/dashboard.json").read_text())
    asked = [target["expr"] for panel in dashboard["panels"] for target in panel["targets"]]
    assert len(asked) >= 8
    for name in {word for text in [*asked, (TOP / "monitoring/alerts.yml").read_text()] for word in re.findall(r"\b(?:shop|process)_\w+", text)}:
        assert name.removesuffix("_bucket") in said, name


def test_an_audit_says_what_it_waits_for(at: Folder) -> None:
    """An audit ends when its time is over, and says before what it waits for; its verdict is JSON too."""
    at.start_sale(2)
    assert json.loads(at.shop("audit --json")) == {"verdict": "Agree", "agrees": True}
    with at.standing_still(at.site(1)["pid"]):
        said = at.run("./shop -C auction audit --timeout 3 2>&1; echo $?").splitlines()
        assert said[0] == "shop: the audit waits for the log of site 1" and "no log came from site 1" in said[1] and said[-1] == "3", said
    (at.path / "slow").write_text(f'#!/bin/sh\n[ "$1" = audit ] && exec sleep 60\nexec {at.program} "$@"\n')
    (at.path / "slow").chmod(0o755)
    said = at.run("RUBIS=./slow ./shop -C auction audit --timeout 3 2>&1; echo $?").splitlines()
    assert said[0] == "shop: the audit waits for the auditor" and "the auditor gave no answer within 3 s (--timeout)" in said[1] and said[-1] == "3", said


def test_json_of_the_log(at: Folder) -> None:
    """Events and records, an object a line."""
    at.run("./shop start auction")
    at.shop("ask 0 user,ann 'item,0.1,\"vase, \"\"blue\"\"\",7,1,5,0'")
    events = [json.loads(line) for line in at.shop("log --json").splitlines()]
    assert all(event["at"].startswith("20") for event in events) and any(event["site"] == 0 and event["text"].startswith("up with") for event in events)
    said = [json.loads(line) for line in at.shop("log 0 --json").splitlines()]
    assert said[0] == {"at": None, "is": "asked", "fields": ["user", "ann"]}
    assert said[3]["fields"] == ["item", "0.1", 'vase, "blue"', "7", "1", "5", "0"] and said[4]["fields"][2:] == ["ok", "0.2"]
    assert json.loads(at.shop("show 0 item 0.2 --json"))["best"] is None


def test_events_go_on(web: Web) -> None:
    """A reader of events gets the last ones, each with an id and its fields; with that id it goes on behind it, also over a start that puts
    the file aside."""
    at = web.at

    def told(*words: str) -> list[tuple[str, dict[str, object]]]:
        said = at.run(f"curl -sSN --max-time 2 {' '.join(words)} {web.url}/events; true")
        return [(name, json.loads(data)) for name, data in re.findall(r"event: event\nid: (\S+)\ndata: (.*)\n", said)]
    first = told()
    assert len(first) >= 2 and any(event["site"] == 0 and str(event["text"]).startswith("site 0: up with") for _, event in first)
    for _ in range(3):
        at.kill(at.site(0)["pid"])
        at.wait("the site", lambda: at.site(0)["state"] == "up")
    again = told("-H", f"'Last-Event-ID: {first[-1][0]}'")
    assert again and not {name for name, _ in again} & {name for name, _ in first} and "ended with status -9" in str(again[0])
    middle = told("-H", f"'Last-Event-ID: {first[0][0]}'")
    assert middle == first[1:] + again
    at.run("./shop stop auction; head -c 17000000 /dev/zero | tr '\\0' x | fold -w 1000000 >> auction/events; echo >> auction/events; ./shop start auction")
    assert (at.path / "auction/events.before").exists()
    over = [event["text"] for _, event in told("-H", f"'Last-Event-ID: {again[-1][0]}'")]
    assert "supervisor: ended" in over and any(str(text).startswith("site 0: up with") for text in over[over.index("supervisor: ended"):])
    assert '{"gap": true}' in at.run(f"curl -sSN --max-time 2 -H 'Last-Event-ID: 1-1' {web.url}/events; true")
