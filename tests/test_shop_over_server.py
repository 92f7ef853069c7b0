"""A shop whose sites are linked by a Redis server: its streams, the token, access and TLS."""

import os
import signal

import pytest

from measure_shop import free_port
from tests.folder import SALE, Folder
from tests.needs import need
from tests.server import Server

pytestmark = pytest.mark.server


def test_streams(at: Folder) -> None:
    """Two supervisors over a server: asks at any site from either; a server that lost its end, or all, is given it again."""
    server = Server(at).start_shop()
    assert at.shop(f"ask 0 {SALE}", folder="a") == "ok,0.1\nok,0.2\nok,0.3\n", "asks at site 0"
    assert at.shop("ask 2 bid,0.3,0.2,500 --published", folder="b") == "ok,2.1\n", "a bid at site 2"
    assert at.shop("ask 1 bid,0.3,0.2,600", folder="b") == "ok,1.1\n", "asked from the other machine"
    at.shop("ask 2 user,ann", 1, "the nickname belongs to a user", folder="a")
    assert at.shop("audit", folder="b") == "audit,Agree\n", "the audit"
    server.say("flushall")
    at.wait("all packets again", lambda: all(int(server.say(f"xlen auction:{site}")) == count for site, count in ((0, 4), (1, 2), (2, 2))))
    server.kill()
    assert at.shop("ask 2 comment,0.3,0.2,0.1,5,good", folder="b") == "ok,2.2\n", "blue asks go on without the server"
    at.shop("status", 1, folder="b")
    server.start()
    at.wait("what was asked meanwhile", lambda: "good" in at.shop("list 0 comments 0.1", folder="a"))
    at.run("./shop stop a")
    at.wait("site 0 away", lambda: at.status("b")["site"][0]["state"] == "away")
    at.shop("ask 0 user,eve --timeout 1", 3, "gives no answer", folder="b")
    at.run("./shop stop b")


def test_keys(at: Folder, server: Server) -> None:
    """Until each machine has said that it knows keys, an ask with one is refused by name, and others aren't; from then on it is taken, whoever is
    there. While the server is away, a blue ask may be accepted at two sites under one key; a red one is told again by any site."""
    server.say("set auction:sites 3")       # as a version of before has begun the shop
    at.run(f"./shop start a --sites 3 --here 0,1 --over {server.over}")
    assert at.status("a")["keys"] is False, "what pages look at"
    why = "of site 2 none has: upgrade shop and rubis on every machine, and start it; nothing was given to it by this request"
    at.shop("ask 0 user,ann --key k", 3, why, "a")
    assert at.shop("ask 0 user,bob", folder="a") == "ok,0.1\n", "without a key"
    at.run(f"./shop start b --sites 3 --here 2 --over {server.over}")
    at.wait("that all know keys", lambda: at.run("./shop -C a ask 0 user,ann --key k 2>&1; true") == "ok,0.2\n")
    assert at.status("a")["keys"] is True, "once all know keys"
    assert at.shop("ask 2 user,ann --key k", folder="b") == "ok,0.2\n", "a red ask again, at another site"
    assert server.say("xrange auction:0 2-0 2-0").split("\n")[2] == "key,k,msg,1,0,2,2,1:0:0,user,ann", "what goes to others"
    lamp = "item,0.1,lamp,7,3,100,80"
    server.kill()
    assert (at.shop(f"ask 0 {lamp} --key k", folder="a"), at.shop(f"ask 2 {lamp} --key k", folder="b")) == ("ok,0.3\n", "ok,2.1\n"), "a blue ask at two"
    server.start()
    at.run("./shop stop b; ./shop stop a; ./shop start a")
    assert at.shop(f"ask 0 {lamp} --key k", folder="a") == "ok,0.3\n", "one of the machines is away"
    at.run("./shop start b")
    at.read_all(0, 1, folder="a")
    assert at.shop(f"ask 1 {lamp} --key k", folder="a") in ("ok,0.3\n", "ok,2.1\n"), "whichever came first"
    at.shop("audit", folder="a")


def test_another_number_of_sites(at: Folder, server: Server) -> None:
    """A machine that joins with another number of sites is refused, and leaves nothing behind, also where the server comes later, or lost
    all meanwhile."""
    at.run(f"./shop start a --sites 3 --here 0,1 --over {server.over}")
    said = f"redis://127.0.0.1:{server.port}/auction is a shop with --sites 3, and "
    for command in ("start", "run"):
        at.run(f"./shop {command} b --sites 4 --here 3 --over {server.over}", 2, f"{said}b would have --sites 4")
        assert not (at.path / "b").exists(), "nothing is left"
    supervisor = at.status("a")["pid"]
    with at.standing_still(supervisor):
        assert server.say("persist auction:status:0") == "1\n", "the status of a site"
        server.say("del auction:sites")         # as an earlier version leaves it, which says how its sites are
        at.run(f"./shop start b --sites 4 --here 3 --over {server.over}", 2, f"{said}b would have --sites 4")
    server.say("flushall")
    at.wait("what is told again", lambda: server.say("get auction:sites") == "3\n")
    server.kill()
    at.run(f"./shop start b --sites 2 --here 1 --over {server.over}", 3, "takes no asks until it is known what the others have of it")
    server.start()
    at.wait("that it is stopped", lambda: at.site(1, "b")["state"] == "fenced")
    assert at.site(1, "b")["fault"].endswith(f"{said}this folder has --sites 2"), f"what is said: {at.site(1, 'b')}"
    at.run("./shop stop b; rm -r b")
    at.run(f"./shop start b --sites 3 --here 2 --over {server.over}")
    at.shop("ask 0 user,ann", folder="a")
    at.shop("wait 2", folder="b")


def test_others_append(at: Folder) -> None:
    """Where the server has lost messages of a site that isn't running, another site appends them."""
    server = Server(at).start_sale()
    at.shop("wait 2", folder="b")
    at.run("./shop stop a")
    server.say("del auction:0")
    at.wait("its messages again", lambda: server.say("xlen auction:0") == "3\n")
    at.goes_on("./shop start a", "0 user,eve", "0.4", "it goes on", "a", audit="b")


def begin_again(server: Server, site: int, count: int) -> None:
    """The server loses all of a site's stream but its first entries."""
    entries = server.say(f"xrange auction:{site} - +").split("\n")
    server.say(f"del auction:{site}")
    for name, packet in list(zip(entries[0::3], entries[2::3]))[:count]:
        server.say(f"xadd auction:{site} {name} p '{packet}'")


@pytest.mark.parametrize("left, loses_again", [(0, False), (2, False), (0, True)], ids=["all", "end", "all twice"])
def test_token_to_a_stopped_site(at: Folder, left: int, loses_again: bool) -> None:
    """The token was passed to a stopped site, and a message followed. The server has lost all but the first entries of the sender's
    stream, and a third site has put the messages back; the recipient has read them before the sender comes back, with its pass. Once more
    where the server then loses all again, and the sender begins its stream behind the recipient's place."""
    server = Server(at).start_apart()
    at.read_all(1, folder="b")
    at.read_all(2, folder="c")
    at.run("./shop stop c")
    at.shop("pass 0 2", folder="a")
    at.shop("ask 0 restock,0.3,0.1,2", folder="a")
    at.shop("wait 1", folder="b")
    at.run("./shop stop a")
    assert server.say("xlen auction:0") == "5\n", "four messages, and the token between the last two"
    begin_again(server, 0, left)
    at.wait("the messages again", lambda: server.say("xlen auction:0") == "4\n")
    at.run(f"./shop start c --sites 3 --here 2 --over {server.over}")
    at.shop("wait 2", folder="c")
    if loses_again:
        at.run("./shop stop b")
        server.say("flushall")
    at.goes_on("./shop start a", "2 bid,0.3,0.2,500", "2.1", "the token is where it was passed to", "c")
    at.run("./shop start b")
    assert at.shop("ask 0 user,eve", folder="b").startswith("ok,0."), "it goes on from there"
    at.shop("audit", folder="b")


def test_token_of_a_lost_folder(at: Folder) -> None:
    """The sender's stream is whole, its folder is lost, and the recipient has later messages: the token comes from the stream alone."""
    server = Server(at).start_apart()
    at.shop("wait 2", folder="c")
    at.run("./shop stop c")
    at.shop("pass 0 2", folder="a")
    at.shop("ask 0 restock,0.3,0.1,2", folder="a")
    at.shop("wait 1", folder="b")
    at.run("./shop stop a")
    begin_again(server, 0, 0)
    at.wait("the messages again", lambda: server.say("xlen auction:0") == "4\n")
    at.run("./shop start c; ./shop -C c wait 2; ./shop stop c; ./shop stop b; ./shop start a")
    at.wait("all of its packets", lambda: server.say("xlen auction:0") == "5\n")
    at.kill(at.status("a")["pid"])
    at.goes_on("rm -r a/0; ./shop start c; ./shop start b", "2 bid,0.3,0.2,500", "2.1", "the token is where it was passed to", "c")


def test_full_server(at: Folder) -> None:
    """Where the server is full, asks go on, and the status says that nothing is published."""
    server = Server(at, "--maxmemory-policy noeviction").start_sale()
    at.shop("wait 2", folder="b")
    server.say("config set maxmemory 1")
    assert at.shop("ask 0 user,cat", folder="a") == "ok,0.4\n", "an ask"
    at.shop("ask 0 user,dan --published --timeout 2", 3, "accepted here as 0.5, and not published", folder="a")
    at.wait("a fault", lambda: "OOM" in at.status("a")["link"])
    server.say("config set maxmemory 0")
    at.wait("what was asked meanwhile", lambda: "dan" in at.shop("list 2 users", folder="b"))


def test_access(at: Folder, server: Server) -> None:
    """A server with a user and a password, as the guide sets it up: what the shop needs is allowed, and no command shows the password."""
    assert server.say("acl setuser shop on '>secret' '~auction:*' '+@all' '-@dangerous'") == "OK\n", "the user"
    server.say("acl setuser default off")
    server.over = server.over.replace("//", "//shop:secret@")
    server.start_sale()
    at.shop("ask 1 bid,0.3,0.2,500", folder="b")
    at.shop("show 2 item 0.3", folder="b")
    at.shop("audit", folder="a")
    assert "secret" not in at.run("./shop -C a status --json; true") + at.shop("log", folder="a"), "what is shown"
    assert (at.path / "a/shop.json").stat().st_mode & 0o077 == 0, "who reads the settings"
    at.run("./shop stop b; rm -r b/2; ./shop -C b rebuild 2 --anyway; ./shop start b")
    at.run("./shop stop a")
    at.run(f"./shop start a --over {server.over.replace('secret', 'other')}", 3, "invalid username-password")
    assert "other" not in at.text("a/events"), "what is written down"


def tls_server(at: Folder, host: str) -> tuple[Server, str]:
    """A server with a certificate of some host, and the URL of a shop over it at this one."""
    need("openssl")
    at.run(f"openssl req -x509 -newkey rsa:2048 -nodes -keyout key -out certificate -days 2 -subj /CN={host} "
           f"-addext subjectAltName=DNS:{host} 2> told")
    port = free_port()
    server = Server(at, f"--tls-port {port} --tls-cert-file certificate --tls-key-file key --tls-ca-cert-file certificate "
                    "--tls-auth-clients no")
    return server, f"rediss://localhost:{port}/auction"


def test_tls(at: Folder) -> None:
    """Over TLS: a certificate that the machine, or SSL_CERT_FILE, doesn't vouch for is refused, and another is taken."""
    _, over = tls_server(at, "localhost")
    at.run(f"./shop start a --sites 2 --here 0 --over {over}", 3, "certificate verify failed")
    at.run("./shop stop a")
    at.run(f"SSL_CERT_FILE=certificate ./shop start a --sites 2 --here 0 --over {over}")
    at.run(f"SSL_CERT_FILE=certificate ./shop start b --sites 2 --here 1 --over {over}")
    at.shop(f"ask 0 {SALE}", folder="a")
    assert at.shop("ask 1 bid,0.3,0.2,500", folder="b") == "ok,1.1\n", "a bid at the other site"
    at.shop("audit", folder="a")


def test_tls_of_another_host(at: Folder) -> None:
    """A certificate that the machine vouches for, and that is another host's, is refused, and the refusal says so."""
    _, over = tls_server(at, "elsewhere.example")
    start = f"SSL_CERT_FILE=certificate ./shop start a --sites 2 --here 0 --over {over}"
    at.run(start, 3, "certificate verify failed: Hostname mismatch, certificate is not valid for 'localhost'")
    at.run("./shop stop a")
    at.run(start.replace("localhost:", "localhost?ssl_check_hostname=no:"), 2, "--over is files or redis://HOST:PORT/NAME")


SWALLOWS = """
import asyncio, redis.asyncio.connection as connection, redis.exceptions
read = connection.Connection.read_response

async def read_response(*words, **named):
    try:
        return await read(*words, **named)
    except asyncio.CancelledError:
        for _ in range(10):
            try:
                await asyncio.sleep(0.02)
            except asyncio.CancelledError:
                pass
        raise redis.exceptions.TimeoutError("a time-out that swallowed a cancel") from None
connection.Connection.read_response = read_response
"""


def test_stop_without_its_server(at: Folder, server: Server) -> None:
    """A stop ends though the server hangs, and though its client swallows cancels, as redis-py 4.3.4 does where one meets a time-out."""
    (at.path / "sitecustomize.py").write_text(SWALLOWS)
    at.run(f"PYTHONPATH={at.path} ./shop start a --sites 2 --here 0 --over {server.over}")
    at.shop("ask 0 user,ann", folder="a")
    process = at.status("a")["pid"]
    server.process.send_signal(signal.SIGSTOP)
    at.run("./shop stop a")
    at.wait("the end of the supervisor", lambda: not os.path.exists(f"/proc/{process}"))
    at.run("./shop stop a", 0, "a is not running")
    server.process.send_signal(signal.SIGCONT)
    at.goes_on("./shop start a", "0 user,bob", "0.2", "it goes on", "a")
