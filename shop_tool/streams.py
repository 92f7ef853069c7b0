"""A shop on a Redis server: a stream for each site with all that it sent, and what supervisors say to each other.

| key | what it has |
|---|---|
| NAME:sites | how many sites the shop has |
| NAME:keys | that the machines of all sites have said that they know keys of asks, or that the shop began with such a one |
| NAME:SITE | a stream: the site's packets in the order in which it sent them; message n is n-0, and the t-th token after it n-t |
| NAME:mark:SITE | a random number that is drawn whenever the site's stream is begun or written anew |
| NAME:life:SITE | the life of the site's folder that was compared with its stream last |
| NAME:owner:SITE | which folder on which machine runs the site |
| NAME:standby:SITE | who stands by for the site; it expires when that is gone for an hour |
| NAME:yields:SITE | the life of the site's folder that yields to a standby, or a word that none does |
| NAME:status:SITE | how the site is; it expires when its supervisor has gone |
| NAME:wants | a stream: wants of the token, and requests to other supervisors |
| NAME:answer:ID | the answers to one such request; it expires |
"""

import asyncio
import contextlib
import itertools
import json
import os
import socket
import ssl
import time
import zlib
from collections.abc import Iterable, Sequence
from typing import Any

from .carrier.ledger import Place
from .carrier.lives import is_life
from .carrier.over_server import WANTS
from .carrier.rebuilding import STATUS_SECONDS
from .carrier.records import bytes_of
from .carrier.steps import (Adopt, Append, Broken, Entries, Hear, Mark, Marks, Owner, Packets, Page, PageOf, Read, Rewrite, SayYields, SeeLife, Sites, StandBy,
                            State, Statuses, StreamState, Tell)
from .carrier.told import FORM
from .ends import Fault, Status
from .folders import boot, identity
from .settings import Settings

ANSWER_SECONDS = 60
STANDBY_SECONDS = 3600
PAGE = 5000

# Appends packets, if the last entry is the one that the caller knows, and so is the life that was seen last, if it names one; else returns
# the last id. A stream that it begins gets a mark.
APPEND = b"""
local last = redis.call('XREVRANGE', KEYS[1], '+', '-', 'COUNT', 1)
local id = last[1] and last[1][1] or '0-0'
if id ~= ARGV[1] or ARGV[3] ~= '' and (redis.call('GET', KEYS[3]) or '') ~= ARGV[3] then return id end
if id == '0-0' then redis.call('SET', KEYS[2], ARGV[2]) end
for at = 4, #ARGV, 2 do redis.call('XADD', KEYS[1], ARGV[at], 'p', ARGV[at + 1]) end
return 'ok'
"""

# A page of a stream: how many entries, the last id, the hash of ids and packets, and the tokens among them.
PAGE_OF = b"""
local found, text, tokens = redis.call('XRANGE', KEYS[1], ARGV[1], ARGV[2], 'COUNT', ARGV[3]), {}, {}
for at, entry in ipairs(found) do
  text[at] = entry[1] .. ' ' .. entry[2][2] .. '\\n'
  if string.sub(entry[2][2], 1, 6) == 'token,' then tokens[#tokens + 1] = entry[2][2] end
end
return {#found, #found > 0 and found[#found][1] or '0-0', redis.sha1hex(table.concat(text)), tokens}
"""

# Puts a new stream in place of another one, if the life that was seen last is the one that the caller names, if it names one.
REWRITE = b"""
if ARGV[2] ~= '' and (redis.call('GET', KEYS[4]) or '') ~= ARGV[2] then return 0 end
redis.call('RENAME', KEYS[1], KEYS[2])
redis.call('SET', KEYS[3], ARGV[1])
redis.call('SET', KEYS[5], ARGV[3])
return 1
"""

# How many entries a stream has, its last one, and the greatest id that it ever had; the life of its site, who stands by for it, and which
# life yields.
STATE = b"""
local life, standby, yields = redis.call('GET', KEYS[2]) or '', redis.call('GET', KEYS[3]) or '', redis.call('GET', KEYS[4]) or ''
if redis.call('EXISTS', KEYS[1]) == 0 then return {0, '0-0', '', '0-0', life, standby, yields} end
local last = redis.call('XREVRANGE', KEYS[1], '+', '-', 'COUNT', 1)
local info, greatest = redis.call('XINFO', 'STREAM', KEYS[1]), '0-0'
for at = 1, #info, 2 do if info[at] == 'last-generated-id' then greatest = info[at + 1] end end
return {redis.call('XLEN', KEYS[1]), last[1] and last[1][1] or '0-0', last[1] and last[1][2][2] or '', greatest, life, standby, yields}
"""

# Sets the life of a site, if it is still the one that the caller knows, and so is the last entry of its stream, and the caller's folder has it.
SEE_LIFE = b"""
if string.sub(redis.call('GET', KEYS[3]) or '', 1, #ARGV[4] + 1) ~= ARGV[4] .. ' ' then return 0 end
local last = redis.call('XREVRANGE', KEYS[2], '+', '-', 'COUNT', 1)
if (last[1] and last[1][1] or '0-0') ~= ARGV[3] or (redis.call('GET', KEYS[1]) or '') ~= ARGV[1] then return 0 end
redis.call('SET', KEYS[1], ARGV[2])
return 1
"""

# Gives a site that runs nowhere, and whose last life yields, to another folder, if its stream still ends as the caller knows.
TAKE_OVER = b"""
local last = redis.call('XREVRANGE', KEYS[1], '+', '-', 'COUNT', 1)
if (last[1] and last[1][1] or '0-0') ~= ARGV[2] or redis.call('EXISTS', KEYS[2]) == 1 then return 0 end
if (redis.call('GET', KEYS[3]) or '') ~= ARGV[1] or (redis.call('GET', KEYS[4]) or '') ~= ARGV[1] then return 0 end
redis.call('MSET', KEYS[3], ARGV[3], KEYS[4], ARGV[3], KEYS[5], ARGV[4])
if (redis.call('GET', KEYS[6]) or '') == ARGV[5] then redis.call('DEL', KEYS[6]) end
return 1
"""

# Gives a site to a folder, if the one has it still that the caller knows, and so is the life that was seen last. It hasn't said yet that it
# yields.
ADOPT = b"""
if (redis.call('GET', KEYS[1]) or '') ~= ARGV[1] or (redis.call('GET', KEYS[3]) or '') ~= ARGV[4] then return 0 end
redis.call('MSET', KEYS[1], ARGV[2], KEYS[2], ARGV[3])
return 1
"""

# Sets a key, if it still has what the caller knows.
CHANGE = b"""
if (redis.call('GET', KEYS[1]) or '') ~= ARGV[1] then return 0 end
redis.call('SET', KEYS[1], ARGV[2])
return 1
"""


def id_of(place: Place) -> bytes:
    return b"%d-%d" % place


def place_of(name: bytes) -> Place:
    number, _, token = name.partition(b"-")
    return int(number), int(token)


def faults() -> tuple[type[BaseException], ...]:
    """What goes wrong where the server is away, or refuses, or has what no shop wrote."""
    import redis                    # type: ignore[import]
    return redis.RedisError, OSError, asyncio.TimeoutError, Broken


def reason_of(fault: BaseException) -> str:
    """What went wrong; over TLS with the reason, which the library leaves out."""
    cause = fault.__cause__ or fault.__context__
    why = str(fault) or type(fault).__name__
    if isinstance(cause, ssl.SSLCertVerificationError):
        return f"certificate verify failed: {cause.verify_message}"
    if isinstance(cause, ConnectionRefusedError) or isinstance(fault, ConnectionRefusedError):
        return "the server refuses connections: is redis-server running there, on that port?"
    if isinstance(cause, socket.gaierror):
        return f"{str(fault).partition('connecting to ')[2].rpartition(':')[0]}: no machine has this name ({cause.strerror})"
    return f"{why} {cause}" if isinstance(cause, ssl.SSLError) else why


def tls_options(url: str) -> dict[str, Any]:
    """Over TLS: the server has a certificate that the machine vouches for, and it is one of the host in the URL."""
    return {"ssl_cert_reqs": "required", "ssl_check_hostname": True} if url.startswith("rediss:") else {}


class Streams:
    """One connection to the server of a shop."""

    def __init__(self, settings: Settings, folder: str) -> None:
        import redis.asyncio        # type: ignore[import]
        url, self.name = settings.server
        self.sites, self.folder = settings.sites, folder
        self.redis: Any = redis.asyncio.Redis.from_url(
            url, socket_timeout=10, socket_connect_timeout=3, socket_keepalive=True, **tls_options(url))
        self._mark_keys = [self.key(f"mark:{site}") for site in range(self.sites)]
        self._append = self.redis.register_script(APPEND)
        self._state = self.redis.register_script(STATE)
        self._rewrite = self.redis.register_script(REWRITE)
        self._take_over = self.redis.register_script(TAKE_OVER)
        self._see_life = self.redis.register_script(SEE_LIFE)
        self._change = self.redis.register_script(CHANGE)
        self._adopt = self.redis.register_script(ADOPT)
        self._page = self.redis.register_script(PAGE_OF)

    async def __aenter__(self) -> "Streams":
        return self

    async def __aexit__(self, *_: object) -> None:
        await self.close()

    async def close(self) -> None:
        await self.redis.close()
        await self.redis.connection_pool.disconnect()

    async def do(self, step: tuple[Any, ...]) -> Any:
        """Does a step of a machine."""
        return await getattr(self, STEPS[type(step)])(*step)

    def key(self, what: object) -> str:
        return f"{self.name}:{what}"

    # A site's stream.

    async def state(self, site: int) -> StreamState:
        keys = [self.key(site), *(self.key(f"{what}:{site}") for what in ("life", "standby", "yields"))]
        entries, last, packet, greatest, *said = await self._state(keys=keys)
        life, standby, yields = (text.decode("utf-8", "replace") for text in said)
        if life and not is_life(life):
            raise Broken(f"{keys[1]} has {life[:40]!r}, which no shop has written there (redis-cli del {keys[1]})")
        return StreamState(entries, place_of(last), packet, place_of(greatest), life, standby, yields)

    async def see_life(self, site: int, before: str, life: str, last: Place, own: str) -> bool:
        keys = [self.key(f"life:{site}"), self.key(site), self.key(f"owner:{site}")]
        return bool(await self._see_life(keys=keys, args=[before, life, id_of(last), own]))

    async def append(self, site: int, last: Place, packets: Packets, life: str) -> bool:
        words: list[Any] = [id_of(last), new_mark(), life] + [word for place, text in packets for word in (id_of(place), text)]
        keys = [self.key(site), self.key(f"mark:{site}"), self.key(f"life:{site}")]
        return bool(await self._append(keys=keys, args=words) == b"ok")

    async def rewrite(self, site: int, packets: Packets, life: str) -> bool:
        new = self.key(f"{site}:new")
        await self.redis.delete(new)
        pipe, count = self.redis.pipeline(transaction=False), 0
        for place, text in packets:
            pipe.xadd(new, {b"p": text}, id=id_of(place))
            count += 1
            if count % PAGE == 0:
                await pipe.execute()
        await pipe.execute()
        if not count:
            return True
        keys = [new, self.key(site), *(self.key(f"{what}:{site}") for what in ("mark", "life", "yields"))]
        return bool(await self._rewrite(keys=keys, args=[new_mark(), life, no_life()]))

    async def marks(self) -> list[Mark]:
        found: list[Mark] = await self.redis.mget(self._mark_keys)
        return found

    async def page(self, site: int, after: Place, upto: Place | None = None) -> Page:
        last = id_of(upto) if upto else b"+"
        entries, name, digest, tokens = await self._page(keys=[self.key(site)], args=[b"(" + id_of(after), last, PAGE])
        return Page(entries, place_of(name), digest, tokens)

    async def read(self, after: dict[int, Place], count: int, seconds: float) -> dict[int, Packets]:
        places = {self.key(site): id_of(place) for site, place in after.items()}
        found = await self.redis.xread(places, count=count, block=int(1000 * seconds))
        made = {}
        for key, entries in found:
            made[int(key.rsplit(b":", 1)[1])] = [(place_of(name), fields.get(b"p", b"")) for name, fields in entries]
        return made

    async def entries(self, site: int, after: Place, upto: Place | None = None) -> Packets:
        found = await self.redis.xrange(self.key(site), b"(" + id_of(after), id_of(upto) if upto else b"+", count=PAGE)
        return [(place_of(name), fields.get(b"p", b"")) for name, fields in found]

    async def message(self, site: int, number: int) -> bytes | None:
        found = await self.redis.xrange(self.key(site), id_of((number, 0)), id_of((number, 0)))
        text: bytes | None = found[0][1].get(b"p") if found else None
        return text

    # Standbys.

    async def stand_by(self, site: int) -> None:
        await self.redis.set(self.key(f"standby:{site}"), self._standby(site), ex=STANDBY_SECONDS)

    async def leave(self, site: int) -> None:
        """Stands by no more."""
        await self._change(keys=[self.key(f"standby:{site}")], args=[self._standby(site), b""])

    def _standby(self, site: int) -> bytes:
        return bytes_of(f"{identity(self.folder)} {socket.gethostname()}:{self.folder}")

    async def say_yields(self, site: int, before: str, life: str) -> bool:
        return bool(await self._change(keys=[self.key(f"yields:{site}")], args=[before, life or no_life()]))

    async def take_over(self, site: int, before: str, last: Place, life: str) -> bool:
        keys = [self.key(site), *(self.key(f"{what}:{site}") for what in ("status", "life", "yields", "owner", "standby"))]
        owner = bytes_of(owner_text(f"{self.folder}/{site}", ".new"))
        return bool(await self._take_over(keys=keys, args=[before, id_of(last), life, owner, self._standby(site)]))

    # Owners and statuses.

    async def owner(self, site: int) -> str:
        owner: bytes = await self.redis.get(self.key(f"owner:{site}")) or b""
        return owner.decode("utf-8", "surrogateescape")

    async def count(self) -> int | None:
        """How many sites the shop there has; None if nobody has said so yet, nor says how one of its sites is."""
        said: bytes = await self.redis.get(self.key("sites")) or b""
        if said.isdigit():
            return int(said)
        return next((len(status["has"]) + 1 for status in (await self.statuses()).values()), None)

    async def count_of_first(self, count: int) -> int:
        """The same; it is `count` from now on, if nobody has said so yet."""
        if (known := await self.count()) is None:
            await self.redis.set(self.key("keys"), 1)
        await self.redis.set(self.key("sites"), known or count, nx=True)
        return await self.count() or count

    async def adopt(self, site: int, before: str, is_fresh: bool, life: str) -> bool:
        owner = owner_text(f"{self.folder}/{site}", ".new" if is_fresh else "")
        keys = [self.key(f"{what}:{site}") for what in ("owner", "yields", "life")]
        return bool(await self._adopt(keys=keys, args=[bytes_of(before), bytes_of(owner), no_life(), life]))

    async def tell(self, statuses: dict[int, dict[str, Any]]) -> tuple[list[int], list[Mark], Sequence[int]]:
        pipe = self.redis.pipeline(transaction=False)
        for site in range(self.sites):
            pipe.xrevrange(self.key(site), count=1)
        pipe.mget(self._mark_keys)
        for site, status in statuses.items():
            said = status | {"form": FORM, "told": time.time_ns(), "by": run_by(f"{self.folder}/{site}")}
            pipe.set(self.key(f"status:{site}"), json.dumps(said), px=int(1000 * STATUS_SECONDS))
            pipe.set(self.key("sites"), self.sites, nx=True)        # a server that has lost it
        pipe.get(self.key("keys"))
        found = await pipe.execute()
        without_keys = () if found[-1] else tuple(await self._without_keys())
        return [place_of(last[0][0])[0] if last else 0 for last in found[:self.sites]], found[self.sites], without_keys

    async def _without_keys(self) -> list[int]:
        """The sites whose machines don't say that they know keys; that none is left is written down, for those that aren't running then."""
        statuses = await self.statuses()
        lacking = [site for site in range(self.sites) if not statuses.get(site, {}).get("keys")]
        if not lacking:
            await self.redis.set(self.key("keys"), 1)
        return lacking

    async def forget(self, sites: Iterable[int]) -> None:
        """Takes back the statuses of sites that are stopped."""
        for site in sites:
            await self.redis.delete(self.key(f"status:{site}"))

    async def statuses(self) -> dict[int, dict[str, Any]]:
        found = await self.redis.mget([self.key(f"status:{site}") for site in range(self.sites)])
        return {site: status_in(self.key(f"status:{site}"), text) for site, text in enumerate(found) if text}

    # Wants and requests.

    async def say(self, fields: dict[str, Any]) -> None:
        await self.redis.xadd(self.key("wants"), fields, maxlen=WANTS, approximate=True)

    async def hear(self, after: bytes) -> list[tuple[bytes, dict[bytes, bytes]]]:
        found = await self.redis.xread({self.key("wants"): after}, block=2000)
        entries: list[tuple[bytes, dict[bytes, bytes]]] = found[0][1] if found else []
        return entries

    async def call(self, request: dict[str, Any], site: int, seconds: float) -> list[dict[str, Any]] | None:
        """What the supervisor that has a site answers to a request; None if it gives no answer in time."""
        name = f"{os.getpid()}.{time.time_ns()}.{site}"
        until = time.monotonic() + seconds
        while not (life := await self.redis.get(self.key(f"life:{site}")) or (status := (await self.statuses()).get(site, {})).get("life")):
            if status and "life" not in status:
                raise Fault(Status.AWAY, f"site {site} runs on a machine with an earlier version of shop, which can't be asked from here: "
                            "ask it there, or upgrade it; nothing was asked")
            if time.monotonic() > until:
                return None
            await asyncio.sleep(0.1)        # the server has lost it, and is told again; a site that waits for others says it beside its status
        await self.say({"call": name, "site": site, "life": life, "form": FORM, "request": json.dumps(request)})
        while (left := until - time.monotonic()) > 0:
            # The server takes whole seconds, and a socket waits no longer than its time-out.
            if found := await self.redis.blpop(self.key(f"answer:{name}"), max(1, min(int(left), 5))):
                answers: list[dict[str, Any]] = json.loads(zlib.decompress(found[1]))
                return answers
        return None

    async def reply(self, name: str, answers: list[dict[str, Any]]) -> None:
        pipe = self.redis.pipeline()
        pipe.rpush(self.key(f"answer:{name}"), zlib.compress(json.dumps(answers).encode(), 1))
        pipe.expire(self.key(f"answer:{name}"), ANSWER_SECONDS)
        await pipe.execute()


STEPS = {State: "state", Owner: "owner", Sites: "count_of_first", Adopt: "adopt", Statuses: "statuses", Tell: "tell", SeeLife: "see_life",
         Append: "append", Rewrite: "rewrite", StandBy: "stand_by", SayYields: "say_yields", PageOf: "page", Entries: "entries", Marks: "marks", Read: "read",
         Hear: "hear"}


def status_in(key: str, text: bytes) -> dict[str, Any]:
    """The status of a site; a fault where a key has none, since the site may run all the same: nobody takes its place."""
    with contextlib.suppress(ValueError, RecursionError, TypeError, KeyError, AttributeError):
        said: dict[str, Any] = json.loads(text)
        numbers = [said["turn"], *said["has"].values(), *said.get("greatest", {}).values(), *itertools.chain(*said.get("gave", {}).values())]
        if isinstance(said["state"], str) and all(isinstance(number, int) for number in numbers):
            return said
    raise OSError(f"the key {key} has something else than the status of a site (redis-cli del {key})")


def no_life() -> str:
    """A word that no life yields, and that was never said before: so what says that one does, and comes late, changes nothing."""
    return f"none {os.urandom(8).hex()}"


def check_count(settings: Settings, folder: str) -> None:
    """Refuses a folder of another number of sites than the shop on its server has. One that can't be reached may say so later."""
    async def there() -> int | None:
        async with Streams(settings, os.path.realpath(folder)) as server:
            return await server.count()
    try:
        count = asyncio.run(there())
    except faults():
        return
    if count and count != settings.sites:
        raise Fault(Status.MISUSE, f"{settings.shown_over} is a shop with --sites {count}, and {folder} would have --sites {settings.sites}")


def new_mark() -> bytes:
    return os.urandom(8).hex().encode()


def owner_text(folder: str, new: str = "") -> str:
    """Which folder it is, or the one beside it that takes its place, and where."""
    return f"{identity(folder + new)} {socket.gethostname()}:{folder}"


def is_at(owner: str, folder: str) -> bool:
    """Whether an owner, or the supervisor that says how a site is, is of this folder, or of one that was in its place."""
    return owner.endswith(f" {socket.gethostname()}:{folder}")


def run_by(folder: str) -> str:
    """Names the supervisors that run a folder since this start of its machine."""
    return f"{boot()} {owner_text(folder)}"
