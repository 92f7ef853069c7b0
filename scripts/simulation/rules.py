"""Draws states of shops, and says of each what a rule of `shop` says there, and which list of steps of the model is a run if the rule lets it
happen: the proved program that decides lists is the judge (SHOP.md, *Rules*)."""

import random
from typing import NamedTuple

from shop_tool.carrier.asking import Ask
from shop_tool.carrier.opening import Said, why_behind, why_passed_on
from shop_tool.carrier.records import why_not_one_record
from shop_tool.carrier.steps import Say
from shop_tool.carrier.told import Once, is_called
from shop_tool.tests.shops import OverServer, Supervisor, begun

TEXTS = {0: b"", 1: b"user,ann", 2: b"user,ann\nuser,bob", 3: b"user,ann\nuser,bob\nuser,eve"}     # by how many records they are


class Drawn(NamedTuple):
    """A list of steps, and whether `shop` takes its last one."""

    lines: list[str]
    takes: bool


def asked(folder: int, ask: int, life: int) -> list[str]:
    return [f"IsAsked,{ask},{life},1", *(f"{word},{folder},{ask}" for word in ("Serves", "Gives", "Accepts"))]


def opens(dice: random.Random) -> Drawn:
    """Some sites send messages and pass the token to each other, and read some of that; then folder 0 is put back, and its site opens."""
    count = dice.randint(2, 3)
    lines = ["Files", *(f"{word},{site}" for site in range(count) for word in ("Starts", "Opens"))]
    kept: list[list[tuple[str, int]]] = [[] for _ in range(count)]      # of each site: its messages, the turns that it passed, took
    gave: dict[int, list[int]] = {site: [] for site in range(count)}    # the turns at which each gave the token to site 0
    had = [0] * count                                                   # the last turn of each
    turn, holder, passed = 0, 0, ""                                     # the last pass, while nobody has read it
    asks: list[list[int]] = [[] for _ in range(count)]
    read = [[0] * count for _ in range(count)]                          # how many messages each has of each other one
    for _ in range(dice.randint(1, 14)):
        site, other = dice.sample(range(count), 2)
        match dice.choice(["sends", "reads", "passes", "passes", "takes"]):
            case "sends":
                ask = sum(map(len, asks)) + 1
                asks[site].append(ask)
                lines += asked(site, ask, site + 1)
                kept[site].append(("own", ask))
            case "reads" if read[site][other] < len(asks[other]):
                read[site][other] += 1
                lines.append(f"Reads,{site},{other},{read[site][other]},{asks[other][read[site][other] - 1]}")
                kept[site].append(("other", 0))
            case "passes" if not passed:
                to = site if site != holder else other
                turn, passed = turn + 1, f"{holder},{turn + 1},{to},{len(asks[holder])}"
                lines.append(f"Passes,{holder},{to}")
                kept[holder].append(("passed", turn))
                gave[holder] += [turn] * (to == 0)
                had[holder], holder = turn, to
            case "takes" if passed:
                lines.append(f"Reads,{holder},{passed}")
                kept[holder].append(("took", turn))
                had[holder], passed = turn, ""
    left = kept[0][:dice.randint(0, len(kept[0]))]
    last, took = (max((number for kind, number in left if kind in kinds), default=0) for kinds in (("passed", "took"), ("took",)))
    said = [Said(site, read[site][0], had[site], gave[site][-2:]) for site in range(1, count)]
    why = why_behind(0, sum(kind == "own" for kind, _ in left), said) or why_passed_on(0, last, took == last, said)
    return Drawn([*lines, "IsKilled,0", f"LosesEnd,0,{len(left)}", "MachineStarts,0", "Starts,0", "Opens,0"], why is None)


def serves(dice: random.Random) -> Drawn:
    """A call of none to three records, for a life, comes to a folder in its second or third life, once or twice."""
    own, life, records = dice.randint(2, 3), dice.randint(1, 3), dice.randint(0, 3)
    names, times = Once(), dice.randint(1, 2)
    takes = is_called(f"{life} a", f"{own} a") and why_not_one_record(TEXTS[records]) is None and [names.is_new(b"a") for _ in range(times)][-1]
    starts = [line for _ in range(own) for line in ("IsKilled,0", "Starts,0")]
    first = ["Serves,0,1"] * (times - 1) if is_called(f"{life} a", f"{own} a") and records == 1 else []
    return Drawn(["Files", *starts, "Opens,0", *([] if life <= own else ["Starts,1"]), f"IsAsked,1,{life},{records}", *first, "Serves,0,1"],
                 takes if times == 1 or first else is_called(f"{life} a", f"{own} a") and why_not_one_record(TEXTS[records]) is None)


def tells(dice: random.Random) -> Drawn:
    """A site, which has a standby or hasn't, has accepted some asks, one of them with --published; some of their messages stand in its stream."""
    site, sent, yields = Supervisor(OverServer, 1).sites[0], dice.randint(1, 4), dice.random() < 0.5
    site.start()
    site.yields = yields
    stands, told, published = dice.randint(0, sent), dice.randint(1, sent), dice.random() < 0.5
    askers, records = [], range(1, sent + 1)
    for number in records:
        askers.append(begun(Ask(site, 3.0, False, published).run([b"item,0.1,lamp,7,1,1,0"])))
        site.take(b"reply,%d,ok,0.%d\nsend,msg,1,0,%d,0,%d:0,item,0.1,lamp,7,1,1,0\n" % (number, number, number, number - 1))
    site.shop.link.counts[0] = stands
    lines = ["Server", "Starts,0", "Opens,0", *(line for number in records for line in asked(0, number, 1)), *["Yields,0"] * yields]
    lines += [f"Appends,0,0,{number},{number}" for number in records[:stands]]
    return Drawn([*lines, f"{'TellsPublished' if yields or published else 'TellsOk'},0,{told},{told}"], isinstance(askers[told - 1].send(True), Say))


RULES = {"opens": opens, "serves": serves, "tells": tells}


def drawn(rule: str, seed: str, count: int) -> list[Drawn]:
    dice = random.Random(f"{seed} {rule}")
    return [RULES[rule](dice) for _ in range(count)]
