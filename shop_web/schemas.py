"""What is sent and answered, as JSON Schema: the limits of each text and number, and an example of everything."""

from typing import Any

from shop_tool.carrier.records import BYTES_OF_A_RECORD, COLUMNS, KEY_BYTES, MESSAGES_OF_A_SITE, NUMBERS, RECORDS_OF_A_RUN, SITES_OF_A_SHOP

from .asks import FIELDS
from .problems import KINDS
from .rows import TABLES
from .views import OF_USERS

Schema = dict[str, Any]

QUANTITY_MAX, AMOUNT_MAX, CATEGORY_MAX, RATING_MAX = 10**6, 10**12, 999, 5
NICKNAME_MAX, NAME_MAX, TEXT_MAX = 20, 64, 200
SUM_MAX = QUANTITY_MAX * MESSAGES_OF_A_SITE


def ref(name: str) -> Schema:
    return {"$ref": f"#/components/schemas/{name}"}


def whole(least: int, most: int, example: int) -> Schema:
    return {"type": "integer", "minimum": least, "maximum": most, "examples": [example]}


def text(pattern: str, most: int, *examples: str, least: int = 1) -> Schema:
    return {"type": "string", "minLength": least, "maxLength": most, "pattern": pattern, "examples": [*examples]}


def content(*examples: str) -> Schema:
    """A text that is no JSON."""
    return {"type": "string", "minLength": 1, "examples": [*examples]}


def or_null(schema: Schema, *examples: object) -> Schema:
    return schema | {"type": [schema["type"], "null"], "examples": [*examples]}


def id_of(example: str) -> Schema:
    return text(r"^(0|[1-9]|1[0-5])\.[1-9][0-9]{0,6}$", 10, example)


def array_of(items: Schema) -> Schema:
    return {"type": "array", "items": items}


def object_of(properties: dict[str, Schema], needed: list[str] | None = None) -> Schema:
    return {"type": "object", "required": list(properties) if needed is None else needed, "properties": properties}


YES: Schema = {"type": "boolean", "examples": [True]}
SITE = whole(0, SITES_OF_A_SHOP - 1, 0)
COUNT = whole(0, MESSAGES_OF_A_SITE, 9)
RECORDS = whole(0, RECORDS_OF_A_RUN, 12)
BYTES = whole(0, 1 << 53, 0)
TURN = whole(0, 10**9, 0)
CATEGORY = whole(0, CATEGORY_MAX, 7)
AMOUNT = whole(1, AMOUNT_MAX, 500)
NICKNAME = text(f"^[a-z][a-z0-9_]{{0,{NICKNAME_MAX - 1}}}$", NICKNAME_MAX, "ann")
NAME = text("^[ -~]*$", NAME_MAX, "blue lamp")
ASK_KEY = text("^[ -~]+$", KEY_BYTES, "order-17")
RECORD = text("^[^\r\n]+$", BYTES_OF_A_RECORD, "user,ann")
PROBLEM = text("^[A-Z][A-Za-z]*$", 40, "LowBid")
TIME: Schema = {"type": "string", "format": "date-time", "examples": ["2026-11-30T12:00:00.125Z"]}
STATE = text("^[a-z]+$", 20, "up")
WORDS = text("^[^\r\n]*$", 10_000, "the amount is below the start price", least=0)
END = text(r"^[0-9]{1,13}(\.[0-9]{1,13})?$", 27, "0.2")
NEXT = or_null(END, None, "0.2")

# Which row of each kind the examples are about.
IDS = {"user": "0.1", "item": "0.3", "bid": "0.4", "purchase": "0.5", "comment": "0.6", "misfit": "0.6", "log": "0.1"}
# How a row is named in a URL.
NAMES = {table: id_of(IDS[kind]) for table, (kind, _) in TABLES.items() if kind in IDS} | {
    "users": text(r"^([a-z][a-z0-9_]*|[0-9]+\.[0-9]+)$", NICKNAME_MAX, "ann", "0.1"), "categories": CATEGORY}
# How a page ends, so that the next one begins there.
ENDS = {table: IDS[kind] for table, (kind, _) in TABLES.items() if kind in IDS} | {"items": "5", "categories": "7", "misfits": "3.2", "log": "1"}

USER, SELLER, ITEM = id_of("0.2"), id_of("0.1"), id_of("0.3")
BID = or_null(id_of(""), "0.4", None)
OF_COLUMNS: dict[str, Schema] = {
    "nickname": NICKNAME, "name": NAME, "seller": SELLER, "item": ITEM, "bidder": USER, "buyer": USER, "from": USER, "to": SELLER,
    "best": BID, "winner": BID | {"examples": [None, "0.4"]}, "state": {"enum": ["open", "closed"]}, "text": text("^[ -~]*$", TEXT_MAX, "good", least=0),
    "category": CATEGORY, "stock": whole(0, SUM_MAX, 3), "sold": whole(0, SUM_MAX, 1), "start": whole(1, AMOUNT_MAX, 100),
    "price": whole(0, AMOUNT_MAX, 80), "amount": whole(0, AMOUNT_MAX, 500), "quantity": whole(1, QUANTITY_MAX, 1), "bought": whole(0, SUM_MAX, 1),
    "rating": whole(-RATING_MAX, RATING_MAX, 5), "red": whole(0, MESSAGES_OF_A_SITE, 3), "entry": whole(1, MESSAGES_OF_A_SITE, 3), "part": whole(1, 3, 2),
    "deps": text("^[0-9]{1,7}(:[0-9]{1,7})*$", 8 * SITES_OF_A_SHOP, "0:0"), "shadow": RECORD,
    "message": RECORD | {"examples": ["msg,1,0,1,1,0:0,user,ann"]}}
OF_KINDS: dict[str, dict[str, Schema]] = {
    "user": {"rating": whole(-RATING_MAX * MESSAGES_OF_A_SITE, RATING_MAX * MESSAGES_OF_A_SITE, 5)},
    "bid": {"amount": AMOUNT}, "log": {"red": whole(0, MESSAGES_OF_A_SITE, 1), "entry": whole(1, MESSAGES_OF_A_SITE, 1)},
    "misfit": {"kind": {"enum": ["NoRow", "RowThere", "ClosedItem", "StockShort", "OtherUser"]}}}
LOG_COLUMNS = ["entry", "id", "red", "deps", "shadow", "message"]
# Of asks: a text where a row has a number may be that, and the limits are those of what is asked.
OF_ASKS = {**OF_COLUMNS, "user": USER, "stock": whole(1, QUANTITY_MAX, 3), "amount": AMOUNT}


def columns_of(kind: str) -> list[str]:
    return LOG_COLUMNS if kind == "log" else COLUMNS[kind]


def _row(kind: str) -> Schema:
    columns = {"id": id_of(IDS.get(kind, "")), **OF_COLUMNS, **OF_KINDS.get(kind, {})}
    return object_of({"kind": {"const": kind}, **{name: columns.get(name, COUNT) for name in columns_of(kind)}})


def _page(row: Schema, more: dict[str, Schema] | None = None) -> Schema:
    """A page; what says more of it isn't on each."""
    properties = {"rows": array_of(row), "next": NEXT}
    return object_of({**properties, **(more or {})}, [*properties])


def _ask(kind: str) -> Schema:
    fields = {name: _number_or_text(OF_ASKS[name]) if name in NUMBERS else OF_ASKS[name] for name in FIELDS[kind]}
    if kind == "rename":
        fields["nickname"] = NICKNAME | {"examples": ["bea"]}
    return object_of({"ask": {"const": kind}, **fields, "key": ASK_KEY}, ["ask", *fields])


def _number_or_text(number: Schema) -> Schema:
    most, least = len(str(number["maximum"])), number["minimum"]
    pattern = f"{'-?' if least < 0 else ''}[1-9][0-9]{{0,{most - 1}}}"
    return number | {"type": ["string", "integer"], "pattern": f"^{pattern}$" if least > 0 else f"^(0|{pattern})$", "maxLength": most + (least < 0)}


def schemas() -> dict[str, Schema]:
    kinds = (*COLUMNS, "log")
    made = {kind: _row(kind) for kind in kinds}
    made["stand"] = object_of({"messages": COUNT, "behind": BYTES})
    for kind in kinds:
        made[f"{kind}_page"] = _page(ref(kind), {"view": ref("stand")} if kind == "item" else None)
    beside = {"seen": TIME | {"type": ["string", "null"]}, "entry": OF_COLUMNS["entry"]}
    made["item_seen"] = object_of(made["item"]["properties"] | beside)
    for name in OF_USERS:
        kind = TABLES[name][0]
        more: dict[str, Schema] = {} if kind == "item" else {"item_row": {"oneOf": [ref("item_seen"), {"type": "null"}]}}
        row = object_of({**made[kind]["properties"], **beside, **more})
        made[f"user_{name}"] = object_of({**_page(row)["properties"], "view": ref("stand")})
    made["health"] = object_of({"ok": YES, "sites": {"type": "object", "additionalProperties": STATE, "examples": [{"0": "up"}]}}, ["ok"])
    made["view"] = object_of({"site": SITE, "messages": COUNT, "counts": array_of(COUNT), "behind": BYTES})
    made["ask"] = {"oneOf": [*map(_ask, FIELDS), object_of({"record": RECORD | {"examples": ["user,eve"]}, "key": ASK_KEY}, ["record"])]}
    made["told"] = object_of({"record": RECORD, "answer": {"enum": ["ok", "passed", "refused"]}, "id": id_of("0.1"), "again": {"const": True},
                              "problem": ref("problem")}, ["record", "answer"])
    made["told_or_end"] = {"anyOf": [ref("told"), object_of({"problem": ref("problem")})]}
    status = whole(400, 599, KINDS["LowBid"].status)
    kind_of_problem = {"type": text("^/problems/[A-Z][A-Za-z]*$", 60, "/problems/LowBid"), "title": WORDS, "status": status}
    made["problem"] = object_of({**kind_of_problem, "detail": WORDS, "name": PROBLEM, "number": whole(1, 99, 9)},
                                [*kind_of_problem, "detail", "name"])
    made["kind"] = object_of(kind_of_problem)
    made["verdict"] = object_of({"verdict": PROBLEM | {"examples": ["Agree"]}, "agrees": YES, "log": whole(1, SITES_OF_A_SHOP, 1),
                                 "entry": OF_COLUMNS["entry"], "record": whole(1, 1 << 53, 1)}, ["verdict", "agrees"])
    counts = {**dict.fromkeys(("own", "messages", "sent", "published", "held"), COUNT), **dict.fromkeys(("records", "records_left"), RECORDS), "turn": TURN,
              **dict.fromkeys(("waiting", "starts", "faults"), BYTES)}
    made["site"] = object_of({"site": SITE, "state": STATE, "since": TIME, **counts, "holds_token": YES, "full": YES,
                              "silent": {"type": ["number", "null"], "minimum": 0, "examples": [None]}, "fault": or_null(WORDS, None)}, ["site", "state"])
    number = or_null(SITE, 0)
    made["shop"] = object_of({"well": YES, "token": number, "view": number, "sites": array_of(ref("site"))}, ["well", "sites"])
    return {name: {**schema, "examples": examples_of(schema, made)} for name, schema in made.items()}


def examples_of(schema: Schema, known: dict[str, Schema]) -> list[Any]:
    """One, or one of each case."""
    return [example_of(case, known) for case in schema.get("oneOf", [schema])]


def example_of(schema: Schema, known: dict[str, Schema]) -> Any:
    """What a schema describes, of the examples of its parts."""
    if "$ref" in schema:
        return example_of(known[schema["$ref"].rpartition("/")[2]], known)
    if "examples" in schema:
        return schema["examples"][0]
    if "const" in schema:
        return schema["const"]
    if "enum" in schema:
        return schema["enum"][0]
    if cases := schema.get("oneOf") or schema.get("anyOf"):
        return example_of(cases[0], known)
    if schema["type"] == "array":
        return [example_of(schema["items"], known)]
    return {name: example_of(schema["properties"][name], known) for name in schema["required"]}
