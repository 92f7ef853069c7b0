"""The OpenAPI description of `shop serve`: limits and examples of everything, valid by their schemas, and accepted by a server."""

import importlib
import itertools
import re
import urllib.parse
from collections.abc import Iterator
from typing import Any

import shop_web.schemas
from tests.folder import Folder
from tests.needs import TOP, need
from tests.web import CSV, JSON, Web
from traffic import KINDS

Schema = dict[str, Any]
STREAM = "text/event-stream"


def parts_of(schema: Schema, where: str) -> Iterator[tuple[str, Schema]]:
    """A schema and all of its parts, each with where it stands."""
    yield where, schema
    named = [(name, part) for name in ("items", "additionalProperties") if isinstance(part := schema.get(name), dict)]
    cases = enumerate(itertools.chain(schema.get("oneOf", []), schema.get("anyOf", [])))
    for name, part in [*named, *schema.get("properties", {}).items(), *cases]:
        yield from parts_of(part, f"{where} {name}")


def schemas_of(said: Any) -> Iterator[tuple[str, Schema]]:
    """Those of a description: what it names, and each operation's parameters, bodies and answers."""
    for name, schema in said["components"]["schemas"].items():
        yield from parts_of(schema, name)
    for path, operations in said["paths"].items():
        for operation in operations.values():
            for parameter in operation["parameters"]:
                yield from parts_of(parameter["schema"], f"{path} {parameter['name']}")
            for status, answer in [*operation["responses"].items(), ("body", operation.get("requestBody", {}))]:
                for content, media in answer.get("content", {}).items():
                    yield from parts_of(media["schema"], f"{path} {status} {content}")


def lacks(schema: Schema) -> list[str]:
    """What a schema should say of the values that it describes, and doesn't."""
    kinds = {schema["type"]} if isinstance(schema.get("type"), str) else {*schema.get("type", [])}
    if {"$ref", "const", "oneOf", "anyOf", "enum"} & schema.keys() or kinds & {"object", "array"} or kinds == {"null"}:
        return []
    limits = ["pattern", "maxLength"] if "string" in kinds and "format" not in schema else []
    limits += ["minimum", "maximum"] if "integer" in kinds else []
    return [name for name in [*limits, "examples"] if name not in schema]


def why_invalid(said: Any, schema: Schema, value: Any) -> str | None:
    """What is wrong with a value by a schema of a description."""
    need("python3:jsonschema")
    jsonschema: Any = importlib.import_module("jsonschema")
    checker = jsonschema.Draft202012Validator(schema, resolver=jsonschema.RefResolver.from_schema(said))
    return next((f"{value!r}: {fault.message}" for fault in checker.iter_errors(value)), None)


def test_limits_and_examples_of_the_description(web: Web) -> None:
    """Each text and number has its limits, everything an example, and each example is valid by its schema."""
    said = web.get("/openapi.json").json
    for where, schema in schemas_of(said):
        assert lacks(schema) in ([], ["pattern", "maxLength"] if "text/" in where else []), f"{where} has no {lacks(schema)}"
        for example in schema.get("examples", []):
            assert (why := why_invalid(said, schema, example)) is None, f"{where}: {why}"
    named = said["components"]["schemas"]
    assert all(schema.get("examples") for schema in named.values()), "what is named has an example as a whole"
    assert len(named["ask"]["examples"]) == len(named["ask"]["oneOf"]) == 1 + len(KINDS), "each kind of ask has one"
    item = named["ask"]["examples"][1]
    for wrong in ({"ask": "user", "nickname": "Ann"}, {"ask": "user"}, {"record": ""}, {"ask": "close", "item": "00.3", "seller": "0.1"},
                  item | {"name": "x" * 65}, item | {"category": 1000}, item | {"stock": 0}, item | {"start": "-1"}, item | {"key": ""}):
        assert why_invalid(said, named["ask"], wrong), f"{wrong} isn't one"


def test_limits_of_the_description_are_those_of_the_program() -> None:
    limits = dict(re.findall(r"pub const (\w+): \w+ = ([0-9_]+);", (TOP / "crates/rubis_schema/src/limits.rt").read_text()))
    names = {name: name for name in ("QUANTITY_MAX", "AMOUNT_MAX", "NAME_MAX", "TEXT_MAX")}
    names |= {"NICKNAME_MAX": "NICK_MAX", "MESSAGES_OF_A_SITE": "SEQ_MAX", "SITES_OF_A_SHOP": "SITES_MAX", "RECORDS_OF_A_RUN": "RECORDS_MAX"}
    for name, of_program in names.items():
        assert getattr(shop_web.schemas, name) == int(limits[of_program]), name


def test_examples_are_accepted(at: Folder) -> None:
    """A server answers each request that is made of examples, as its schema says."""
    at.run("./shop start auction --sites 2")
    web = Web(at, "--view pages.db")
    said = web.get("/openapi.json").json
    asks = said["paths"]["/sites/{site}/asks"]["post"]
    examples = {example.get("ask", "record"): example for example in said["components"]["schemas"]["ask"]["examples"]}
    for kind in sorted(examples, key=lambda kind: (kind == "close", kind not in ("user", "record"), kind != "item")):
        told = web.post("/sites/0/asks", examples[kind])
        assert told.status in (200, 201) and told.json["answer"] == "ok", f"{kind}: {told}"
        assert (why := why_invalid(said, answer_of(asks), told.json)) is None, why
        if kind == "restock":
            lines = asks["requestBody"]["content"][CSV]["schema"]["examples"][0]
            assert web.post("/sites/0/asks", lines, content=CSV).text.count("ok,") == lines.count("\n") == 2, "records as they are"
    for path, operations in said["paths"].items():
        for verb, operation in operations.items():
            for url, headers in requests_of(path, operation):
                if "misfits?after" in url:
                    continue        # none of its rows is there to go on behind, without forged messages
                if verb == "get":
                    got = web.get(url, *headers, *(["-I"] if STREAM in operation["responses"]["200"]["content"] else []))
                elif path.endswith("/pass"):
                    to = operation["requestBody"]["content"][JSON]["schema"]["properties"]["to"]["examples"][0]
                    web.post("/sites/1/pass", {"to": 0})
                    got = web.post(url, {"to": to}, *headers)
                else:
                    got = web.post(url, examples["comment"], *headers)
                assert got.status in (200, 201), f"{verb} {url}: {got}"
                if got.headers["content-type"] == JSON:
                    assert (why := why_invalid(said, answer_of(operation), got.json)) is None, f"{url}: {why}"


def answer_of(operation: Any) -> Schema:
    schema: Schema = operation["responses"]["200"]["content"][JSON]["schema"]
    return schema


def requests_of(path: str, operation: Any) -> Iterator[tuple[str, list[str]]]:
    """The URL of an operation with the examples of its parameters: what is needed, and each of the others beside that alone; and headers."""
    by_place = {place: [each for each in operation["parameters"] if each["in"] == place] for place in ("path", "query", "header")}
    for parameter in by_place["path"]:
        path = path.replace(f"{{{parameter['name']}}}", str(parameter["schema"]["examples"][0]))
    needed = [each for each in by_place["query"] if each["required"]]
    for more in [[], *([each] for each in by_place["query"] if not each["required"])]:
        words = {each["name"]: example_in_url(each["schema"]["examples"][0]) for each in needed + more}
        yield path + (f"?{urllib.parse.urlencode(words)}" if words else ""), []
    for parameter in by_place["header"]:
        yield path, ["-H", f"{parameter['name']}: {parameter['schema']['examples'][0]}"]


def example_in_url(value: Any) -> str:
    return str(value).lower() if isinstance(value, bool) else str(value)
