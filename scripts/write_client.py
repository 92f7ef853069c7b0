#!/usr/bin/env python3
"""Writes clients/shop.ts, a client in TypeScript, from the OpenAPI description of `shop serve`.

    scripts/write_client.py [--check]

With --check nothing is written: the status is 1 if the file isn't what would be. It needs python3-aiohttp, with which `shop serve` is
made, and says so where that is missing."""

import importlib.util
import re
import sys
from typing import Any

from top import TOP

CLIENT = TOP / "clients/shop.ts"

Schema = dict[str, Any]
JSON, LINES, EVENTS = "application/json", "application/x-ndjson", "text/event-stream"
BEGIN = """\
// Written by scripts/write_client.py from the OpenAPI description of `shop serve`. It needs nothing but `fetch`.

/** What isn't well, as the server tells it (RFC 9457). */
export class ProblemError extends Error {
  constructor(readonly problem: Problem) {
    super(problem.detail);
    this.name = problem.name;
  }
}

export interface ServerEvent {
  event: string;
  id?: string;
  data: unknown;
}

"""
SHOP = """\
/** A shop that `shop serve` serves at this URL; `key` is a bearer key, where it wants one. */
export class ShopClient {
  constructor(readonly url: string, readonly key?: string) {}

  private async send(method: string, path: string, accept: string, query: Query, headers: Query, body?: unknown): Promise<Response> {
    const said = Object.entries(query).filter(([, value]) => value !== undefined).map(([name, value]) => [name, String(value)]);
    const all: Record<string, string> = { Accept: accept };
    if (this.key !== undefined) all.Authorization = `Bearer ${this.key}`;
    for (const [name, value] of Object.entries(headers)) if (value !== undefined) all[name] = String(value);
    const init: RequestInit = { method, headers: all };
    if (body !== undefined) {
      all["Content-Type"] = "application/json";
      init.body = JSON.stringify(body);
    }
    const search = said.length ? `?${new URLSearchParams(said)}` : "";
    const response = await fetch(this.url.replace(/\\/$/, "") + path + search, init);
    if (response.ok) return response;
    if (response.headers.get("Content-Type")?.startsWith("application/problem+json")) throw new ProblemError((await response.json()) as Problem);
    const { status, statusText: title } = response; // of a server in between
    throw new ProblemError({ type: "about:blank", title, status, detail: `${method} ${path}: ${status} ${title}`, name: "Unknown" });
  }

  private async *lines(response: Response): AsyncGenerator<string, void, undefined> {
    const reader = response.body!.pipeThrough(new TextDecoderStream()).getReader();
    let rest = "";
    try {
      for (let piece = await reader.read(); !piece.done; piece = await reader.read()) {
        const lines = (rest + piece.value).split("\\n");
        rest = lines.pop()!;
        yield* lines;
      }
    } finally {
      await reader.cancel();
    }
  }
"""


def pascal(name: str) -> str:
    return "".join(part[:1].upper() + part[1:] for part in re.split("[_-]", name))


def camel(name: str) -> str:
    return pascal(name)[:1].lower() + pascal(name)[1:]


def type_of(schema: Schema) -> str:
    """The type of what a schema describes."""
    if "$ref" in schema:
        return pascal(schema["$ref"].rpartition("/")[2])
    if "const" in schema:
        return '"' + schema["const"] + '"' if isinstance(schema["const"], str) else str(schema["const"]).lower()
    if "enum" in schema:
        return " | ".join(f'"{value}"' for value in schema["enum"])
    if cases := cases_of(schema):
        return " | ".join(map(type_of, cases))
    kind = schema.get("type")
    if isinstance(kind, list):
        return " | ".join(type_of(schema | {"type": each}) for each in kind)
    if kind == "array":
        return f"Array<{type_of(schema['items'])}>"
    if kind == "object":
        return "{ " + "; ".join(properties_of(schema)) + " }" if "properties" in schema else "Record<string, unknown>"
    return {"string": "string", "integer": "number", "number": "number", "boolean": "boolean", "null": "null"}[str(kind)]


def cases_of(schema: Schema) -> list[Schema]:
    cases: list[Schema] = schema.get("oneOf") or schema.get("anyOf") or []
    return cases


def properties_of(schema: Schema) -> list[str]:
    needed = schema.get("required", [])
    return [f"{name}{'' if name in needed else '?'}: {type_of(each)}" for name, each in schema["properties"].items()]


def definition(name: str, schema: Schema) -> str:
    if schema.get("type") == "object":
        return f"export interface {pascal(name)} {{\n" + "".join(f"  {each};\n" for each in properties_of(schema)) + "}\n\n"
    return f"export type {pascal(name)} =\n" + "\n".join(f"  | {type_of(each)}" for each in cases_of(schema)) + ";\n\n"


def method_of(name: str, verb: str, path: str, operation: Schema, accept: str, schema: Schema, body: Schema | None) -> str:
    """A method of the client: for one operation, and one type of what it answers."""
    parameters = operation["parameters"]
    words = [f"{each['name']}: {type_of(each['schema'])}" for each in parameters if each["in"] == "path"]
    words += [f"body: {type_of(body)}"] if body else []
    options = [f"{camel(each['name'])}{'' if each['required'] else '?'}: {type_of(each['schema'])}" for each in parameters if each["in"] != "path"]
    if options:
        words.append(f"options: {{ {'; '.join(options)} }}" + ("" if any(each["required"] for each in parameters if each["in"] == "query") else " = {}"))
    place = re.sub(r"{(\w+)}", r"${encodeURIComponent(\1)}", path)
    query, headers = ("{ " + ", ".join(f'"{each["name"]}": options.{camel(each["name"])}' for each in parameters if each["in"] == where) + " }"
                      for where in ("query", "header"))
    send = f'await this.send("{verb.upper()}", `{place}`, "{accept}", {query}, {headers}{", body" if body else ""})'.replace("{  }", "{}")
    begin = f"\n  /** {operation['summary']}. */\n  async "
    if accept == LINES:
        return (f"{begin}*{name}({', '.join(words)}): AsyncGenerator<{type_of(schema)}> {{\n    const response = {send};\n"
                f"    for await (const line of this.lines(response)) yield JSON.parse(line) as {type_of(schema)};\n  }}\n")
    if accept == EVENTS:
        return (f"{begin}*{name}({', '.join(words)}): AsyncGenerator<ServerEvent> {{\n    const response = {send};\n"
                "    let event = \"\", id: string | undefined;\n"
                "    for await (const line of this.lines(response)) {\n      if (line.startsWith(\"event: \")) event = line.slice(7);\n"
                "      if (line.startsWith(\"id: \")) id = line.slice(4);\n"
                "      if (line.startsWith(\"data: \")) {\n        yield { event, id, data: JSON.parse(line.slice(6)) };\n        id = undefined;\n"
                "      }\n    }\n  }\n")
    read = "json()" if accept == JSON else "text()"
    return f"{begin}{name}({', '.join(words)}): Promise<{type_of(schema)}> {{\n    return (await ({send}).{read}) as {type_of(schema)};\n  }}\n"


def methods_of(verb: str, path: str, operation: Schema) -> str:
    """The methods for an operation: where what it answers comes in lines too, one that takes an array and gives each line."""
    answers = {kind: each["schema"] for kind, each in operation["responses"]["200"]["content"].items()}
    body = operation["requestBody"]["content"][JSON]["schema"] if "requestBody" in operation else None
    name = camel(operation["operationId"])
    if LINES not in answers:
        accept = JSON if JSON in answers else next(iter(answers))
        return method_of(name, verb, path, operation, accept, answers[accept], body)
    assert body
    one = {"oneOf": [each for each in body["oneOf"] if each.get("type") != "array"]}
    many = {"oneOf": [each for each in body["oneOf"] if each.get("type") == "array"]}
    return (method_of(name, verb, path, operation, JSON, answers[JSON], one)
            + method_of(f"{name}InLines", verb, path, operation, LINES, answers[LINES], many))


def client() -> str:
    from shop_web.routes import description
    said = description(False)
    text = BEGIN + "".join(definition(name, schema) for name, schema in said["components"]["schemas"].items())
    text += "type Query = Record<string, string | number | boolean | undefined>;\n\n" + SHOP
    for path, operations in said["paths"].items():
        for verb, operation in operations.items():
            text += methods_of(verb, path, operation)
    return text + "}\n"


def main() -> int:
    if not importlib.util.find_spec("aiohttp"):
        print("the client in TypeScript is skipped: no python3-aiohttp for this Python")
        return 0
    if "--check" not in sys.argv[1:]:
        CLIENT.parent.mkdir(exist_ok=True)
        CLIENT.write_text(client())
    elif not CLIENT.exists() or CLIENT.read_text() != client():
        print("clients/shop.ts isn't what scripts/write_client.py writes")
        return 1
    return 0


if __name__ == "__main__":
    sys.exit(main())
