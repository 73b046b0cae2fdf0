#!/usr/bin/env python3
"""The description of HTTP, gateway/openapi.json: where its references lead, and whether a value is in a schema of it.

  tools/description.py   puts the words and problems of the program's rows into gateway/openapi.json, and writes gateway/openapi-3.0.json,
                         the same for generators that read OpenAPI 3.0 alone, and gateway/problems.html, the page to which the type of
                         a problem leads: a section a fault
"""
import html
import json
import pathlib
import re

import rows

GATEWAY = pathlib.Path(__file__).resolve().parent.parent / "gateway"
NEWER, OLDER, PROBLEMS = (GATEWAY / name for name in ("openapi.json", "openapi-3.0.json", "problems.html"))
DESCRIPTION = json.loads(NEWER.read_text())
# Paths that ask no question of their own, members of a reply that are no field of its row, and questions that are asked singly.
OTHER_PATHS, OTHER_MEMBERS, LISTS = {"/v1/questions", "/v1/lines", "/healthz"}, {"scanned", "alert", "entries", "batches"}, {"AUDIT"}


def at(reference):
    """The part of the description that a reference leads to."""
    found = DESCRIPTION
    for name in reference.removeprefix("#/").split("/"):
        found = found[name]
    return found


def whole(part):
    return at(part["$ref"]) if "$ref" in part else part


def has_type(value, name):
    types = {"object": dict, "array": list, "string": str, "integer": int}
    return isinstance(value, types[name]) and not isinstance(value, bool)


def fits(value, schema):
    """Whether a value is in a schema, of whose words these are enough."""
    schema = whole(schema)
    words = {
        "type": lambda name: has_type(value, name),
        "const": lambda only: value == only,
        "enum": lambda some: value in some,
        "pattern": lambda pattern: re.search(pattern, value) is not None,
        "minimum": lambda least: value >= least,
        "maximum": lambda most: value <= most,
        "maxLength": lambda most: len(value) <= most,
        "minItems": lambda least: len(value) >= least,
        "maxItems": lambda most: len(value) <= most,
        "required": lambda names: all(name in value for name in names),
        "properties": lambda those: all(fits(value[name], those[name]) for name in value if name in those),
        "additionalProperties": lambda _: all(name in schema["properties"] for name in value),
        "items": lambda each: all(fits(one, each) for one in value),
        "oneOf": lambda those: sum(fits(value, one) for one in those) == 1,
        "discriminator": lambda _: True,
        "description": lambda _: True,
    }
    return all(words[word](given) for word, given in schema.items())


def examples_of(content):
    """The examples of a body, by name."""
    return {name: whole(one)["value"] for name, one in content.get("examples", {}).items()}


def contents():
    """Each body of the description, with its place: of a question, or of a response by its status."""
    for path, methods in DESCRIPTION["paths"].items():
        for operation in methods.values():
            bodies = {"question": operation["requestBody"]} if "requestBody" in operation else {}
            for name, body in {**bodies, **operation["responses"]}.items():
                for content in whole(body)["content"].values():
                    yield path, name, content


def words_of(schema):
    """The replies and faults that a schema has."""
    schema = whole(schema)
    named = schema.get("properties", {})
    own = [named["reply"]["const"]] if "reply" in named else named.get("fault", {}).get("enum", [])
    return {*own, *(word for one in schema.get("oneOf", []) for word in words_of(one))}


def references(part):
    """The references within a part."""
    inner = part.values() if isinstance(part, dict) else part if isinstance(part, list) else ()
    own = [part["$ref"]] if isinstance(part, dict) and isinstance(part.get("$ref"), str) else []
    return own + [reference for one in inner for reference in references(one)]


def older(part):
    """A part in the words of OpenAPI 3.0, whose schemas are those of JSON Schema's draft 5: no const, and items in each array."""
    if isinstance(part, list):
        return [older(one) for one in part]
    if not isinstance(part, dict):
        return part
    made = {name: one if name in ("value", "example") else older(one) for name, one in part.items()}
    if "const" in made:
        made["enum"] = [made.pop("const")]
    if isinstance(made.get("enum"), list):
        made["type"] = "integer" if isinstance(made["enum"][0], int) else "string"
    if made.get("type") == "array":
        made.setdefault("items", {})
    return made


def older_text():
    """The description in OpenAPI 3.0, which has no word for certificates of clients: the servers' texts and the pages name them."""
    made = older(DESCRIPTION)
    made["openapi"] = "3.0.3"
    del made["security"], made["components"]["securitySchemes"]
    return json.dumps(made, indent=1) + "\n"


def problems_text():
    """The page of problems: of each fault, by its word, what it says, what to do, and whether the question may be recorded."""
    examples = DESCRIPTION["components"]["examples"].values()
    faults = sorted((one["value"]["fault"], one["value"], one["summary"]) for one in examples if "fault" in one["value"])
    more = {"CODE": f"<p><code>scan</code>: {html.escape(at('#/components/schemas/Problem/properties/scan')['description'])}</p>\n"}
    sections = "".join(
        f'<h2 id="{word}">{word}</h2>\n<p>Status {it["status"]}, {html.escape(it["title"])}. {html.escape(it["detail"])}</p>\n'
        f'<p>{html.escape(summary[0].upper() + summary[1:])}. The question is {"recorded or not" if it["recorded"] == "unknown" else "not recorded"}.</p>\n{more.get(word, "")}'
        for word, it, summary in faults
    )
    return f'<!doctype html>\n<html lang="en">\n<meta charset="utf-8">\n<title>Problems</title>\n<h1>Problems</h1>\n{sections}</html>\n'


def enumerations():
    """The words that each enumeration of the description has, by its name."""
    asked = {form: [word.lower() for word, kind, _ in rows.QUESTIONS if kind.startswith(form) and word not in LISTS] for form in ("OfPack", "OfBatch")}
    fields = {"Lock" if name == "lock" else name: rows.words(table) for name, table in rows.FIELDS.items()}
    return fields | {"Ask": asked["OfPack"], "ask": asked["OfBatch"], "member": rows.MEMBERS, "scan": rows.SCAN_FAULTS}


def made_of_rows(text):
    """The text of the description with the words and problems of the rows in their places."""

    def put(form, made):
        nonlocal text
        text, count = re.subn(form, made, text)
        if not count:
            raise ValueError(f"gateway/openapi.json has no place {form}")

    problems, indent = rows.problems(), " " * 10
    for name, words in enumerations().items():
        put(rf'("{name}": \{{"enum": )\[[^]]*\]', lambda it, words=words: it[1] + json.dumps(words))
    put(r'("number": \{"type": "integer", "minimum": 1, "maximum": )\d+', rf"\g<1>{len(rows.REFUSALS)}")
    put(r'("value": )\{"type": "/problems#(\w+)"[^{}]*\}(?=\},?\n)', lambda it: it[1] + json.dumps(problems[it[2]]))
    kinds = [
        {"properties": {"status": {"const": status}, "title": {"const": title}, "fault": {"enum": faults}, "recorded": {"const": recorded}}}
        for (status, title, recorded), faults in rows.by_status(problems.values()).items()
    ]
    put(rf'(?:{indent}\{{"properties": \{{"status": .*\n)+', lambda _: ",\n".join(indent + json.dumps(one) for one in kinds) + "\n")
    return text


def unlike_rows():
    """Where the paths, their members and the replies are not those of the rows."""
    asked = {f"/v1/{word.lower()}": ["user", *fields] for word, fields in rows.lines().items()}
    paths = [path for path in DESCRIPTION["paths"] if path not in OTHER_PATHS]
    if paths != list(asked):
        return [f"the paths of questions are {paths} in place of {list(asked)}"]
    found = []
    for path, members in asked.items():
        schema = whole(whole(DESCRIPTION["paths"][path]["post"]["requestBody"])["content"]["application/json"]["schema"])
        typed = whole(schema.get("oneOf", [schema])[0])["required"]
        found += [f"{path} has the members {typed} in place of {members}"] * (typed != members)
    schemas = [one["properties"] for one in DESCRIPTION["components"]["schemas"].values() if "reply" in one.get("properties", {})]
    replies = {one["reply"]["const"]: [name for name in one if name not in {"reply", *OTHER_MEMBERS}] for one in schemas}
    fields = rows.reply_fields()
    unlike = [word for word in sorted({*replies, *fields}) if replies.get(word) != fields.get(word)]
    return found + [f"{word} has the members {replies.get(word)} in place of {fields.get(word)}" for word in unlike]


def led_nowhere():
    for reference in references(DESCRIPTION):
        try:
            at(reference)
        except KeyError:
            yield f"{reference} leads nowhere"


def faults(pages):
    """The faults of the description, given the texts of the pages that name its servers."""
    if missing := list(led_nowhere()):
        return missing
    found = [f"no page names {one['url']}" for one in DESCRIPTION["servers"] if one["url"].rpartition("/")[2] not in pages]
    shown, wanted = set(), set()
    for path, name, content in contents():
        examples = examples_of(content)
        found += [f"{path}: {name} has no example"] * (not examples)
        found += [f"{path}: the example {one} of {name} is not in its schema" for one, value in examples.items() if not fits(value, content["schema"])]
        shown.update((path, one) for one in examples)
        wanted.update((path, word) for word in words_of(content["schema"]))
    found += [f"{path}: {word} has no example" for path, word in sorted(wanted - shown)]
    found += unlike_rows()
    if NEWER.read_text() != made_of_rows(NEWER.read_text()):
        found.append("gateway/openapi.json has other words or problems than the rows: tools/description.py writes them")
    if not OLDER.exists() or OLDER.read_text() != older_text():
        found.append("gateway/openapi-3.0.json is not what tools/description.py writes")
    if not PROBLEMS.exists() or PROBLEMS.read_text() != problems_text():
        found.append("gateway/problems.html is not what tools/description.py writes")
    return found + refused()


def refused():
    """The faults that openapi-spec-validator finds, where it is installed."""
    try:
        import openapi_spec_validator as validator
    except ImportError:
        return []
    both = ((validator.OpenAPIV31SpecValidator, DESCRIPTION), (validator.OpenAPIV30SpecValidator, json.loads(OLDER.read_text())))
    return [f"{which.__name__}: {fault.message[:200]}" for which, one in both for fault in which(one).iter_errors()]


if __name__ == "__main__":
    NEWER.write_text(made_of_rows(NEWER.read_text()))
    DESCRIPTION.update(json.loads(NEWER.read_text()))
    OLDER.write_text(older_text())
    PROBLEMS.write_text(problems_text())
