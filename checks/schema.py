#!/usr/bin/env python3
"""Judges every chain file of the examples, of docs/FORMATS.md and of chain_file's tests by docs/chain.schema.json.

A good chain file has to fit. Of the faulty ones each has to be refused, but for those of UNTOLD, whose faults no
schema can tell: these have to fit. Prints what is wrong and ends with status 1, or else prints how many checks passed.
With --table it prints for each faulty file whether the schema refuses it.
"""
import copy
import glob
import json
import os
import re
import sys

os.chdir(os.path.join(os.path.dirname(os.path.abspath(__file__)), ".."))
# Files whose fault stands in no one place of the file, or in how a number is written.
UNTOLD = {
    "a-fraction": "1.0 is a whole number to a schema",
    "chain": "there are two captures for one port",
    "exchanged-range": "it compares two numbers",
    "high-above-ring": "it compares two numbers",
    "marks": "it compares two numbers",
    "no-default-chain": "it names what stands elsewhere",
    "no-such-chain": "it names what stands elsewhere",
    "no-such-core": "it compares two numbers",
    "no-such-port": "it compares two numbers",
    "no-such-service": "it names what stands elsewhere",
    "same-chain": "it compares two items",
    "same-guest": "it compares two items",
    "same-name": "it compares two items",
    "same-service": "it compares two items",
}


# The same of the rows of chain_file's tests, by what they put into the least file.
UNTOLD_ROWS = {
    ',"low":4,"high":4': "it compares two numbers",
    ',"ports":1.0': "1.0 is a whole number to a schema",
    ',"core":1}': "it compares two numbers",
    '},{"name":"g","service":1,"core":0,"kind":"forward"}': "it compares two items",
    '{"to":2}': "it names what stands elsewhere",
    '{"out":1}': "it compares two numbers",
    ',{"name":"a","steps":[{"to":1}]}],"default":"a"}': "it compares two items",
    '{"chain":"b","match":{}} a': "it names what stands elsewhere",
    '{"chain":"a","match":{"src_ports":[2,1]}} a': "it compares two numbers",
    '{"chain":"a","match":{"port":3}} b': "it names what stands elsewhere",
}


# The validator: the keywords of draft 2020-12 that the schema uses, and none that it doesn't know.


def is_type(name, value):
    if name == "integer":
        return not isinstance(value, bool) and (isinstance(value, int) or isinstance(value, float) and value % 1 == 0)
    return isinstance(value, {"object": dict, "array": list, "string": str}[name])


def has_kept_properties(schema, value):
    rest = [key for key in value if key not in schema.get("properties", {})]
    if schema.get("additionalProperties", True) is False and rest:
        return False
    return all(fits(part, value[key]) for key, part in schema.get("properties", {}).items() if key in value)


def fits_if(schema, value):
    return not fits(schema["if"], value) or fits(schema["then"], value)


def is_number(value):
    return isinstance(value, (int, float)) and not isinstance(value, bool)


KEYWORDS = {
    "$ref": lambda schema, value: fits(SCHEMA["$defs"][schema["$ref"].split("/")[-1]], value),
    "type": lambda schema, value: is_type(schema["type"], value),
    "const": lambda schema, value: value == schema["const"],
    "enum": lambda schema, value: value in schema["enum"],
    "minimum": lambda schema, value: not is_number(value) or value >= schema["minimum"],
    "maximum": lambda schema, value: not is_number(value) or value <= schema["maximum"],
    "pattern": lambda schema, value: not isinstance(value, str) or re.search(schema["pattern"], value) is not None,
    "required": lambda schema, value: not isinstance(value, dict) or all(key in value for key in schema["required"]),
    "properties": lambda schema, value: not isinstance(value, dict) or has_kept_properties(schema, value),
    "minItems": lambda schema, value: not isinstance(value, list) or len(value) >= schema["minItems"],
    "maxItems": lambda schema, value: not isinstance(value, list) or len(value) <= schema["maxItems"],
    "items": lambda schema, value: not isinstance(value, list) or all(fits(schema["items"], item) for item in value),
    "oneOf": lambda schema, value: sum(fits(part, value) for part in schema["oneOf"]) == 1,
    "allOf": lambda schema, value: all(fits(part, value) for part in schema["allOf"]),
    "if": fits_if,
}
# Told with another keyword, or to a reader alone.
OTHERS = {"additionalProperties", "then", "title", "description", "default", "$schema", "$defs"}


def fits(schema, value):
    if schema is True:
        return True
    unknown = set(schema) - set(KEYWORDS) - OTHERS
    assert not unknown, f"keywords that this validator doesn't know: {unknown}"
    return all(KEYWORDS[key](schema, value) for key in schema if key in KEYWORDS)


with open("docs/chain.schema.json", encoding="utf-8") as opened:
    SCHEMA = json.load(opened)


# What is judged


def read(path):
    """The JSON of a file, or None where it is none."""
    try:
        with open(path, encoding="utf-8") as file:
            return json.load(file)
    except ValueError:
        return None


def name_of(path):
    return os.path.splitext(os.path.basename(path))[0]


def written():
    """The chain files that stand in docs/FORMATS.md."""
    with open("docs/FORMATS.md", encoding="utf-8") as file:
        blocks = re.findall(r"```\n(\{\s*\"version\".*?\})\n```", file.read(), re.S)
    return [json.loads(block) for block in blocks]


def places(value):
    """Every object in a value."""
    if isinstance(value, dict):
        yield value
    for part in value.values() if isinstance(value, dict) else value if isinstance(value, list) else []:
        yield from places(part)


def spoiled(plan):
    """The plan with one key too many, in each of its objects in turn."""
    for at in range(len(list(places(plan)))):
        other = copy.deepcopy(plan)
        list(places(other))[at]["other"] = 1
        yield other


def beyond():
    """The schema's own limits: for each number of the top object one below and one above its range."""
    for key, part in SCHEMA["properties"].items():
        if "minimum" in part:
            yield key, part["minimum"] - 1
            yield key, part["maximum"] + 1


def as_number(text):
    base, _, power = text.replace(",", "").partition("^")
    return int(base) ** int(power or 1)


def documented():
    """The rows of FORMATS.md's tables of keys: key, range and default, the last two as text."""
    with open("docs/FORMATS.md", encoding="utf-8") as file:
        section = file.read().partition("## The chain file")[2].partition("A chain has `name`")[0]
    for key, text, default in re.findall(r"^\| `(\w+)` \| (.*) \| (.*) \|$", section, re.M):
        found = re.search(r"([\d,]+) to ([\d,^]*\d)", text)
        if found:
            yield key, as_number(found[1]), as_number(found[2]), default


def is_documented(key, low, high, default):
    """Whether the schema has a key's range, of a number or of a list's length, and its default."""
    part = {**SCHEMA["$defs"]["function"]["properties"], **SCHEMA["properties"]}[key]
    ranges = [part.get("minimum", part.get("minItems", 0)), part.get("maximum", part.get("maxItems"))]
    same = not re.fullmatch(r"[\d,]+", default) or as_number(default) == part.get("default")
    return ranges == [low, high] and same


def tested():
    """The rows of chain_file's tests of faults: what a row puts into the least file, and that file."""
    with open("crates/chain_file/src/tests/refused.rt", encoding="utf-8") as file:
        source = file.read()
    least = re.search(r'r#"(\{\{"version".*?)"#', source)[1]
    steps, end = (re.search(rf'const {name}: &str = r#"(.*?)"#', source)[1] for name in ("STEPS", "END"))
    behind = re.search(r'r#"(\],"rules".*?)"#', source)[1]
    row = r'\(\s*(?:r#"(.*?)"#|(STEPS)),\s*(?:r#"(.*?)"#,\s*|(END),\s*|"(\w)",\s*)?FileFault::'

    def put(top="", functions="}", steps=steps, behind=end):
        return json.loads(least.format(top=top, functions=functions, steps=steps, behind=behind))

    for test in source.split("#[test]"):
        for first, kept, second, kept_end, name in re.findall(row, test):
            if "faults_of_the_top_object" in test:
                yield first, put(top=first)
            elif "faults_of_functions" in test:
                yield first, put(functions=first)
            elif "faults_of_chains_and_steps" in test:
                yield (second if kept else first), put(steps=steps if kept else first, behind=end if kept_end else second)
            elif "faults_of_rules" in test:
                yield f"{first} {name}", put(behind=behind.format(second=first, name=name))


def checks():
    """What was checked, and whether it is as it should be."""
    faulty = glob.glob("examples/39-refused-chain-files/*.json")
    for path in sorted(glob.glob("examples/*/*.json")):
        if path not in faulty and path != "examples/05-missing-keys/chain.json":
            yield f"{path} does not fit", fits(SCHEMA, read(path))
    for path in sorted(faulty):
        wanted = name_of(path) in UNTOLD
        yield f"{path} {'does not fit' if wanted else 'fits'}", fits(SCHEMA, read(path)) == wanted
    yield "examples/05-missing-keys/chain.json fits", not fits(SCHEMA, read("examples/05-missing-keys/chain.json"))
    faults = list(tested())
    yield "the tests have fewer rows than they had", len(faults) >= 27
    for row, plan in faults:
        yield f"the test's row {row} {'does not fit' if row in UNTOLD_ROWS else 'fits'}", fits(SCHEMA, plan) == (row in UNTOLD_ROWS)
    yield "a row of the tests is gone", set(UNTOLD_ROWS) <= {row for row, _ in faults}
    rows = list(documented())
    yield "docs/FORMATS.md has fewer ranges than it had", len(rows) >= 18
    for row in rows:
        yield f"the range or default of {row[0]} is not documented", is_documented(*row)
    plans = written()
    yield "docs/FORMATS.md has not two chain files", len(plans) == 2
    for plan in plans:
        yield "a chain file of docs/FORMATS.md does not fit", fits(SCHEMA, plan)
        yield "a key too many fits", not any(fits(SCHEMA, other) for other in spoiled(plan))
        for key, value in beyond():
            yield f"{key} {value} fits", not fits(SCHEMA, {**plan, key: value})
        for key in SCHEMA["required"]:
            yield f"without {key} it fits", not fits(SCHEMA, {other: plan[other] for other in plan if other != key})


def table():
    for path in sorted(glob.glob("examples/39-refused-chain-files/*.json")):
        name = name_of(path)
        print(f"| `{name}.json` | {UNTOLD[name] if fits(SCHEMA, read(path)) else 'refused'} |")


def main(words):
    if words == ["--table"]:
        table()
        return 0
    wrong = passed = 0
    for what, holds in checks():
        passed += holds
        wrong += not holds
        if not holds:
            print(what)
    print(f"schema: {passed} passed, {wrong} failed")
    return int(wrong > 0)


if __name__ == "__main__":
    sys.exit(main(sys.argv[1:]))
