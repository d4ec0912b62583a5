"""Messages held against the protocol's published schema, by the table of its facts in tests/schema.json (tools/schema makes it).

What is looked at: types, what is required, enumerations, that no property is there which the schema does not name, and that no value is outside
an enumeration that others may extend. Of a conversation also the numbers: each side's are 1, 2, 3 .., and a response answers one earlier request of
its command, once.
"""
import json
import os

TABLE = os.path.join(os.path.dirname(os.path.dirname(os.path.abspath(__file__))), "schema.json")
with open(TABLE, encoding="utf-8") as file:
    DEFINITIONS = json.load(file)["definitions"]

TYPES = {"object": dict, "array": list, "string": str, "boolean": bool, "integer": int, "number": (int, float), "null": type(None)}


def is_of(kind, value):
    """Whether a JSON value is of a type of the schema; true and false are no numbers."""
    return isinstance(value, TYPES[kind]) and not (isinstance(value, bool) and kind in ("integer", "number"))


def parts_of(node):
    """The nodes that a node is made of, without references."""
    while "$ref" in node:
        node = DEFINITIONS[node["$ref"].rpartition("/")[2]]
    yield node
    for part in node.get("allOf", []):
        yield from parts_of(part)


def wrong_in(node, value, place):
    """What is wrong with a value by one part of a definition: texts that begin with its place."""
    kinds = node.get("type", [])
    kinds = [kinds] if isinstance(kinds, str) else kinds
    if kinds and not any(is_of(kind, value) for kind in kinds):
        yield "%s: no %s" % (place, " or ".join(kinds))
        return
    if "enum" in node and value not in node["enum"]:
        yield "%s: %r is none of %s" % (place, value, ", ".join(map(str, node["enum"])))
    if "oneOf" in node and not any(not list(wrong_with(one, value, place)) for one in node["oneOf"]):
        yield "%s: of none of its forms" % place
    if isinstance(value, dict):
        yield from ("%s: %s is absent" % (place, name) for name in node.get("required", []) if name not in value)


def wrong_with(node, value, place):
    """What is wrong with a value by a definition, its parts, and the definitions of what is in it."""
    parts = list(parts_of(node))
    for part in parts:
        yield from wrong_in(part, value, place)
    if isinstance(value, dict):
        properties = {name: one for part in parts for name, one in part.get("properties", {}).items()}
        more = [part["additionalProperties"] for part in parts if "additionalProperties" in part]
        for name, one in value.items():
            if name in properties:
                yield from wrong_with(properties[name], one, "%s.%s" % (place, name))
            elif properties and not more:
                yield "%s: the schema names no %s" % (place, name)
            elif isinstance(more[0] if more else None, dict):
                yield from wrong_with(more[0], one, "%s.%s" % (place, name))
    if isinstance(value, list):
        items = [part["items"] for part in parts if "items" in part]
        for one in value:
            for node in items:
                yield from wrong_with(node, one, place + "[]")
    # Others may extend this enumeration, so the schema takes another value; of the adapter's own words only the names of refusals are.
    if isinstance(value, str) and not place.endswith("ErrorResponse.message"):
        yield from ("%s: %r is no value that the schema names" % (place, value)
                    for part in parts if "_enum" in part and value not in part["_enum"])


def definition_of(message):
    """The name of the definition that a message has to meet."""
    kind = message["type"]
    if kind == "response":
        key, word, suffix = "command", message["command"], "Response"
        if not message["success"]:
            return "ErrorResponse"
    else:
        key, word, suffix = ("command", message["command"], "Request") if kind == "request" else ("event", message["event"], "Event")
    name = word[:1].upper() + word[1:] + suffix
    named = [part for part in parts_of(DEFINITIONS[name])] if name in DEFINITIONS else []
    if kind != "response" and not any(word in part.get("properties", {}).get(key, {}).get("enum", []) for part in named):
        return {"request": "Request", "event": "Event"}[kind]
    return name if named else "Response"


def faults_of(message):
    """What is wrong with a message by the schema. What `launch` and `attach` are given besides is the adapter's own affair."""
    name = definition_of(message)
    return [text for text in wrong_with(DEFINITIONS[name], message, name)
            if not text.startswith(("LaunchRequest.arguments: the schema names no", "AttachRequest.arguments: the schema names no"))]


def faults_in(conversation):
    """What is wrong with a conversation: pairs of a side (`editor` or `adapter`) and a message, the requests before their responses."""
    last, asked = {"editor": 0, "adapter": 0}, {}
    for side, message in conversation:
        yield from faults_of(message)
        if message["seq"] != last[side] + 1:
            yield "%s: seq %d after %d" % (side, message["seq"], last[side])
        last[side] = message["seq"]
        if message["type"] == "request":
            asked[message["seq"]] = message["command"]
        elif message["type"] == "response" and asked.pop(message["request_seq"], None) != message["command"]:
            yield "%s: request_seq %d answers no request of it" % (message["command"], message["request_seq"])
