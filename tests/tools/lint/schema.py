"""What docs/session.schema.json says of each key, what the table of docs/SESSION.md says of it, and a small judge of values."""
import re

DEVICES = ("touch", "keys")
STEPS = ("windows", "focus", "pilfer", "remove")
COUNTED = {"the greatest display": 3, "the number of devices": 8}
NAME = "^[!-~]{1,64}$"

# A kind of the table: its shape, and whether the key may be absent, or its default.
ABSENT = "may be absent"
KINDS = [
    (r"integer", "integer", None),
    (r"integer, (-?\d+)", "integer", int),
    (r"text", "string", None),
    (r"text, empty", "string", lambda: ""),
    (r"text, `(\w+)`", "string", str),
    (r"text, no channel", "string", lambda: ABSENT),
    (r"text; a wall has none", "string", lambda: ABSENT),
    (r"truth value, (true|false)", "boolean", lambda word: word == "true"),
    (r"array of tables, none", "array of object", lambda: []),
    (r"array of tables, front to back", "array of object", None),
    (r"array of two integers, \[(\d+), (\d+)\]", "array of 2 integer", lambda *numbers: [int(n) for n in numbers]),
    (r"array of two integers, the .*", "array of 2 integer", None),
    (r"array of four integers.*", "array of 4 integer", None),
    (r"array of such arrays, the frame alone", "array of 4 integer of array", lambda: ABSENT),
    (r"array of texts, none", "array of string", lambda: []),
]


def spread(name, kinds):
    """A key of an array of tables of several kinds, once for each kind."""
    for array, every in (("device[k].", DEVICES), ("step[k].", STEPS)):
        if name.startswith(array) and "windows[j]" not in name:
            return ["%s (%s)" % (name, kind) for kind in (kinds or every)]
    return [name]


def rows_of(page):
    """The rows of the table of keys: kind and range by key."""
    rows = {}
    table = page[page.index("| key | kind, and its default") :].split("\n\n")[0]
    for line in table.split("\n")[2:]:
        cells = [cell.strip() for cell in line.strip("|").split("|")]
        names = re.findall(r"`([^`]+)`", cells[0])
        kinds = re.search(r"\(([a-z, ]+)\)", cells[0])
        first = names[0]
        for name in names:
            full = first[: first.rindex(".")] + name if name.startswith(".") else name
            kind, limits = cells[1], cells[2]
            if kind == "as for `display`":
                kind, limits = rows["display." + full.rsplit(".", 1)[1]]
            for key in spread(full, kinds and kinds[1].split(", ")):
                rows[key] = (kind, limits)
    return rows


def number(text):
    text = text.replace(",", "")
    if text in COUNTED:
        return COUNTED[text]
    base, _, power = text.partition("^")
    return int(base) ** int(power) if power else int(text)


def limits_of(key, text):
    """What the cell of the range says, in the words of JSON Schema."""
    one_of = re.findall(r"`([A-Za-z_]+)`", text)
    if key.startswith(("device[k].kind", "step[k].do")):
        return {"const": re.search(r"\((\w+)\)", key)[1]} if re.search(r"\((\w+)\)", key)[1] in one_of else {}
    if "bytes from `!` to `~`" in text or text.startswith("the name of a channel"):
        return {"pattern": NAME}
    if text.startswith("begins with `/`, has no space or tab"):
        return {"pattern": "^/[^ \\t]*$"}
    if text.startswith("32 bits each"):
        return {"minimum": -(2**31), "maximum": 2**31 - 1}
    if len(one_of) > 2:
        return {"enum": one_of}
    if re.match(r"\d+, \d+, \d+ or \d+", text):
        return {"enum": [int(n) for n in re.findall(r"\d+", text)]}
    found = re.match(r"at most ([\d,]*\d)", text)
    if found:
        return {"maxItems": number(found[1])}
    found = re.match(r"(\d+) to (the greatest display|the number of devices|[\d^]+)", text)
    return {"minimum": int(found[1]), "maximum": number(found[2])} if found else {}


def wanted_of(key, kind, limits):
    """What the table says of a key: its shape, whether it may be absent or its default, and its range."""
    for form, shape, default in KINDS:
        found = re.fullmatch(form, kind)
        if found:
            said = limits_of(key, limits)
            if shape.endswith("of array"):
                said.update(limits_of(key, "32 bits each"))
            return shape, "has to be there" if default is None else default(*found.groups()), said
    raise AssertionError("no kind of a key: %s" % kind)


def resolved(schema, part):
    while "$ref" in part:
        name = part["$ref"].removeprefix("#/definitions/")
        part = {**schema["definitions"][name], **{key: value for key, value in part.items() if key != "$ref"}}
    return part


def tables_of(schema):
    """The tables of a session, each with what stands in front of its keys and the kind behind them."""
    yield "", "", schema
    properties = schema["properties"]
    yield "display.", "", resolved(schema, properties["display"])
    for name in ("extra_display", "channel"):
        yield name + "[k].", "", resolved(schema, properties[name]["items"])
    for name, key in (("device", "kind"), ("step", "do")):
        for part in properties[name]["items"]["oneOf"]:
            table = resolved(schema, part)
            kind = table["properties"][key]["const"]
            yield name + "[k].", " (%s)" % kind, table
            if "windows" in table["properties"]:
                yield "step[k].windows[j].", "", resolved(schema, table["properties"]["windows"]["items"])


def keys_of(schema):
    """The keys, as the table of the page has them: of `display` only its keys stand there."""
    for before, behind, table in tables_of(schema):
        assert table["additionalProperties"] is False and table["type"] == "object", before
        for key in table["properties"]:
            if before + key != "display":
                yield before + key + behind


def shape_of(schema, part):
    part = resolved(schema, part)
    if part.get("type") != "array":
        return part.get("type", "object")
    inner = resolved(schema, part["items"])
    count = "%d " % part["minItems"] if "minItems" in part else ""
    if inner.get("type") == "array":
        return shape_of(schema, inner) + " of array"
    return "array of %s%s" % (count, inner.get("type", "object"))


def said_of(schema, key):
    for before, behind, table in tables_of(schema):
        name = key[len(before) : len(key) - len(behind)]
        if before + name + behind == key and name in table["properties"]:
            part = resolved(schema, table["properties"][name])
            absent = part.get("default", ABSENT) if name not in table["required"] else "has to be there"
            limits = {}
            inner = part
            while True:
                words = ("minimum", "maximum", "enum", "const", "pattern") + (() if "minItems" in inner else ("maxItems",))
                limits.update({word: inner[word] for word in words if word in inner})
                if inner.get("type") != "array" or resolved(schema, inner["items"]).get("type", "object") == "object":
                    return shape_of(schema, part), absent, limits
                inner = resolved(schema, inner["items"])
    return None


TYPES = {"object": dict, "array": list, "string": str, "boolean": bool, "integer": int}
READ = {"type", "properties", "additionalProperties", "required", "items", "minItems", "maxItems", "minimum", "maximum", "enum", "const"}
READ |= {"pattern", "oneOf", "not", "$ref", "default", "title", "description", "definitions", "$schema"}


def faults(schema, value, part=None, path="session"):
    """What a schema has against a value, by the words of JSON Schema that ours uses."""
    part = resolved(schema, schema if part is None else part)
    assert set(part) <= READ, set(part) - READ
    found = []
    if "oneOf" in part and sum(not faults(schema, value, one, path) for one in part["oneOf"]) != 1:
        found.append("%s fits not one of them" % path)
    if "not" in part and not faults(schema, value, part["not"], path):
        found.append("%s fits what it must not fit" % path)
    kind = TYPES.get(part.get("type"))
    # JSON Schema takes 1080.0 as an integer.
    whole = kind is int and isinstance(value, float) and value.is_integer()
    if kind and not whole and (not isinstance(value, kind) or (kind is int and isinstance(value, bool))):
        return found + ["%s is no %s" % (path, part["type"])]
    if value not in part.get("enum", [value]) or value != part.get("const", value):
        found.append("%s is none of its words" % path)
    if "pattern" in part and not re.search(part["pattern"].replace("$", r"\Z"), value):
        found.append("%s has another form" % path)
    if "minimum" in part and not part["minimum"] <= value <= part["maximum"]:
        found.append("%s is out of range" % path)
    if isinstance(value, list):
        if not part.get("minItems", 0) <= len(value) <= part.get("maxItems", len(value)):
            found.append("%s has %d entries" % (path, len(value)))
        for k, inner in enumerate(value):
            found += faults(schema, inner, part.get("items", {}), "%s[%d]" % (path, k))
    if isinstance(value, dict):
        found += ["%s.%s is not there" % (path, key) for key in part.get("required", ()) if key not in value]
    if isinstance(value, dict) and "properties" in part:
        for key, inner in value.items():
            if key in part["properties"]:
                found += faults(schema, inner, part["properties"][key], "%s.%s" % (path, key))
            elif part.get("additionalProperties") is False:
                found.append("%s.%s is none of its keys" % (path, key))
    return found
