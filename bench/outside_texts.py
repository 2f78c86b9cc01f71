"""Texts of requests as values: JSON, and the texts of parameters and forms as OpenAPI 3.0.3 has them.

Parameters have the styles that they have by default, `form` in a query and `simple` in a path and in headers, and the
fields of a form have that of a query (Parameter Object, Style Values; Encoding Object): a scalar is its text, and a
name that stands again makes a list. outside_document.py says what the names of `left_out` are."""
import json
import re
import urllib.parse

JSON_NUMBER = "-?(0|[1-9][0-9]*)"
TRUTHS = {"true": True, "false": False}


class Refused(Exception):
    """A text or a request that a document does not admit."""


def refuse(text):
    raise Refused(text)


def whole(text):
    """A whole number of 64 bits. Minus zero is none."""
    number = int(text)
    return number if text != "-0" and -(2**63) <= number < 2**64 else refuse(text)


def json_of(text, left_out):
    """What a text is as JSON."""
    hooks = {"parse_int": whole, "parse_float": refuse} if "64-bits" in left_out else {}
    try:
        value = json.loads(text, parse_constant=refuse, **hooks)
        written = json.loads(text, object_pairs_hook=tuple)
    except (ValueError, RecursionError) as error:
        raise Refused(text) from error
    if "surrogates" in left_out and re.search("[\ud800-\udfff]", json.dumps(written, ensure_ascii=False)):
        refuse(text)
    if "nesting" in left_out and depth_of(written) > 127:
        refuse(text)
    return value


def depth_of(written):
    """How deep arrays, and objects as pairs, nest."""
    parts = [part for _, part in written] if isinstance(written, tuple) else written
    return 1 + max(map(depth_of, parts), default=0) if isinstance(parts, list) else 0


def number_pattern(schema, left_out):
    """What the text of a number is like under the schema of an integer."""
    if "signs-and-zeros" not in left_out:
        return JSON_NUMBER
    return "[+]?[0-9]+" if schema["format"].startswith("u") else "[+-]?[0-9]+"


def scalar_of(schema, text, left_out):
    """What a text is under the schema of a scalar. One that spells no value of its type is a string."""
    kind = schema.get("type")
    if kind == "boolean":
        return TRUTHS.get(text, text)
    if kind == "integer" and re.fullmatch(number_pattern(schema, left_out), text, re.ASCII):
        return int(text)
    return text


def object_of(pairs, schemas, properties, left_out):
    """The object of pairs of names and texts. Under a name that stands again it has a list."""
    texts = {}
    for name, text in pairs:
        texts.setdefault(name, []).append(text)
    known = {name: schemas.behind(schema) for name, schema in properties.items()}
    values = {name: [scalar_of(known.get(name, {}), text, left_out) for text in texts[name]] for name in texts}
    return {name: listed if len(listed) > 1 else listed[0] for name, listed in values.items()}


def pairs_of(content, has_spaces):
    """The pairs of a query or a form, in which percent signs are undone, and each plus, where these are spaces."""
    content = content.replace(b"+", b" ") if has_spaces else content
    pairs = [pair.partition(b"=") for pair in content.split(b"&") if pair]
    return [(undone(name), undone(text)) for name, _, text in pairs]


def undone(encoded):
    return urllib.parse.unquote_to_bytes(encoded).decode(errors="replace")


def query_of(uri, left_out):
    return pairs_of(uri.partition("?")[2].encode(), "plus-in-query" in left_out)


def form_of(content):
    """The pairs of a form, of which the media type has a plus for a space."""
    return pairs_of(content, True)


def lines_of(headers, names, left_out):
    """The header lines of these names, each name with one text: lines of one name are one list."""
    values = {name: [value_of(text, left_out) for other, text in headers if other.lower() == name] for name in names}
    joined = (lambda lines: lines[-1]) if "last-header-line" in left_out else ", ".join
    return [(name, joined(lines)) for name, lines in values.items() if lines]


def value_of(text, left_out):
    """The value of a header line, of which blanks around it are no part."""
    return text if "header-blanks" in left_out else text.strip(" \t")
