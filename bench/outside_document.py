"""What a document of OpenAPI 3.0.3 says of requests.

Values are validated by outside_schemas.py, and outside_texts.py says what texts are as values. A rule that the program
does not keep has a name in `DIFFERENCES`, and is left out where that name is given."""
import copy
import re

from outside_schemas import Schemas
from outside_texts import Refused, form_of, json_of, lines_of, object_of, query_of, refuse

JSON, FORM, BYTES = "application/json", "application/x-www-form-urlencoded", "application/octet-stream"
BODY_LIMIT = 1024
DIFFERENCES = {
    "signs-and-zeros": "a number in a parameter or a form is JSON's; the program reads Rust's: a plus and zeros may"
    " lead, and no minus stands before one without a sign",
    "plus-in-query": "a plus in a query is itself (RFC 6570, section 3.2.8); the program takes it for a space, as in a"
    " form",
    "last-header-line": "header lines of one name are one list (RFC 9110, section 5.3); in the program the last counts",
    "header-blanks": "blanks around the value of a header are no part of it (RFC 9110, section 5.5); in the program"
    " they are",
    "header-beyond-ascii": "the value of a header may have octets beyond ASCII (RFC 9110, section 5.5); the program"
    " refuses one that it reads",
    "first-content-type": "lines of content-type are one list as well, of which the first counts in the program",
    "no-content-type": "a body without content-type is of no known type (RFC 9110, section 8.3); the program takes it"
    " as JSON, or as bytes where these are asked for",
    "json-suffix": "a media type has to be listed; the program takes any `application/x+json` for `application/json`",
    "bytes-of-any-type": "the same for bytes, of which the program does not look at the media type",
    "empty-body": "a body that is required has bytes; in the program one of no frames is an empty body",
    "body-limit": "a document does not say how many bytes a body may have",
    "hidden-operation": "an operation that documents do not show is served all the same",
    "64-bits": "JSON has any numbers; the program's are whole, of 64 bits, and none is minus zero",
    "surrogates": "JSON may have halves of surrogate pairs alone (RFC 8259, section 8.2); the program refuses them",
    "nesting": "JSON may nest at any depth; the program refuses what nests deeper than 127",
}


def is_admitted(schemas, schema, text):
    """Whether a text is JSON, of the program's numbers, that a schema admits."""
    try:
        return schemas.admits(schema, json_of(text, DIFFERENCES))
    except Refused:
        return False


class Operation:
    """An operation: for each place of parameters the schema of the object that they make, and what is said of the body
    and of the content of a response of 200."""

    def __init__(self, operation):
        parameters = operation.get("parameters", [])
        self.places = {place: place_schema(place, parameters) for place in ("path", "header", "query")}
        self.body = operation.get("requestBody")
        response = operation.get("responses", {}).get("200", {})
        self.answer = response.get("content", {}).get(JSON, {}).get("schema")


def place_schema(place, parameters):
    """Parameters in one place as the schema of an object. A path has no others."""
    listed = [parameter for parameter in parameters if parameter["in"] == place]
    named = {parameter["name"].lower() if place == "header" else parameter["name"]: parameter for parameter in listed}
    required = [name for name, parameter in named.items() if parameter.get("required")]
    schema = {"type": "object", "properties": {name: parameter["schema"] for name, parameter in named.items()}}
    schema |= {"required": required} if required else {}
    return schema | {"additionalProperties": False} if place == "path" else schema


class Document:
    """A document that a session wrote, of which some rules are left out. It does not say which operations are hidden,
    nor how many bytes their bodies have at most."""

    def __init__(self, document, hidden, limits):
        self.schemas = Schemas(document["components"]["schemas"])
        self.operations = {
            (method.upper(), template): Operation(operation)
            for template, item in document["paths"].items()
            for method, operation in item.items()
        }
        self.hidden = hidden
        self.limits = limits
        self.left_out = frozenset()

    def without(self, names):
        """The document with the rules of these names left out."""
        other = copy.copy(self)
        other.left_out = frozenset(names)
        return other

    def admits(self, request):
        """Whether a request is one of an operation that is shown."""
        asked = (request["method"], request["template"])
        if asked not in self.operations:
            return "hidden-operation" in self.left_out and asked in self.hidden
        try:
            return all(self.schemas.admits(schema, value) for schema, value in self.parts_of(request))
        except Refused:
            return False

    def parts_of(self, request):
        """The parts of a request as values, each behind its schema: the path, the headers, the query and the body."""
        operation = self.operations[request["method"], request["template"]]
        for place, schema in operation.places.items():
            pairs = self.pairs_in(place, request, schema["properties"])
            yield schema, object_of(pairs, self.schemas, schema["properties"], self.left_out)
        if operation.body is not None:
            yield self.body_of(request, operation.body)

    def pairs_in(self, place, request, properties):
        if place == "path":
            return request["variables"].items() if are_texts(request["variables"]) else refuse("no text")
        if place == "query":
            return query_of(request["uri"], self.left_out)
        lines = lines_of(request["headers"], properties, self.left_out)
        if "header-beyond-ascii" in self.left_out and not all(text.isascii() for _, text in lines):
            refuse(lines)
        return lines

    def body_of(self, request, declared):
        """The schema of a body, and the body as a value. Of bytes there is nothing to ask."""
        content = bytes_of(request["frames"])
        if not content and declared.get("required") and "empty-body" not in self.left_out:
            refuse("no body")
        media, schema = self.content_of(declared["content"], request["headers"])
        if "body-limit" in self.left_out and len(content) > self.limit_of(request):
            refuse("too long")
        if media == JSON:
            return schema, json_of(content.decode() if is_text(content) else refuse(content), self.left_out)
        return (schema, self.form_in(content, schema)) if media == FORM else ({}, None)

    def limit_of(self, request):
        """How many bytes a body has at most."""
        return self.limits.get((request["method"], request["template"]), BODY_LIMIT)

    def form_in(self, content, schema):
        properties = self.schemas.behind(schema).get("properties", {})
        return object_of(form_of(content), self.schemas, properties, self.left_out)

    def content_of(self, contents, headers):
        """The media type of the content that a request has, and its schema."""
        values = [value for name, value in headers if name.lower() == "content-type"]
        value = values[0] if "first-content-type" in self.left_out and values else ", ".join(values)
        media = value.partition(";")[0].rstrip(" \t").lower()
        media = media if "header-blanks" in self.left_out else media.lstrip(" \t")
        ((listed, content),) = contents.items()
        if media == listed or values and self.is_taken_for(media, listed):
            return listed, content.get("schema", {})
        is_taken = not values and "no-content-type" in self.left_out and listed != FORM
        return (listed, content.get("schema", {})) if is_taken else refuse(media)

    def is_taken_for(self, media, listed):
        if listed == JSON:
            return "json-suffix" in self.left_out and re.fullmatch(r"application/[^+]*\+json", media)
        return listed == BYTES and "bytes-of-any-type" in self.left_out

    def tells_back(self, request, answer):
        """Whether a response of 200 is of the schema that the document has for it, and has the values of the body of a
        request or, where an operation takes none, of its query: of a field that is left out its default, or null, or
        nothing."""
        schema = self.operations[request["method"], request["template"]].answer
        *_, (_, given) = self.parts_of(request)
        properties = self.schemas.behind(schema).get("properties", {})
        wanted = {name: given.get(name, part.get("default")) for name, part in properties.items()}
        return self.schemas.admits(schema, answer) and dict.fromkeys(properties) | answer == wanted


def are_texts(variables):
    return all(isinstance(text, str) for text in variables.values())


def bytes_of(frames):
    return b"".join(frame.encode() if isinstance(frame, str) else bytes.fromhex(frame["hex"]) for frame in frames)


def is_text(body):
    try:
        body.decode()
    except UnicodeDecodeError:
        return False
    return True
