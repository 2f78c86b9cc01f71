"""Values under schemas of OpenAPI 3.0.3, by jsonschema, which knows nothing of this project.

Schemas are read as Draft 4 with `nullable`, the form of null alone, and the formats of integers put into its words."""
import json

from jsonschema import Draft4Validator

NULL_ALONE = {"type": "string", "enum": [None]}


def bounds_of(name):
    """The least and the greatest number of a format, as `uint8`."""
    bits = int(name.removeprefix("u").removeprefix("int"))
    return (0, 2**bits - 1) if name.startswith("u") else (-(2 ** (bits - 1)), 2 ** (bits - 1) - 1)


def translated(schema):
    """A schema of OpenAPI 3.0.3 in the words of Draft 4."""
    if isinstance(schema, list):
        return [translated(part) for part in schema]
    if not isinstance(schema, dict):
        return schema
    if {name: schema[name] for name in ("type", "enum") if name in schema} == NULL_ALONE:
        return {"enum": [None]}
    parts = {name: translated(part) for name, part in schema.items() if name not in ("nullable", "default", "enum")}
    if "enum" in schema:
        parts["enum"] = schema["enum"]
    if schema.get("type") == "integer" and "format" in schema:
        least, greatest = bounds_of(schema["format"])
        inner = {"minimum": least, "maximum": greatest}
        parts = {"allOf": [parts, inner]}
    return {"anyOf": [{"enum": [None]}, parts]} if schema.get("nullable") is True else parts


class Schemas:
    """The schemas of a document, under the names by which others refer to them."""

    def __init__(self, named):
        self.named = named
        self.components = {"schemas": {name: translated(schema) for name, schema in named.items()}}
        self.validators = {}

    def admits(self, schema, value):
        """Whether a validator takes a value under a schema."""
        key = json.dumps(schema)
        if key not in self.validators:
            whole = {"allOf": [translated(schema)], "components": self.components}
            self.validators[key] = Draft4Validator(whole)
        return self.validators[key].is_valid(value)

    def behind(self, schema):
        """The schema that references, and `allOf` of one, lead to."""
        while "$ref" in schema or "allOf" in schema:
            if "$ref" in schema:
                schema = self.named[schema["$ref"].rpartition("/")[2]]
            else:
                (schema,) = schema["allOf"]
        return schema
