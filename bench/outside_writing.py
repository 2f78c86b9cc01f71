"""Random requests to the operations of a document: some as it asks for them, some with parts that are missing, twice
there, of other kinds, in other case, at the ends of ranges, or written in other ways."""
import json
import random
import urllib.parse

from outside_schemas import Schemas, bounds_of

NUMBERS = [0, 1, 7, 255, 256, -1, -128, 2**31 - 1, 2**31, -(2**31), -(2**31) - 1, 2**32 - 1, 2**32, 2**63, 2**64, 2**70]
NUMBER_TEXTS = ["", "-0", "+7", "007", "+007", "-007", "+-1", "1.0", "1e2", "0x1", " 7", "7 ", "null", "a", "1,2"]
NUMBER_TEXTS += ["\u0667"]
TRUTH_TEXTS = ["", "True", "TRUE", "1", "0", "yes", "null", "true ", "true,false"]
TEXTS = ["", "a", "p1", "two words", "\u00e9", "\U0001f600", "a/b", "a%2Fb", "+", "\"", "\\", "\n", "null", "7"]
WORDS = ["a", " ", "+", "%", "&=", "\u00e9", "\U0001f600", "abc", "a b", "c+", "two words", "sea+green", "\ufeff", "\0"]
ENCODED = ["%", "%2", "%zz", "%C3%A9", "%c3%a9", "%C3", "%ED%A0%80", "%F0%9F%98", "%00", "+%2B", "%252B", "a=b", "="]
WRONG_KINDS = ["null", "7", "-0", "1.0", "1e2", "true", '""', '"a"', "[]", "{}", '"\\ud800"', "nul", '{"a":1.5}']
JSON, FORM = "application/json", "application/x-www-form-urlencoded"
MEDIA = [
    "application/json", "Application/JSON; charset=utf-8", "application/json;", "application/problem+json",
    "application/+json", "application/a+b+json", FORM, FORM.upper(), FORM + " ; charset=utf-8", FORM + "+json",
    "application/octet-stream", "text/plain", "multipart/form-data; boundary=a", "", "json",
    "application/json, text/plain",
]
OTHER_HEADERS = [["host", "a"], ["Accept", "*/*"], ["x-b", "1"], ["content-length", "7"]]


class Requests:
    """Makes requests to the operations of a document and to hidden ones, from a seed."""

    def __init__(self, document, hidden, seed):
        self.random = random.Random(seed)
        self.schemas = Schemas(document["components"]["schemas"])
        self.operations = [
            (method.upper(), template, operation)
            for template, item in document["paths"].items()
            for method, operation in item.items()
        ] + [(method, template, {}) for method, template in hidden]

    def happens(self, chance):
        return self.random.random() < chance

    def request(self):
        method, template, operation = self.random.choice(self.operations)
        parameters = {place: [] for place in ("path", "query", "header")}
        for parameter in operation.get("parameters", []):
            parameters[parameter["in"]].append(parameter)
        body = operation.get("requestBody")
        return {
            "method": self.random.choice([method.lower(), "PATCH", "POST"]) if self.happens(0.03) else method,
            "template": template,
            "uri": template.replace("{", "").replace("}", "") + self.query(parameters["query"]),
            "variables": self.variables(parameters["path"]),
            "headers": self.headers(parameters["header"], body),
            "frames": self.frames(self.content(body)),
        }

    def variables(self, parameters):
        variables = {p["name"]: self.text_of(p["schema"]) for p in parameters if not self.happens(0.03)}
        for name in list(variables):
            if self.happens(0.03):
                variables[name] = [variables[name]]
        return {**variables, "other": "a"} if self.happens(0.03) else variables

    def times(self, is_required):
        """How often a part is there."""
        return self.random.choices([0, 1, 2], [1, 30, 1] if is_required else [10, 10, 1])[0]

    def text_of(self, schema):
        """The text of a value of a scalar's schema, or of one that is near."""
        schema = self.schemas.behind(schema)
        if self.happens(0.02):
            return self.random.choice(NUMBER_TEXTS + TRUTH_TEXTS + TEXTS)
        if "oneOf" in schema:
            return self.text_of(self.random.choice(schema["oneOf"]))
        if "enum" in schema:
            return self.random.choice(schema["enum"])
        if schema["type"] == "integer":
            return self.number_text(schema)
        if schema["type"] == "boolean":
            return self.random.choice(TRUTH_TEXTS if self.happens(0.05) else ["true", "false"])
        return self.word(schema)

    def number_text(self, schema):
        if self.happens(0.04):
            return self.random.choice(NUMBER_TEXTS)
        least, greatest = bounds_of(schema["format"])
        least, greatest = schema.get("minimum", least), schema.get("maximum", greatest)
        if self.happens(0.05):
            return str(self.random.choice(NUMBERS + [least - 1, greatest + 1]))
        number = self.random.choice([least, greatest, self.random.randint(least, greatest)])
        written = f"{abs(number):0{self.random.choice([1, 1, 1, 1, 1, 4])}}"
        sign = "-" if number < 0 else self.random.choice(["", "", "", "", "", "+", "-"])
        return sign + written if self.happens(0.15) else str(number)

    def word(self, schema):
        """A text, most often of a length that is asked for."""
        word = self.random.choice(WORDS + TEXTS)
        if self.happens(0.1):
            return word
        least, greatest = schema.get("minLength", 0), schema.get("maxLength", len(word) + 1)
        return (word * max(least, 1))[: self.random.randint(least, max(least, min(greatest, 5)))]

    def query(self, parameters):
        pairs = self.pairs([(p["name"], p["schema"], p.get("required")) for p in parameters])
        return "?" + "&".join(pairs) if pairs or self.happens(0.1) else ""

    def pairs(self, fields):
        """Pairs of names and texts, in any order, with other names between them."""
        texts = [(name, self.text_of(part)) for name, part, wanted in fields for _ in range(self.times(wanted))]
        texts += [("z", self.random.choice(TEXTS))] * self.times(False) if self.happens(0.2) else []
        self.random.shuffle(texts)
        return [self.pair(name, text) for name, text in texts]

    def pair(self, name, text):
        if self.happens(0.02):
            return urllib.parse.quote(name) if self.happens(0.5) else "&" + urllib.parse.quote(name.upper()) + "=1"
        if self.happens(0.02):
            return urllib.parse.quote(name) + "=" + self.random.choice(ENCODED)
        return self.encoded(name) + "=" + self.encoded(text)

    def encoded(self, text):
        """A text in one of the ways in which a query or a form may write it, or with its pluses as they are."""
        way = self.random.choices(["form", "query", "plus", "all", "low"], [10, 10, 3, 1, 1])[0]
        if way == "form":
            return urllib.parse.quote_plus(text)
        if way == "all":
            return "".join(f"%{byte:02X}" for byte in text.encode())
        written = urllib.parse.quote(text, safe="+" if way == "plus" else "")
        return "".join(f"%{byte:02x}" for byte in text.encode()) if way == "low" else written

    def in_other_case(self, name):
        return self.random.choice([name, name.upper(), name.title()])

    def headers(self, parameters, body):
        lines = [
            [self.in_other_case(p["name"]), self.header_text(p)]
            for p in parameters
            for _ in range(self.times(p.get("required")))
        ]
        lines += self.random.sample(OTHER_HEADERS, self.random.randrange(3))
        if body is not None and self.happens(0.94):
            kinds = list(body["content"]) if self.happens(0.9) else MEDIA
            lines += [[self.in_other_case("content-type"), self.random.choice(kinds)]]
        if body is not None and self.happens(0.05):
            lines += [["content-type", self.random.choice(MEDIA)]]
        self.random.shuffle(lines)
        return [[name, self.with_blanks(text) if self.happens(0.02) else text] for name, text in lines]

    def with_blanks(self, text):
        return self.random.choice([" ", "\t", ""]) + text + " "

    def header_text(self, parameter):
        return "".join(character for character in self.text_of(parameter["schema"]) if character not in "\n\0")

    def content(self, body):
        """The bytes of a body."""
        if body is None:
            return b"a" if self.happens(0.1) else b""
        ((media, content),) = body["content"].items()
        if media == JSON:
            text = self.json_of(content["schema"]) + self.random.choices(["", " ", " x", ","], [20, 2, 1, 1])[0]
            return text.encode() + (b"\xff" if self.happens(0.02) else b"")
        return self.form_of(content["schema"]) if media == FORM else self.random.randbytes(self.random.randrange(11))

    def form_of(self, schema):
        schema = self.schemas.behind(schema)
        wanted = schema.get("required", [])
        pairs = self.pairs([(name, part, name in wanted) for name, part in schema.get("properties", {}).items()])
        form = "&".join(pairs).encode()
        if self.happens(0.03):
            form = urllib.parse.unquote_to_bytes(form)
        return form + self.random.choice([b"\xff", b"&", b"&&", b"=", b"\n"]) if self.happens(0.03) else form

    def frames(self, content):
        """The frames of a body of these bytes."""
        frames = []
        while content:
            size = self.random.randint(1, len(content))
            frames.append({"hex": content[:size].hex()})
            content = content[size:]
        return frames

    def json_of(self, schema, depth=0):
        """The text of a value of a schema, or of one that is near."""
        if self.happens(0.04):
            return self.random.choice(WRONG_KINDS)
        schema = self.schemas.behind(schema)
        kind = schema["type"]
        if kind == "object":
            return self.object_of(schema, depth)
        if kind == "array":
            count = self.random.randrange(4) if depth < 3 else 0
            return "[" + ",".join(self.json_of(schema["items"], depth + 1) for _ in range(count)) + "]"
        if kind == "integer":
            return str(self.random.choice(NUMBERS[:10] if self.happens(0.9) else NUMBERS))
        return json.dumps(self.random.choice(TEXTS)) if kind == "string" else self.random.choice(["true", "false"])

    def object_of(self, schema, depth):
        members = [
            json.dumps(name) + ":" + self.json_of(part, depth + 1)
            for name, part in schema["properties"].items()
            for _ in range(self.random.choices([0, 1, 2], [1, 40, 1])[0])
        ]
        if self.happens(0.1):
            deep = self.random.choice([100, 125, 126, 127, 200])
            others = WRONG_KINDS + ["[" * deep + "]" * deep, '"' + "a" * 900 + '"']
            members.append('"other":' + self.random.choice(others))
        self.random.shuffle(members)
        return "{" + ",".join(members) + "}"
