#!/usr/bin/env python3
"""Compares document and decoding with a JSON Schema validator that knows neither.

First the values and schemas of the cases of values, of which the gate runs that the decoder tells them so and that they
are written so; then sessions over random requests to each operation, of the sample at two versions and of an API with
forms: which requests are handled, and which are what the document says of them. In the latter API what is told back is
compared too. Known differences are counted by their names, with a request of each; any other is printed, and the exit
status is then 1. Needs Python's jsonschema, and the two programs, which it has proved and built where they are not.
usage: bench/outside.py [REQUESTS [SEED]]"""
import itertools
import json
import sys

from outside_document import DIFFERENCES, Document, is_admitted
from outside_schemas import Schemas
from outside_served import Noted, Sample, value_cases
from outside_writing import Requests


def schema_told(answer):
    """The schema that an answer has: as JSON, or as lines."""
    return json.loads("\n".join(answer)) if isinstance(answer, list) else answer


def compare_cases():
    told = list(value_cases())
    named = {case["name"]: schema_told(answer) for case, answer in told if case["call"] == "definition_schema"}
    schemas = Schemas(named)
    compared = differing = 0
    for case, answer in told:
        name = str(case.get("desc")).removeprefix("#")
        if case["call"] != ["decode", "admits"] or name not in named:
            continue
        compared += 1
        body = case["text"] if "text" in case else json.dumps(case["json"])
        if is_admitted(schemas, named[name], body) != ("tree" in answer[0]):
            differing += 1
            print(f"{case['case']} {body}: told as {answer[0]}")
    print(f"cases: {compared} values compared, {differing} differ")
    return differing


def is_explained(document, request, reply, gives_back):
    """Whether a document explains what became of a request: that it was handled or not, and what is told back."""
    is_handled = reply["outcome"] == "handled"
    if document.admits(request) != is_handled:
        return False
    return not (gives_back and is_handled) or document.tells_back(request, json.loads(reply["body"]))


def names_of(document, request, reply, gives_back):
    """The fewest known differences, three at most, that explain what became of a request. None where none do."""
    for count in range(4):
        for names in itertools.combinations(DIFFERENCES, count):
            if is_explained(document.without(names), request, reply, gives_back):
                return names
    return None


def compare_session(served, count, seed):
    written, _ = served.session([])
    maker = Requests(written, served.hidden, seed)
    sent = [maker.request() for _ in range(count)]
    _, replies = served.session(sent)
    document = Document(written, served.hidden, served.limits)
    known, unknown = {}, 0
    for request, reply in zip(sent, replies, strict=True):
        names = names_of(document, request, reply, served.gives_back)
        told = f"{reply['outcome']}: {json.dumps(request)}"
        if names is None:
            unknown += 1
            print(told)
        elif names:
            known.setdefault(names, []).append(told)
    handled = sum(reply["outcome"] == "handled" for reply in replies)
    print(f"{served.name}: {count} requests compared, {handled} handled, {unknown} differ by no known name")
    for names, requests in sorted(known.items()):
        print(f"  {' and '.join(names)}: {len(requests)}, as {min(requests, key=len)}")
    return unknown


if __name__ == "__main__":
    COUNT, SEED = (int(word) for word in (sys.argv[1:] + ["5000", "1"][len(sys.argv) - 1 :]))
    SERVED = [Sample("1.0.0"), Sample("2.0.0"), Noted()]
    differing = [compare_cases()] + [compare_session(served, COUNT, SEED) for served in SERVED]
    sys.exit(1 if any(differing) else 0)
