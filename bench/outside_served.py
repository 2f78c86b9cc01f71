"""What is compared with the validator: the cases of values, and sessions of two APIs.

One is the sample of the contract tool. The other has forms. It stands in outside_api.json as cases of `endpoint_cases`
note endpoints, but without their responses: each gives back its last argument. That program answers its requests."""
import functools
import json
import pathlib
import subprocess

HERE = pathlib.Path(__file__).resolve().parent.parent
VALUE_CASES = HERE / "crates/value_cases"
ENDPOINT_CASES = HERE / "crates/endpoint_cases"
REQUESTS_A_RUN = 500


def value_cases():
    """The cases of values, each with what it has of the case that it is like, and what is told of it."""
    known = {}
    asked, answers = ((VALUE_CASES / name).read_text().splitlines() for name in ("stdin", "stdout"))
    for line, answer in zip(asked, answers, strict=True):
        if line and not line.startswith("#"):
            case = json.loads(line)
            case = {**known.get(case.get("like"), {}), **case}
            known[case["case"]] = case
            yield case, json.loads(answer.removeprefix(case["case"] + ": "))


@functools.cache
def built_cases():
    """The program of the cases of endpoints, proved and built where it is not, or where its sources changed."""
    subprocess.run(["rt", "run"], cwd=ENDPOINT_CASES, stdin=subprocess.DEVNULL, stdout=subprocess.DEVNULL, check=True)
    return ENDPOINT_CASES / "out/endpoint_cases"


def lines_asking(requests):
    return [json.dumps({**request, "request_id": str(place)}) for place, request in enumerate(requests)]


class Sample:
    """The sample at a version. It has an operation that documents do not show."""

    hidden = {("GET", "/inner")}
    limits = {("PUT", "/raw"): 8}
    gives_back = False

    def __init__(self, version):
        self.name = f"session {version}"
        self.version = version

    def session(self, requests):
        """The document that a session writes, and the replies to requests."""
        program = [HERE / "contract-tool", "session", self.version]
        lines = "".join(line + "\n" for line in lines_asking(requests))
        done = subprocess.run(program, input=lines, capture_output=True, text=True, check=True)
        document, end = json.JSONDecoder().raw_decode(done.stdout)
        return document, [json.loads(line) for line in done.stdout[end:].splitlines() if line]


def giving_back(endpoint):
    """An endpoint with the response of one that gives back its last argument, a typed body or a query."""
    (last,) = endpoint["slots"][-1].values()
    return {**endpoint, "response": {"content": {"json": last if isinstance(last, list) else [last, "Query"]}}}


class Noted:
    """The API that stands beside this file."""

    name = "forms"
    hidden = frozenset()
    gives_back = True

    def __init__(self):
        noted = json.loads((HERE / "bench/outside_api.json").read_text())
        self.endpoints = [giving_back(endpoint) for endpoint in noted]
        limited = [endpoint for endpoint in noted if "request_body_max_bytes" in endpoint]
        self.limits = {(end.get("method", "POST"), end["path"]): end["request_body_max_bytes"] for end in limited}

    def session(self, requests):
        """The document of the API, and the replies to requests in some runs over it."""
        lines = lines_asking(requests)
        cases = [{"case": "document", "call": "document", "endpoints": self.endpoints}]
        for place in range(0, len(lines), REQUESTS_A_RUN):
            run = lines[place : place + REQUESTS_A_RUN]
            cases.append({"case": str(place), "like": "document", "call": "run", "lines": run})
        document, *runs = self.answers(cases)
        return document, [json.loads(reply) for run in runs for reply in run["written"][1:]]

    def answers(self, cases):
        """What the program answers to cases."""
        asked = "".join(json.dumps(case) + "\n" for case in cases)
        done = subprocess.run([built_cases()], input=asked, capture_output=True, text=True, check=True)
        return [json.loads(line.partition(": ")[2]) for line in done.stdout.splitlines()]
