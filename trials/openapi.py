#!/usr/bin/env python3
"""Checks docs/openapi.yaml against docs/HTTP.md, and against requests and answers of the desk.

1. The file is OpenAPI 3.0.
2. The page and the file have the same routes, keys of queries, kinds of bodies, statuses and refusals. Each JSON text
   of the page is a body that the file has.
3. Exchanges fit the file: the examples of the page, its replay record, and the stored replay of `crates/trial_office`.
   With a program as the only argument, that program answers the page's requests by a replay: each answer is the page's,
   and fits.

Both sides of an exchange are judged. A request that fits the file is not refused with `NoRoute`, `Method`, `BadQuery`
or `BadBody`; any other is refused with the first of these that applies. An answer has a status, fields, a media type
and a body that the file has for its route, and JSON is compact. With one thing in it altered, no body fits: so a schema
that accepts too much is found. At the end the routes and codes that no exchange shows are listed.

Needs bash and Debian's python3-yaml and python3-jsonschema. For 1 it needs openapi-specification, which has the schema
of OpenAPI, or python3-openapi-spec-validator, and uses both where it finds them. It installs what is missing
(`needs.py`). Status: 0; 1 where something differs; 2 for invalid arguments; 3 where a package is missing and nothing
was compared.
"""

import dataclasses
import importlib.util
import json
import pathlib
import re
import subprocess
import sys
import urllib.parse
from datetime import date

from needs import needs, needs_modules
from shared import offices
from shared.comparing import fail
from shared.places import EXAMPLE_BAG, POLICY, TOP
from shared.requests import ANSWER, REQUEST, parts, record, records_in

needs_modules("jsonschema=python3-jsonschema", "yaml=python3-yaml")
import jsonschema
import yaml

FILE, PAGE = TOP / "docs/openapi.yaml", TOP / "docs/HTTP.md"
STORED = TOP / "crates/trial_office"
RULES = pathlib.Path("/usr/share/openapi-specification/schemas/v3.0/schema.json")
DAY = "2024-03-01"
OFFICE = "http://127.0.0.1:8080"
JSON, BYTES = "application/json", "application/octet-stream"
MOST = 16_777_216  # the bytes of a body, a form and a file
METHODS = ("delete", "get", "head", "options", "patch", "post", "put", "trace")
# What the desk finds before it looks at the path. So is `Truncated`, where there is no whole head.
OF_HEAD = {"BadHead", "Chunked", "BadLength", "TwoCallers", "TooLarge"}
# What may answer every request. The page's table of the routes leaves it out.
OF_ALL = {"Memory", "Store"}

faults = []


def tell(place, sentence):
    """Notes what differs, and where."""
    faults.append(f"{place}: {sentence}")


def cut(text, most=160):
    """A text, or its beginning and its length where it is long."""
    return text if len(text) <= most else f"{text[:most]} .. ({len(text)} in all)"


# ---- the file

class OnceLoader(yaml.SafeLoader):
    """Reads YAML, and refuses a key that occurs twice."""


def once(loader, node):
    """A mapping, each of whose keys occurs once."""
    keys = [loader.construct_object(key) for key, _ in node.value]
    for key in keys:
        if keys.count(key) > 1:
            raise yaml.YAMLError(f"the key {key} stands twice in the mapping {node.start_mark}")
    return loader.construct_mapping(node, deep=True)


OnceLoader.add_constructor(yaml.resolver.BaseResolver.DEFAULT_MAPPING_TAG, once)


def resolved(node, whole, above=()):
    """A part of the file with what its references name in their place."""
    if isinstance(node, list):
        return [resolved(item, whole, above) for item in node]
    if not isinstance(node, dict):
        return node
    name = node.get("$ref")
    if name is None:
        return {key: resolved(value, whole, above) for key, value in node.items()}
    if name in above:
        fail(f"docs/openapi.yaml: the reference {name} goes round in a circle")
    found = whole
    for part in name.removeprefix("#/").split("/"):
        if part not in found:
            fail(f"docs/openapi.yaml: the reference {name} names nothing")
        found = found[part]
    return resolved(found, whole, above + (name,))


def read_file():
    """The file with its references resolved, and who says that it is OpenAPI."""
    try:
        whole = yaml.load(FILE.read_text(encoding="utf-8"), OnceLoader)
    except yaml.YAMLError as fault:
        fail(f"docs/openapi.yaml: {fault}")
    judges = []
    if RULES.is_file():
        judges.append("the schema of OpenAPI")
        for fault in jsonschema.Draft4Validator(json.loads(RULES.read_text(encoding="utf-8"))).iter_errors(whole):
            tell(
                f"docs/openapi.yaml, {'/'.join(map(str, fault.absolute_path))}",
                f"this is no OpenAPI 3.0: {cut(fault.message)}",
            )
    try:
        import openapi_spec_validator
        judges.append("openapi-spec-validator")
        judge = getattr(openapi_spec_validator, "validate", None) or openapi_spec_validator.validate_spec
        judge(whole)
    except ImportError:
        pass
    except Exception as fault:  # of a class that each version has by another name
        tell("docs/openapi.yaml", f"this is no OpenAPI: {cut(str(fault))}")
    if not judges:
        print(f"openapi: nothing was compared: there is no {RULES} (openapi-specification)", file=sys.stderr)
        sys.exit(3)
    if faults:
        end()
    return resolved(whole, whole), judges


# ---- schemas

def few_bytes(_validator, most, instance, _schema):
    """`x-max-bytes`"""
    if isinstance(instance, str) and len(instance.encode("utf-8", "surrogatepass")) > most:
        yield jsonschema.ValidationError(f"{instance!r} has more than {most} bytes")


def whole_pattern(_validator, pattern, instance, _schema):
    """`pattern`, of the whole text: the $ of ECMAScript is its end, and that of Python may be before a line feed."""
    if not (pattern.startswith("^") and pattern.endswith("$")):
        yield jsonschema.ValidationError(f"the pattern {pattern} doesn't begin with ^ and end with $")
    elif isinstance(instance, str) and not re.fullmatch(pattern[1:-1], instance):
        yield jsonschema.ValidationError(f"{instance!r} doesn't match {pattern}")


def or_null(validator, kind, instance, schema):
    """`type`, and `nullable` beside it"""
    if not (instance is None and schema.get("nullable")):
        yield from jsonschema.Draft4Validator.VALIDATORS["type"](validator, kind, instance, schema)


# JSON Schema as OpenAPI 3.0 has it.
WORDS = {"x-max-bytes": few_bytes, "pattern": whole_pattern, "type": or_null}
Schema = jsonschema.validators.extend(jsonschema.Draft4Validator, WORDS)
formats = jsonschema.FormatChecker(formats=())
formats.checks("date", raises=ValueError)(lambda text: not isinstance(text, str) or bool(date.fromisoformat(text)))


def against(schema, value):
    """Why a value does not fit a schema, in words that follow a colon, or nothing where it does."""
    fault = jsonschema.exceptions.best_match(Schema(schema, format_checker=formats).iter_errors(value))
    return None if fault is None else "".join(f" at {part}," for part in fault.absolute_path) + " " + cut(fault.message)


def choices(schema):
    """The schemas of which a value has to be one."""
    for kind in ("oneOf", "anyOf"):
        if kind in schema:
            return [choice for part in schema[kind] for choice in choices(part)]
    return [schema]


def chosen(schema, code):
    """The part of a schema that is of this refusal, where there is one: a message then names what differs."""
    parts = [part for part in choices(schema) if code and code_of(part) == code]
    return parts[0] if len(parts) == 1 else schema


def alterations(value):
    """A value of an answer with one thing in it altered, so that no answer has it: a member is gone or added, a text is
    empty or has a control character, a number is below 0, over 20,000,000 or has a fraction."""
    if isinstance(value, dict):
        yield value | {"another": 1}
        for key, member in value.items():
            yield {name: other for name, other in value.items() if name != key}
            yield from (value | {key: altered} for altered in alterations(member))
    elif isinstance(value, list):
        yield from ([altered] + value[1:] for altered in alterations(value[0])) if value else ()
        yield {}
    elif isinstance(value, str):
        yield from ("", value + "\u0001", 0)
    else:
        yield from (-1, 20_000_001, 0.5, "")


def code_of(schema):
    """The code of a refusal that a schema is of, or nothing."""
    error = schema.get("properties", {}).get("error", {})
    return error["enum"][0] if len(error.get("enum", [])) == 1 else None


# ---- operations

@dataclasses.dataclass
class Operation:
    """A method on a path of the file."""
    method: str
    template: str
    parameters: list
    body: tuple  # the media type and the schema, or nothing
    answers: dict  # by status: the answer, its media type and its schema

    @property
    def name(self):
        return f"{self.method} {self.template}"

    def of(self, place):
        return {entry["name"]: entry for entry in self.parameters if entry["in"] == place}


def schema_of(entry, place):
    """The schema of a parameter, a field or a media type."""
    if "schema" not in entry:
        fail(f"docs/openapi.yaml, {place}: there is no schema")
    return entry["schema"]


def media_of(message, place):
    """The one media type of a body or an answer, and its schema."""
    content = message.get("content", {})
    if len(content) != 1:
        fail(f"docs/openapi.yaml, {place}: one media type is wanted, and there are {len(content)}")
    kind, media = next(iter(content.items()))
    schema = schema_of(media, place)
    if kind == BYTES and (schema.get("format"), schema.get("maxLength")) != ("binary", MOST):
        tell(f"docs/openapi.yaml, {place}", f"bytes are not said to be binary, and {MOST} at most")
    return kind, schema


def answers_of(responses, place):
    """The answers by their statuses, each with its media type and its schema."""
    for status, answer in responses.items():
        for name, entry in answer.get("headers", {}).items():
            if not entry.get("required") or against(schema_of(entry, f"{place}, {name}"), "") is None:
                tell(f"docs/openapi.yaml, {place}, {status}", f"the field {name} may be missing or empty")
    return {status: (answer, *media_of(answer, f"{place}, {status}")) for status, answer in responses.items()}


def closed(schema, place):
    """Notes where an object of a schema may have other members than those shown, or lack one."""
    for kind in ("oneOf", "anyOf"):
        for part in schema.get(kind, []):
            closed(part, place)
    if schema.get("type") == "object":
        members = schema.get("properties", {})
        if schema.get("additionalProperties") is not False or sorted(schema.get("required", [])) != sorted(members):
            tell(place, f"an object with the members {', '.join(members)} may lack one of them, or have another")
        for part in members.values():
            closed(part, place)
    if "items" in schema:
        closed(schema["items"], place)


def operations_of(file):
    """The operations of the file. Notes what is wrong with one by itself."""
    for template, item in file["paths"].items():
        for method in METHODS:
            if method not in item:
                continue
            parts = item[method]
            place = f"{method.upper()} {template}"
            body = media_of(parts["requestBody"], place) if "requestBody" in parts else None
            answers = answers_of(parts["responses"], place)
            parameters = item.get("parameters", []) + parts.get("parameters", [])
            operation = Operation(method.upper(), template, parameters, body, answers)
            for entry in operation.parameters:
                if against(schema_of(entry, f"{place}, {entry['name']}"), "") is None and entry["in"] != "header":
                    tell(f"docs/openapi.yaml, {place}", f"the parameter {entry['name']} may be an empty text")
            if set(operation.of("path")) != set(re.findall(r"\{(\w+)\}", template)):
                fail(f"docs/openapi.yaml, {place}: the parameters in the path are not those that are described")
            for schema in [schema for _, _, schema in answers.values()] + ([body[1]] if body else []):
                closed(schema, f"docs/openapi.yaml, {place}")
            if body and parts["requestBody"].get("required", False) == in_body(operation, b""):
                tell(f"docs/openapi.yaml, {place}", "whether the body is required is not what its schema says")
            yield operation


def refusals_in(answers):
    """Each refusal among answers: its status, its code and its schema."""
    for status, (_, _, schema) in answers.items():
        for choice in choices(schema):
            if code := code_of(choice):
                yield int(status), code, choice


def template_of(path, operations):
    """The template of a path, with the texts of its parameters."""
    for operation in operations:
        entries = operation.of("path")
        parts = re.split(r"\{(\w+)\}", operation.template)
        for place, part in enumerate(parts):
            if place % 2:
                parts[place] = f"(?P<{part}>{'.' if entries[part].get('x-rest-of-path') else '[^/]'}*)"
            else:
                parts[place] = re.escape(part)
        if found := re.fullmatch("".join(parts), path, re.DOTALL):
            return operation.template, found.groupdict()
    return None, {}


def value_of(schema, text):
    """The value that a text in a path or a query means, by the type of its schema."""
    if schema.get("type") == "integer" and re.fullmatch("0|-?[1-9][0-9]*", text):
        return int(text)
    return text


def json_of(body):
    """The value of a JSON text, as `serde_json` reads it. Fails where it isn't JSON."""
    def whole(text):
        number = int(text)
        return number if text != "-0" and -(2**63) <= number < 2**64 else float(number)

    def fraction(text):
        if float(text) in (float("inf"), float("-inf")):
            raise ValueError("a number is too large")
        return float(text)

    def members(pairs):
        json.dumps(pairs, ensure_ascii=False).encode("utf-8")  # fails where a text has half of a surrogate pair
        return dict(pairs)

    def no_word(text):
        raise ValueError(f"{text} is no JSON")

    text = body.decode("utf-8")
    depth = deepest = 0
    for sign in re.findall(r"[][{}]", re.sub(r'"(\\.|[^"\\])*"', "", text)):
        depth += 1 if sign in "[{" else -1
        deepest = max(depth, deepest)
    if deepest > 127:
        raise ValueError("it is nested too deeply")
    return json.loads(text, parse_int=whole, parse_float=fraction, parse_constant=no_word, object_pairs_hook=members)


# ---- exchanges

@dataclasses.dataclass
class Exchange:
    """A request, and its answer."""
    place: str
    request: bytes
    status: int
    body: bytes
    allow: str = None  # the field `Allow`
    fields: list = None  # the name and the value of each, or nothing where they aren't shown


def head_end(request):
    """Where the head of a request ends, or nothing."""
    found = re.search(rb"\n\r?\n", request)
    return found.end() if found else None


def read_head(request):
    """The refusal that a whole head meets, or else its method, its target, the length of the body, and what follows
    it."""
    end_of_head = head_end(request)
    first, *lines = [line.removesuffix(b"\r") for line in request[:end_of_head].strip(b"\r\n").split(b"\n")]
    words = first.split(b" ")
    fields = [[part.strip(b" \t") for part in line.split(b":", 1)] for line in lines]
    if len(words) != 3 or any(len(field) != 2 for field in fields):
        return "BadHead", None
    lengths = [value for name, value in fields if name.lower() == b"content-length"] or [b"0"]
    if len(lengths) > 1 or not re.fullmatch(rb"[0-9]{1,20}", lengths[0]):
        return "BadLength", None
    return None, (words[0].decode("latin-1"), words[1], int(lengths[0]), request[end_of_head:])


def whole_exchange(place, request, answer):
    """The exchange of a request and the bytes that answer it."""
    status, fields, body = parts(answer)
    return Exchange(place, request, status, body, dict(fields).get("Allow"), fields)


def in_query(operation, query):
    """Whether a query is as an operation says."""
    wanted, pairs = operation.of("query"), urllib.parse.parse_qsl(query, keep_blank_values=True, errors="replace")
    keys = [key for key, _ in pairs]
    return (
        all(keys.count(key) == 1 and key in wanted for key in keys)
        and all(key in keys for key, entry in wanted.items() if entry.get("required"))
        and not any(against(wanted[key]["schema"], value_of(wanted[key]["schema"], text)) for key, text in pairs)
    )


def in_body(operation, body):
    """Whether a body is as an operation says."""
    if operation.body is None:
        return body == b""
    kind, schema = operation.body
    if kind == BYTES:
        return against(schema, body.decode("latin-1")) is None
    try:
        return against(schema, json_of(body)) is None
    except ValueError:
        return False


def asks(operations, request):
    """What a request with a whole head comes to by the file: the operation that it asks for, the refusal of the desk
    that it meets, and the methods that its path takes, each where there is one."""
    refusal, head = read_head(request)
    if refusal:
        return None, refusal, None
    method, target, length, rest = head
    path, _, query = target.partition(b"?")
    template, texts = template_of(path.decode("utf-8", "replace"), operations)
    here = {operation.method: operation for operation in operations if operation.template == template}
    asked = here.get(method)
    entries = next(iter(here.values())).of("path").values() if here else []
    allowed = ", ".join(sorted(here))
    if template is None or any(
        against(entry["schema"], value_of(entry["schema"], texts[entry["name"]])) for entry in entries
    ):
        return asked, "NoRoute", None
    if asked is None:
        return None, "Method", allowed
    if not in_query(asked, query.decode("latin-1")):
        return asked, "BadQuery", allowed
    if len(rest) < length:
        return asked, "Truncated", allowed
    if not in_body(asked, rest[:length]):
        return asked, "BadBody", allowed
    return asked, None, allowed


def check_fields(place, answer, kind, exchange):
    """Whether the fields of an answer are those that the file has."""
    wanted = {"Content-Type": {"type": "string", "enum": [kind]}}
    wanted |= {name: schema_of(entry, name) for name, entry in answer.get("headers", {}).items()}
    names = [name for name, _ in exchange.fields]
    came = dict(exchange.fields)
    if sorted(names) != sorted(wanted):
        tell(place, f"the answer has the fields {', '.join(names)}, and docs/openapi.yaml has {', '.join(wanted)}")
    for name in set(came) & set(wanted):
        if fault := against(wanted[name], value_of(wanted[name], came[name])):
            tell(place, f"the field {name} of the answer:{fault}")
    if came.get("Content-Length") != str(len(exchange.body)):
        tell(
            place,
            f"the answer's Content-Length is {came.get('Content-Length')}, and its body has {len(exchange.body)} bytes",
        )


def check_request(operations, exchange, code, place):
    """Judges a request by the code of its answer. Gives the operation that answers and the value of `Allow`, each where
    there is one; nothing where another answer was due."""
    if code in OF_HEAD or code == "Truncated" and head_end(exchange.request) is None:
        return None, None
    asked, wanted, allowed = asks(operations, exchange.request)
    if wanted and code != wanted:
        tell(place, f"by docs/openapi.yaml this request is refused with {wanted}")
        return None
    if not wanted and code in {"NoRoute", "Method", "BadQuery", "BadBody", "Truncated"}:
        tell(place, f"by docs/openapi.yaml this request fits {asked.name}")
        return None
    return asked, allowed if wanted == "Method" else None


def check_body(name, schema, kind, exchange, value, code, place):
    """Judges the body of an answer."""
    if fault := against(chosen(schema, code), exchange.body.decode("latin-1") if kind == BYTES else value):
        tell(place, f"by docs/openapi.yaml {name} is not answered so:{fault}")
    if kind == BYTES:
        return
    if json.dumps(value, ensure_ascii=False, separators=(",", ":"), sort_keys=True).encode() != exchange.body:
        tell(place, "the JSON of the answer is not compact, or its keys do not ascend")
    for altered in alterations(value):
        if against(schema, altered) is None:
            tell(place, f"docs/openapi.yaml would also have {name} answered by {cut(json.dumps(altered))}")


def check_exchange(operations, others, exchange, shown):
    """Judges both sides of an exchange, and notes what it shows."""
    place = f"{exchange.place}, answered by {exchange.status} {cut(exchange.body.decode('utf-8', 'replace'), 80)}"
    try:
        value = json.loads(exchange.body)
    except ValueError:
        value = None
    is_refusal = exchange.status >= 400
    code = value.get("error") if is_refusal and isinstance(value, dict) else None
    judged = check_request(operations, exchange, code, place)
    if judged is None:
        return
    asked, allowed = judged
    answers, name = (asked.answers, asked.name) if asked else (others, "a request without an operation")
    status = str(exchange.status)
    if status not in answers:
        tell(place, f"docs/openapi.yaml has no status {status} for {name}")
    elif is_refusal and code not in {known for _, known, _ in refusals_in({status: answers[status]})}:
        tell(place, f"docs/openapi.yaml has no refusal {code} with the status {status} for {name}")
    else:
        answer, kind, schema = answers[status]
        check_body(name, schema, kind, exchange, value, code, place)
        if exchange.allow != allowed:
            tell(place, f"the answer allows {exchange.allow}, and docs/openapi.yaml {allowed}")
        if exchange.fields is not None:
            check_fields(place, answer, kind, exchange)
        shown.add(code if is_refusal else asked.name)


# ---- the page

def part_of(page, heading):
    """A part of the page."""
    if f"\n## {heading}\n" not in page:
        fail(f"docs/HTTP.md has no part {heading!r}, which this script reads")
    return page.split(f"\n## {heading}\n", 1)[1].split("\n## ", 1)[0]


def rows_of(part, columns):
    """The rows of the tables of a part, without their headings, in this number of columns."""
    lines = part.splitlines()
    rules = [bool(re.fullmatch(r"\|[-:|\s]+\|", line)) for line in lines] + [False]
    for place, line in enumerate(lines):
        if line.startswith("|") and not rules[place] and not rules[place + 1]:
            cells = [cell.strip() for cell in line.strip()[1:-1].split("|")]
            if len(cells) != columns:
                fail(
                    f"docs/HTTP.md: this script reads {columns} columns, and finds {len(cells)} in the row {cut(line)}"
                )
            yield cells


def blocks_of(part):
    """The blocks of code of a part."""
    return re.findall(r"^```\n(.*?)^```$", part, re.M | re.S)


def words_of(line):
    """What bash makes of a line of the page: the words that curl has, or what is sent as it is."""
    script = "curl() { printf 'curl'; printf '\\0%s' \"$@\"; }\nnc() { printf 'sent\\0'; cat; }\n" + line
    room = {"OFFICE": OFFICE, "PATH": "/usr/bin:/bin"}
    done = subprocess.run(["bash", "-euc", script], cwd=TOP, env=room, capture_output=True, timeout=60, check=False)
    if done.returncode or done.stderr:
        fail(f"docs/HTTP.md: bash doesn't read the line {line}: {done.stderr.decode()}")
    return done.stdout.split(b"\0") if done.stdout.startswith(b"curl\0") else [b"sent", done.stdout.partition(b"\0")[2]]


def asked_by_curl(words, line):
    """What the arguments of curl say: the method, the target, the body and the fields, where there are any."""
    method, target, data, fields = None, None, None, []
    while words:
        word = words.pop(0)
        if word == b"-X":
            method = words.pop(0)
        elif word == b"-H":
            fields.append(tuple(words.pop(0).split(b": ", 1)))
        elif word == b"-o":
            words.pop(0)
        elif word in (b"-d", b"--data-binary"):
            data = words.pop(0)
            if data.startswith(b"@"):
                data = (TOP / data[1:].decode()).read_bytes()
        elif word.startswith(OFFICE.encode()):
            target = word[len(OFFICE):]
        elif word != b"-i":
            fail(f"docs/HTTP.md: this script doesn't know the word {word.decode()} of curl, in the line {line}")
    if target is None:
        fail(f"docs/HTTP.md: there is no address of {OFFICE} in the line {line}")
    return method, target, data, fields


def request_of(line):
    """The bytes that a line of the page sends."""
    kind, *words = words_of(line)
    if kind == b"sent":
        return words[0]
    method, target, data, fields = asked_by_curl(words, line)
    own = {name.lower() for name, _ in fields}
    if data is not None and b"transfer-encoding" in own:
        data = b"%x\r\n%s\r\n0\r\n\r\n" % (len(data), data)
    elif data is not None and b"content-length" not in own:
        fields.append((b"Content-Length", b"%d" % len(data)))
    if data is not None and b"content-type" not in own:
        fields.append((b"Content-Type", b"application/x-www-form-urlencoded"))
    line = b"%s %s HTTP/1.1" % (method or (b"GET" if data is None else b"POST"), target)
    head = [line, b"Host: 127.0.0.1:8080", b"User-Agent: curl", b"Accept: */*"] + [
        name + b": " + value for name, value in fields
    ]
    return b"\r\n".join(head) + b"\r\n\r\n" + (data or b"")


def answer_of(place, text, numbers):
    """The status, the body and the fields, where one is named, of an answer as the page writes it."""
    number = re.match(r"(E\d+): ", text)
    text = text[number.end():] if number else text
    found = re.fullmatch(r"(\d{3})(?: (\{.*\}|[^,{]+))?(?:, (.*))?", text)
    if not found:
        fail(f"{place}: this script doesn't read the answer {text}")
    status, body, more = int(found[1]), found[2], found[3] or ""
    fields = re.fullmatch(r"and Allow: (.*)", more)
    if body is None and more == "and back.bagset is what was deposited, byte for byte":
        data = EXAMPLE_BAG.read_bytes()
    elif body is None or more and not fields:
        fail(f"{place}: this script doesn't read the answer {text}")
    elif status >= 400 and not body.startswith("{"):
        data = b'{"error":"%s"}' % body.encode()
    else:
        data = body.encode()
    if number and (code := json.loads(data).get("error")) != numbers.get(number[1]):
        tell(place, f"the answer is named {number[1]}, which is {numbers.get(number[1])}, and it says {code}")
    return status, data, fields[1] if fields else None


def examples(page, numbers):
    """The exchanges that the page has by an example."""
    for heading in ("Each route by an example", "What the desk refuses", "What the office refuses"):
        line = None
        for block in blocks_of(part_of(page, heading)):
            for text in block.replace("\\\n     ", "").splitlines():
                answer = None
                if text.startswith("# "):
                    answer = text[2:]
                elif text.startswith(("curl ", "printf ")):
                    line = text
                    if found := re.search(r" +# (\d.*)$", text):
                        line, answer = text[:found.start()], found[1]
                if answer is not None:
                    place = f"docs/HTTP.md, {cut(line)}"
                    status, body, allow = answer_of(place, answer, numbers)
                    yield Exchange(place, request_of(line), status, body, allow)


def record_of(block, word):
    """The bytes of a record that the page shows, whose lines end with CR LF."""
    first, _, rest = block.partition("\n")
    if not re.fullmatch(rf"{word} (\d{{4}}-\d\d-\d\d )?\d+", first):
        fail(f"docs/HTTP.md: {first} is no first line of a record")
    count, data = int(first.split(" ")[-1]), rest.replace("\n", "\r\n").encode()
    if data[count:] != b"\r\n":
        tell("docs/HTTP.md", f"the record {first} has {len(data) - 2} bytes")
    return data[:count]


def record_exchange(page):
    """The exchange of the page's record of a replay."""
    blocks = blocks_of(part_of(page, "Replay records"))
    asked = next(block for block in blocks if block.startswith("REQ "))
    given = next(block for block in blocks if block.startswith("ANS "))
    return whole_exchange("docs/HTTP.md, the record of a replay", record_of(asked, "REQ"), record_of(given, "ANS"))


def refusals_of_page(page):
    """The refusals of the two tables, each a status and a code, and the codes of E1 to E13."""
    desk, office, numbers = set(), set(), {}
    for _, status, code, _ in rows_of(part_of(page, "What the desk refuses"), 4):
        desk.add((int(status), code.strip("`")))
    for number, status, body in rows_of(part_of(page, "What the office refuses"), 3):
        code = re.search(r'"error":"(\w+)"', body)
        if not code:
            fail(f"docs/HTTP.md: {number} has no code in {cut(body)}")
        office.add((int(status), code[1]))
        numbers[number] = code[1]
    return desk, office, numbers


def same(place, what, page, file):
    """Notes where the page and the file differ."""
    for entry in sorted(page - file, key=str):
        tell(place, f"docs/HTTP.md has {what} {entry}, and docs/openapi.yaml doesn't")
    for entry in sorted(file - page, key=str):
        tell(place, f"docs/openapi.yaml has {what} {entry}, and docs/HTTP.md doesn't")


def check_routes(page, operations, numbers, desk):
    """Compares the table of the routes."""
    rows = {}
    for cells in rows_of(part_of(page, "What may be asked"), 5):
        route = re.sub(r"(?<=/)[A-Z]+", "{}", cells[0].strip("`"))
        rows[route] = cells[1:]
    here = {re.sub(r"\{\w+\}", "{}", operation.name): operation for operation in operations}
    same("the table of the routes", "the route", set(rows), set(here))
    for route in sorted(set(rows) & set(here)):
        query, body, answer, refused = rows[route]
        operation = here[route]
        place = f"the route {operation.name}"
        keys, wanted = set(re.findall(r"`(\w+)`", query)), operation.of("query")
        same(place, "the key of a query", keys, set(wanted))
        same(place, "the field of a request", {"Depot-Caller"}, set(operation.of("header")))
        for key in keys & set(wanted):
            if ("all" in query) != bool(wanted[key].get("required")):
                tell(place, f"docs/HTTP.md and docs/openapi.yaml differ in whether the query needs {key}")
        kind = None if not body else JSON if "{" in body else BYTES
        if kind != (operation.body and operation.body[0]):
            tell(
                place,
                f"docs/HTTP.md has the body {body or 'none'}, and docs/openapi.yaml "
                f"{(operation.body or ['none'])[0]}",
            )
        same(
            place,
            "the accepting status",
            {answer.split(" ")[0]},
            {status for status in operation.answers if status < "400"},
        )
        codes = {code for _, code, _ in refusals_in(operation.answers)}
        office = {numbers.get(number, number) for number in re.findall(r"E\d+", refused)}
        same(place, "the refusal", office | OF_ALL, codes - desk)
        of_path = {"NoRoute"} if "{" in operation.template else set()
        same(place, "the refusal of the desk", desk - {"NoRoute", "Method"} | of_path, codes & desk)


def check_page(file, operations, others, page):
    """Compares the tables and the JSON of the page with the file, and gives the codes of E1 to E13."""
    desk, office, numbers = refusals_of_page(page)
    all_answers = [operation.answers for operation in operations] + [others]
    pairs = [{(status, code) for status, code, _ in refusals_in(answers)} for answers in all_answers]
    same("the refusals", "the status and the code", desk | office, set().union(*pairs))
    of_route = {(400, "BadQuery"), (400, "BadBody")}
    same("requests without an operation", "the status and the code", desk - of_route, pairs[-1])
    check_routes(page, operations, numbers, {code for _, code in desk})
    schemas = [schema for answers in all_answers for _, _, schema in answers.values()]
    schemas += [operation.body[1] for operation in operations if operation.body]
    schemas += [file["components"]["schemas"][name] for name in ("Record", "Hold")]
    for text in re.findall(r"`(\{[^`]*\})`", page):
        try:
            value = json.loads(text)
        except ValueError:
            continue
        if all(against(schema, value) for schema in schemas):
            tell("docs/HTTP.md", f"{text} is no body that docs/openapi.yaml has")
    return numbers


# ---- the stored replay, and the program

def whole_records(data, head, what):
    """The bytes of the records of which these data consist."""
    found, rest = records_in(data, head)
    if rest:
        fail(f"{what}: {rest[:80]!r} is no record")
    return found


def stored_exchanges():
    """The exchanges of the stored replay."""
    _, _, answers = (STORED / "stdout").read_bytes().partition(b"ANS ")
    asked = whole_records((STORED / "stdin").read_bytes(), REQUEST, "crates/trial_office/stdin")
    given = whole_records(b"ANS " + answers, ANSWER, "crates/trial_office/stdout")
    if len(asked) != len(given):
        fail(f"crates/trial_office: {len(asked)} requests are stored, and {len(given)} answers")
    for number, (request, answer) in enumerate(zip(asked, given), 1):
        line = request.strip().partition(b"\n")[0].decode("utf-8", "replace").strip()
        yield whole_exchange(f"crates/trial_office, request {number}, {cut(line, 100)}", request, answer)


def answered_exchanges(program, shown_by_page):
    """The page's requests, answered by a program; each answer has to be the page's."""
    done = offices.replay(program, ":memory:", [record(DAY, one.request) for one in shown_by_page], "--policy", POLICY)
    answers = whole_records(done.stdout, ANSWER, "what the program answers")
    if done.returncode or len(answers) != len(shown_by_page):
        counts = f"{len(answers)} answers to {len(shown_by_page)} requests"
        fail(f"{program} replay ends with status {done.returncode} and {counts}: {done.stderr.decode()}")
    for one, answer in zip(shown_by_page, answers):
        came = whole_exchange(f"{one.place}, by the program", one.request, answer)
        if (came.status, came.body, came.allow) != (one.status, one.body, one.allow):
            texts = [cut(text.decode("latin-1")) for text in (one.body, came.body)]
            tell(one.place, f"the page has {one.status} {texts[0]}, and the program answers {came.status} {texts[1]}")
        yield came


def end():
    """Ends with what differs, if anything does."""
    if faults:
        for fault in faults[:20]:
            print(f"openapi: {fault}", file=sys.stderr)
        if len(faults) > 20:
            print(f"openapi: and {len(faults) - 20} more", file=sys.stderr)
        sys.exit(1)


def main():
    if len(sys.argv) > 2 or sys.argv[1:2] and sys.argv[1].startswith("-"):
        print("arguments: a program, or none", file=sys.stderr)
        sys.exit(2)
    if not importlib.util.find_spec("openapi_spec_validator"):
        needs(f"{RULES}=openapi-specification")
    file, judges = read_file()
    operations = list(operations_of(file))
    others = answers_of(file.get("x-without-operation", {}), "x-without-operation")
    page = PAGE.read_text(encoding="utf-8")
    numbers = check_page(file, operations, others, page)
    shown_by_page = list(examples(page, numbers))
    sources = {
        "docs/HTTP.md": shown_by_page + [record_exchange(page)],
        "crates/trial_office": list(stored_exchanges()),
    }
    if sys.argv[1:]:
        sources["the program"] = list(answered_exchanges(sys.argv[1], shown_by_page))
    all_answers = [operation.answers for operation in operations] + [others]
    wanted = [operation.name for operation in operations]
    wanted += sorted({code for answers in all_answers for _, code, _ in refusals_in(answers)})
    lines, of_all = [], set()
    for source, exchanges in sources.items():
        shown = set()
        for one in exchanges:
            check_exchange(operations, others, one, shown)
        of_all |= shown
        missing = [name for name in wanted if name not in shown]
        lines.append(
            f"openapi: {len(exchanges)} exchanges of {source}; not shown there: {', '.join(missing) or 'nothing'}"
        )
    end()
    print(f"openapi: docs/openapi.yaml is OpenAPI 3.0 by {' and by '.join(judges)}, and has what docs/HTTP.md has")
    print("\n".join(lines))
    print(f"openapi: not shown anywhere: {', '.join(name for name in wanted if name not in of_all) or 'nothing'}")


if __name__ == "__main__":
    main()
