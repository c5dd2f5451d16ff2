"""Requests and answers: their bytes, and their records, which `depot replay` reads and writes."""
import re

# The first lines of records.
REQUEST, ANSWER = re.compile(rb"REQ \d{4}-\d\d-\d\d (\d+)\n"), re.compile(rb"ANS (\d+)\n")


def request(method, target, body=b"", caller="anna", has_length=False):
    """The bytes of a request. One without a body has the field `Content-Length` only with `has_length`."""
    fields = f"Depot-Caller: {caller}\r\n" if caller else ""
    if body or has_length:
        fields += f"Content-Length: {len(body)}\r\n"
    return f"{method} {target} HTTP/1.1\r\n{fields}\r\n".encode() + body


def deposit_target(accession, collection="maps", class_="y1", closed="2024-02-29"):
    """The target of a request that deposits a bag."""
    return f"/deposits?collection={collection}&class={class_}&accession={accession}&closed={closed}"


def record(day, asked):
    """The record of a request on this day."""
    return b"REQ %s %d\n%s\n" % (str(day).encode(), len(asked), asked)


def answer_record(answer):
    """The record of an answer."""
    return b"ANS %d\n%s\n" % (len(answer), answer)


def records_in(data, head=ANSWER):
    """The bytes of the records at the beginning of these data, and what follows the last whole record. `head` is
    REQUEST or ANSWER."""
    found, at = [], 0
    while line := head.match(data, at):
        end = line.end() + int(line[1])
        if data[end : end + 1] != b"\n":
            break
        found.append(data[line.end() : end])
        at = end + 1
    return found, data[at:]


def parts(answer):
    """The status, the fields and the body of an answer."""
    head, _, body = answer.partition(b"\r\n\r\n")
    line, *lines = head.decode("latin-1").split("\r\n")
    return int(line.split(" ")[1]), [tuple(it.split(": ", 1)) for it in lines], body
