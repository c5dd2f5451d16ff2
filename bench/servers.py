"""What the speed scripts ask of a server that runs: an answer, and the processor time that it has taken."""
from pathlib import Path

from shared.offices import answer_to
from shared.requests import parts


def asked(port, text):
    """The status of the answer to a request, and its body, by a connection of its own."""
    status, _, body = parts(answer_to(port, text, patience=None, piece=1 << 20))
    return status, body


def processor_time(process):
    """The seconds of processor time that a process of one thread has taken."""
    return int(Path(f"/proc/{process.pid}/schedstat").read_text().split()[0]) / 1e9
