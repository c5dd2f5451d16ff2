#!/usr/bin/env python3
"""A stand-in for a proxy in front of an office. It passes each request on and its answer back, but answers by itself

- 503 `{"error":"Closed"}`, to be asked again after a second, while the file CLOSED exists;
- 503 `{"error":"Store"}`, while the file FAILS exists;
- 429 `{"error":"TooMany"}`, to be asked again after a second, to each TIMES-th request, unless TIMES is 0.

Prints `listening PORT`. Writes a line for each request into the file `asked` of the folder: its method, its target, and
the status where it answered by itself.

Arguments: the port of the office, the folder of the files, TIMES.
"""
import http.client
import http.server
import pathlib
import sys

OFFICE, FOLDER, TIMES = int(sys.argv[1]), pathlib.Path(sys.argv[2]), int(sys.argv[3])
asked = 0


class Shuts(http.server.BaseHTTPRequestHandler):
    def answer(self, status, fields, body):
        self.send_response_only(status)
        for name, value in fields:
            self.send_header(name, value)
        self.end_headers()
        self.wfile.write(body)

    def serve(self):
        global asked
        asked += 1
        body = self.rfile.read(int(self.headers.get("Content-Length", 0)))
        refusal = None
        if (FOLDER / "CLOSED").exists():
            refusal = 503, "Closed", "1"
        elif (FOLDER / "FAILS").exists():
            refusal = 503, "Store", None
        elif TIMES and asked % TIMES == 0:
            refusal = 429, "TooMany", "1"
        with open(FOLDER / "asked", "a") as told:
            print(self.command, self.path, *refusal[:1] if refusal else (), file=told)
        if refusal:
            text = b'{"error":"%s"}\n' % refusal[1].encode()
            again = [("Retry-After", refusal[2])] if refusal[2] else []
            self.answer(
                refusal[0], [("Content-Type", "application/json"), ("Content-Length", str(len(text))), *again], text
            )
            return
        office = http.client.HTTPConnection("127.0.0.1", OFFICE, timeout=60)
        fields = {name: value for name, value in self.headers.items() if name in ("Depot-Caller", "Content-Length")}
        try:
            office.request(self.command, self.path, body, fields)
            found = office.getresponse()
            self.answer(found.status, [("Content-Length", found.headers["Content-Length"])], found.read())
        except OSError:
            self.answer(502, [("Content-Length", "0")], b"")

    do_GET = do_POST = do_PUT = do_DELETE = serve

    def log_message(self, *_):
        pass


server = http.server.HTTPServer(("127.0.0.1", 0), Shuts)
print("listening", server.server_address[1], flush=True)
server.serve_forever()
