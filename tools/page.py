#!/usr/bin/env python3
"""page.py CAMELOT CAMSCOPE [FILE]   serves the page on the loopback address, with these two programs behind it, until Ctrl-C

The page is one text: page/page.html with its style sheet, its program and the scenes of examples/ in it, and the script FILE before them. It is
given out under a path that cannot be guessed. There is one thing to ask besides: POST {"program", "words", "script"} to the same path runs a
program over the script, and the answer is {"status", "text", "said"}, what came to standard output and standard error. No other words are
taken than those of FORMS, none of which names a file. Requests that came by another name of this machine, or from another page, are refused.
"""
import base64
import glob
import hashlib
import hmac
import http.server
import json
import os
import re
import secrets
import signal
import socket
import subprocess
import sys
import tempfile
import threading
import webbrowser

TOP = os.path.dirname(os.path.dirname(os.path.realpath(__file__)))

# What may be asked of each program; the words in capitals are those of VALUES.
FORMS = {
    "camelot": ("run", "trace", "timed", "witness NAME", "why EVENT"),
    "camscope": ("explain", "columns", "shiviz", "check", "draw", "draw --action NAME", "draw --stop EVENT"),
}
VALUES = {"NAME": r"[0-9A-Za-z][0-9A-Za-z./]{0,199}", "EVENT": r"[0-9]{1,9}"}

# A script has at most 262,144 bytes, and one more is told of as too long; JSON may write a byte as two.
MOST_BYTES = 600_000
MOST_CONNECTIONS = 32
MOST_RUNS = min(8, os.cpu_count() or 1)
SECONDS_TO_ASK = 10
SECONDS_TO_WAIT = 20
SECONDS_TO_RUN = 20


def read(path):
    with open(f"{TOP}/{path}", encoding="utf-8", errors="replace") as file:
        return file.read()


def scenes():
    """The scripts of examples/ that end by themselves, in the order in which its README.md names them, but for the scene of the orphan, which is
    first. Of each is told what the first sentence of its comment says."""
    readme = read("examples/README.md")
    found = []
    for folder in sorted(os.listdir(f"{TOP}/examples")):
        for name in sorted(glob.glob("*.cam", root_dir=f"{TOP}/examples/{folder}")):
            path = f"{folder}/{name.removesuffix('.cam')}"
            words = f"examples/{path}.words"
            asked = read(words).split() if os.path.exists(f"{TOP}/{words}") else ["run"]
            if asked in (["run"], ["timed"]):
                script = read(f"examples/{path}.cam")
                about = re.match(r"(?:#+ *(.*?)(?:[.:] .*|[.:])?$)?", script, re.M)[1] or ""
                scene = {"topic": folder.replace("-", " ").capitalize(), "name": path, "about": about, "script": script}
                found.append(scene | {"isByTime": asked == ["timed"]})
    return sorted(found, key=lambda scene: (scene["name"] != "orphans/caught", scene["topic"] != "Orphans", readme.find(f"({scene['name']}.")))


def hash_of(text):
    return "'sha256-" + base64.b64encode(hashlib.sha256(text.encode()).digest()).decode() + "'"


def data(value):
    """A value as JSON that may be put into a script element: there `<` could end it."""
    return json.dumps(value, separators=(",", ":")).replace("<", "\\u003c")


def page(connect, **contents):
    """The page with these contents, and its policy. It may connect to what `connect` says, and run WebAssembly if it has an engine in it."""
    style, program = read("page/page.css"), read("page/page.js")
    also, worker = (" 'wasm-unsafe-eval'", "blob:") if "engine" in contents else ("", "'none'")
    policy = (
        f"default-src 'none'; script-src {hash_of(program)}{also}; worker-src {worker}; style-src {hash_of(style)}; img-src data:; "
        f"connect-src {connect}; base-uri 'none'; form-action 'none'"
    )
    parts = {"POLICY": policy, "STYLE": style, "CONTENTS": data(contents), "PROGRAM": program}
    return re.sub(r"\{\{([A-Z]+)\}\}", lambda part: parts[part[1]], read("page/page.html")), policy


def is_form(program, words):
    """Whether these are words that may be asked of the program."""

    def is_value(part, word):
        return re.fullmatch(VALUES[part], word) if part in VALUES else part == word

    forms = [form.split() for form in FORMS.get(program, ())]
    return any(len(form) == len(words) and all(map(is_value, form, words)) for form in forms)


class Refused(Exception):
    """A request that is refused, with the status of the answer."""

    def __init__(self, status, reason):
        super().__init__(reason)
        self.status = status


class Engine:
    """The programs, of which only so many run at once."""

    def __init__(self, camelot, camscope):
        self.programs = {"camelot": os.path.abspath(camelot), "camscope": os.path.abspath(camscope)}
        self.room = threading.BoundedSemaphore(MOST_RUNS)
        self.folder = tempfile.TemporaryDirectory(prefix="camelot-page-")

    def answer(self, asked):
        """The answer to a question, which is the value that a request has as JSON."""
        if not isinstance(asked, dict) or set(asked) != {"program", "words", "script"}:
            raise Refused(400, "the question has other parts")
        program, words, script = asked["program"], asked["words"], asked["script"]
        is_text = isinstance(program, str) and isinstance(script, str) and isinstance(words, list)
        if not is_text or not all(isinstance(word, str) for word in words) or not is_form(program, words):
            raise Refused(400, "these words are not taken")
        try:
            script = script.encode()
        except UnicodeEncodeError:
            raise Refused(400, "the script is no text") from None
        if not self.room.acquire(timeout=SECONDS_TO_WAIT):
            raise Refused(503, "too many runs at once")
        try:
            return self.run([self.programs[program], *words], script)
        finally:
            self.room.release()

    def run(self, command, script):
        try:
            ended = subprocess.run(
                command, input=script, capture_output=True, timeout=SECONDS_TO_RUN, cwd=self.folder.name, env={}, check=False
            )
        except subprocess.TimeoutExpired:
            raise Refused(504, f"the run did not end within {SECONDS_TO_RUN} seconds") from None
        text, said = (it.decode(errors="replace") for it in (ended.stdout, ended.stderr))
        return {"status": ended.returncode, "text": text, "said": said}


class Handler(http.server.BaseHTTPRequestHandler):
    """Answers one request of a connection."""

    server_version = "camelot"
    sys_version = ""
    timeout = SECONDS_TO_ASK

    def setup(self):
        super().setup()
        # However slowly it comes, a request has to be there in time.
        self.patience = threading.Timer(SECONDS_TO_ASK, self.hang_up)
        self.patience.daemon = True
        self.patience.start()

    def finish(self):
        self.patience.cancel()
        super().finish()

    def hang_up(self):
        try:
            self.connection.shutdown(socket.SHUT_RDWR)
        except OSError:
            pass

    def do_GET(self):
        self.patience.cancel()
        self.respond(lambda: ("text/html", self.server.page))

    def do_POST(self):
        self.respond(lambda: ("application/json", json.dumps(self.server.engine.answer(self.question())).encode()))

    def respond(self, make):
        """Sends what is made, or why it is refused."""
        status = 200
        try:
            self.check()
            kind, body = make()
        except Refused as refused:
            status, kind, body = refused.status, "text/plain", f"{refused}\n".encode()
        self.send_response(status)
        self.send_header("Content-Type", f"{kind}; charset=utf-8")
        self.send_header("Content-Length", str(len(body)))
        for name, value in self.server.fences.items():
            self.send_header(name, value)
        self.end_headers()
        self.wfile.write(body)

    def only(self, name):
        """The value of a header, which may come once at most."""
        values = self.headers.get_all(name) or [None]
        return values[0] if len(values) == 1 else ""

    def check(self):
        """Refuses what does not come from the page itself, or from a person who knows its address."""
        if self.only("Host") != self.server.host:
            raise Refused(403, "this is another host")
        is_own = self.only("Origin") == f"http://{self.server.host}"
        if not is_own and (self.command != "GET" or self.headers.get("Origin") is not None):
            raise Refused(403, "another page asks")
        if self.only("Sec-Fetch-Site") not in (None, "none", "same-origin"):
            raise Refused(403, "another page asks")
        if not hmac.compare_digest(self.path.encode(), self.server.path.encode()):
            raise Refused(404, "nothing is here")

    def question(self):
        """What a request asks."""
        if self.only("Content-Type") != "application/json":
            raise Refused(415, "a question is JSON")
        length = self.only("Content-Length")
        if length is None or not re.fullmatch(r"[0-9]{1,9}", length) or self.headers.get("Transfer-Encoding") is not None:
            raise Refused(411, "a question says how long it is")
        if int(length) > MOST_BYTES:
            raise Refused(413, "the question is too long")
        body = self.rfile.read(int(length))
        self.patience.cancel()
        if len(body) < int(length):
            raise Refused(400, "the question ends too early")
        try:
            return json.loads(body)
        except (ValueError, RecursionError):
            raise Refused(400, "the question is no JSON") from None

    def send_error(self, code, message=None, explain=None):
        """What is said of a request that cannot be read, or has another method."""
        self.send_response(code)
        self.send_header("Content-Type", "text/plain; charset=utf-8")
        self.send_header("Connection", "close")
        self.end_headers()
        self.wfile.write(b"this is not taken\n")

    def log_message(self, *_):
        pass


class Server(http.server.ThreadingHTTPServer):
    """The loopback address, with a thread for each connection, of which there are only so many."""

    daemon_threads = True
    request_queue_size = 4 * MOST_CONNECTIONS

    def __init__(self, engine, contents):
        super().__init__(("127.0.0.1", 0), Handler)
        self.engine = engine
        self.room = threading.BoundedSemaphore(MOST_CONNECTIONS)
        self.host = f"127.0.0.1:{self.server_port}"
        self.path = f"/{secrets.token_urlsafe(24)}/"
        text, policy = page("'self'", **contents)
        self.page = text.encode()
        self.fences = {
            "Content-Security-Policy": f"{policy}; frame-ancestors 'none'",
            "Cross-Origin-Opener-Policy": "same-origin",
            "Cross-Origin-Resource-Policy": "same-origin",
            "Cache-Control": "no-store",
            "Referrer-Policy": "no-referrer",
            "X-Content-Type-Options": "nosniff",
        }

    def process_request(self, request, client_address):
        if self.room.acquire(blocking=False):
            super().process_request(request, client_address)
        else:
            self.shutdown_request(request)

    def process_request_thread(self, request, client_address):
        try:
            super().process_request_thread(request, client_address)
        finally:
            self.room.release()

    def handle_error(self, request, client_address):
        """A connection that broke is nobody's fault."""
        if not isinstance(sys.exc_info()[1], OSError):
            super().handle_error(request, client_address)


def end(*_):
    raise KeyboardInterrupt


def main(camelot, camscope, file=None):
    own = []
    if file is not None:
        with open(file, encoding="utf-8", errors="replace") as script:
            own = [{"topic": "Your script", "name": os.path.basename(file), "about": "", "script": script.read(MOST_BYTES), "isByTime": False}]
    signal.signal(signal.SIGTERM, end)
    with Server(Engine(camelot, camscope), {"scenes": own + scenes()}) as server:
        address = f"http://{server.host}{server.path}"
        print(address, flush=True)
        if os.environ.get("DISPLAY") or os.environ.get("WAYLAND_DISPLAY") or sys.platform == "darwin":
            threading.Thread(target=webbrowser.open, args=[address], daemon=True).start()
        server.serve_forever()


if __name__ == "__main__":
    if not 3 <= len(sys.argv) <= 4:
        sys.exit(__doc__)
    try:
        main(*sys.argv[1:])
    except KeyboardInterrupt:
        pass
    except OSError as error:
        sys.exit(f"camelot: the page is not served: {error}")
