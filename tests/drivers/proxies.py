#!/usr/bin/env python3
"""Puts nginx and Caddy in front of the server, with the lines that docs/RUNNING.md has for them, and asks through them.

    python3 tests/drivers/proxies.py crates/bridge_server/out/bridge_server

The page with its tag and its compressed form, what isn't there, a session from signing in to the close, an origin that may not enter; a stranger
who is ended; and two sessions on one computer, each at its path. What is wanted comes from docs/RUNNING.md, never from what came. A web server that
isn't installed is left out, and said; both are Debian's (`nginx-light`, `caddy`). Each line is a check: 'ok', or 'FAILED' with what came. The
status is 1 where one failed. It takes about a quarter of a minute.
"""
import hashlib
import os
import pathlib
import shutil
import subprocess
import sys
import tempfile
import time

sys.path[:0] = [str(pathlib.Path(__file__).resolve().parents[1] / folder) for folder in ("runs",)]
from checks import check, status, tell
from raw_client import NOT_SIGNED_IN, PING, PONG, SESSION, STATUS, Client, Ended, Server, frame, free_port, head

PROGRAM = sys.argv[1] if len(sys.argv) > 1 else "crates/bridge_server/out/bridge_server"
ROOT = pathlib.Path(__file__).resolve().parents[2]
PAGE = ROOT / "out/page"
# what a browser says of codings
BROWSERS = "Accept-Encoding: gzip, deflate, br, zstd"
ORIGIN = "https://bridge.example.org"
HELLO, GREETED = {"hello": "d", "token": "abc"}, '{"hello":"d"}'


def written(heading, begin):
    """The code of docs/RUNNING.md under a heading, from the block that begins so."""
    part = (ROOT / "docs/RUNNING.md").read_text(encoding="utf-8").partition(f"{heading}\n")[2]
    lines = part[part.index(f"\n    {begin}"):].splitlines()[1:]
    block = []
    for line in lines:
        if line and not line.startswith("    "):
            break
        block.append(line[4:])
    return "\n".join(block).rstrip() + "\n"


class Front:
    """A web server before the program, at a port of its own."""

    def __init__(self, program, words, port):
        self.port, self.process = port, subprocess.Popen([program, *words], stdin=subprocess.DEVNULL, stdout=subprocess.DEVNULL, stderr=subprocess.DEVNULL)
        deadline = time.monotonic() + 30
        while not self.listens() and self.process.poll() is None and time.monotonic() < deadline:
            time.sleep(0.05)

    stream = Server.stream

    def listens(self):
        try:
            self.stream().close()
            return True
        except OSError:
            return False

    def __enter__(self):
        return self

    def __exit__(self, *_):
        self.process.terminate()
        self.process.wait(30)


# ---- the web servers' files, of the blocks of docs/RUNNING.md

def nginx(folder, text):
    """nginx with these blocks, without TLS."""
    text = "\n".join(line for line in text.splitlines() if "ssl_certificate" not in line)
    paths = "\n".join(f"{name}_temp_path {folder / name};" for name in ("client_body", "proxy", "fastcgi", "uwsgi", "scgi"))
    (folder / "nginx.conf").write_text(f"daemon off;\nworker_processes 1;\nuser root;\npid {folder}/pid;\nerror_log {folder}/errors;\n"
                                       f"events {{ worker_connections 256; }}\nhttp {{\naccess_log off;\n{paths}\n{text}\n}}\n")
    return ["-p", folder, "-e", folder / "errors", "-c", folder / "nginx.conf"]


def caddy(folder, text):
    """Caddy with this block, without TLS, and with nothing kept outside the folder."""
    (folder / "Caddyfile").write_text(f"{{\n    admin off\n    storage file_system {folder}\n}}\n{text}")
    return ["run", "--config", folder / "Caddyfile", "--adapter", "caddyfile"]


def nginx_before_one(port, server):
    text = written("## Behind a web server", "map $http_upgrade").replace("location /session {", "location / {")
    return text.replace(":8080", f":{server.port}").replace("listen 443 ssl http2", f"listen 127.0.0.1:{port}")


def caddy_before_one(port, server):
    text = written("### The page from the program", "bridge.example.org {")
    return text.replace("bridge.example.org", f"http://127.0.0.1:{port}").replace(":8080", f":{server.port}")


def nginx_before_two(port, first, second):
    ports = written("### Several sessions on one computer", "map $session").replace("8081", str(first.port)).replace("8082", str(second.port))
    before, _, after = nginx_before_one(port, first).partition("    location / {")
    location = written("### Several sessions on one computer", "location ~")
    assert after.rstrip().endswith("}\n}"), after
    return f"{ports}{before}{location}}}\n"


def caddy_before_two(port, first, second):
    text = written("### Several sessions on one computer", "bridge.example.org {").replace("bridge.example.org", f"http://127.0.0.1:{port}")
    return text.replace("8081", str(first.port)).replace("8082", str(second.port)).replace("/srv/bridge/client", str(PAGE))


FRONTS = (("nginx", nginx, nginx_before_one, nginx_before_two), ("caddy", caddy, caddy_before_one, caddy_before_two))


# ---- what is asked through them

def answer(front, target, *fields):
    """The status, the fields and the body of what is answered to a request by GET, behind which the connection ends."""
    stream = front.stream(10)
    lines = [f"GET {target} HTTP/1.1", "Host: 127.0.0.1", *fields, "Connection: close"]
    stream.sendall(("\r\n".join(lines) + "\r\n\r\n").encode())
    got = b""
    while more := stream.recv(262_144):
        got += more
    stream.close()
    whole, _, body = got.partition(b"\r\n\r\n")
    first, *rest = whole.decode("latin-1").split("\r\n")
    fields = {name.lower(): value for name, value in (line.split(": ", 1) for line in rest)}
    return first.partition(" ")[2], fields, unchunked(body) if fields.get("transfer-encoding") == "chunked" else body


def unchunked(sent):
    """The bytes of a body that was sent in chunks (RFC 9112, 7.1)."""
    body = b""
    while sent:
        size, _, sent = sent.partition(b"\r\n")
        body, sent = body + sent[:int(size, 16)], sent[int(size, 16) + 2:]
    return body


def digest(data):
    return '"' + hashlib.sha256(data).hexdigest() + '"'


def the_page(name, front):
    plain, packed = (PAGE / "index.html").read_bytes(), (PAGE / "index.html.gz").read_bytes()
    line, fields, body = answer(front, "/", BROWSERS)
    guards = {"cache-control": "no-cache", "x-content-type-options": "nosniff", "referrer-policy": "no-referrer", "content-encoding": "gzip", "etag": digest(packed)}
    check(f"{name} passes on the page's compressed form, its tag and what goes with it", ("200 OK", packed, guards, True),
          (line, body, {field: fields.get(field) for field in guards}, "frame-ancestors 'none'" in fields.get("content-security-policy", "")))
    line, fields, body = answer(front, "/")
    # Caddy asks for the compressed form all the same, unpacks it, and leaves it its tag
    check(f"{name} passes on the page as it is to whoever says nothing of codings", ("200 OK", plain, True, None),
          (line, body, fields.get("etag") in [digest(plain)] + [digest(packed)] * (name == "caddy"), fields.get("content-encoding")))
    check(f"{name} passes on that a browser has it already", ("304 Not Modified", b""), answer(front, "/", BROWSERS, f"If-None-Match: {digest(packed)}")[::2])
    check(f"{name} passes on that there is no such file", "404 Not Found", answer(front, "/nothing")[0])


def the_session(name, front):
    client = Client(front, request=head({"Origin": ORIGIN}, request="GET /session HTTP/1.1"))
    check(f"{name} passes a session on, with nobody signed in", NOT_SIGNED_IN, client.ask(STATUS))
    check(f"{name}: who signs in is greeted", GREETED, client.ask(HELLO))
    check(f"{name}: and asks", True, client.ask(STATUS).startswith('{"status":'))
    check(f"{name}: the longest message goes through", '{"error":"TooLong"}', client.ask(" " * 65_537))
    client.send(frame(PING, b"here"))
    check(f"{name}: a ping too", (PONG, b"here"), client.next())
    check(f"{name}: and the close", True, client.leave())
    stream = front.stream(10)
    stream.sendall(head({"Origin": "https://evil.example.org"}, request="GET /session HTTP/1.1"))
    check(f"{name} passes on which origin comes, and that it may not enter", b"HTTP/1.1 403 Forbidden", stream.recv(65_536).split(b"\r\n")[0])
    stream.close()


def a_stranger(name, front):
    client, begun = Client(front, seconds=30, request=head(request="GET /session HTTP/1.1")), time.monotonic()
    try:
        client.next()
        ended = "a frame"
    except Ended as end:
        ended = str(end)
    took = time.monotonic() - begun
    check(f"{name} ends the connection of a stranger whom the server has ended ({took:.1f} s)", (True, True), (ended in ("end", "reset"), 9 <= took <= 18))


def two_sessions(name, front):
    def tables(path):
        client = Client(front, request=head(request=f"GET {path} HTTP/1.1"))
        greeting, told = client.ask(HELLO), client.ask(STATUS)
        client.leave()
        return greeting, "first" in told, "second" in told

    check(f"{name} leads each path to its own session", [(GREETED, True, False), (GREETED, False, True)], [tables("/open/session"), tables("/novices/session")])
    check(f"{name} leads no other path to either", False, answer(front, "/others/session")[0].startswith("101"))


def titled(title):
    return {**SESSION, "edition": 2, "title": title}


def main():
    subprocess.run(["make", "-s", "-C", ROOT, "page"], check=True)
    tried = 0
    with Server(PROGRAM, "--page", PAGE, "--workers", 0, "--origin", ORIGIN) as server, \
            Server(PROGRAM, "--workers", 0, session=titled("the first session")) as first, Server(PROGRAM, "--workers", 0, session=titled("the second session")) as second:
        for name, configured, before_one, before_two in FRONTS:
            program = shutil.which(name, path=f"{os.environ['PATH']}:/usr/sbin")
            if not program:
                tell(f"{name} isn't installed, so its lines aren't tried")
                continue
            tried += 1
            port = free_port()
            with tempfile.TemporaryDirectory() as folder, Front(program, configured(pathlib.Path(folder), before_one(port, server)), port) as front:
                for part in (the_page, the_session, a_stranger):
                    part(name, front)
            port = free_port()
            with tempfile.TemporaryDirectory() as folder, Front(program, configured(pathlib.Path(folder), before_two(port, first, second)), port) as front:
                two_sessions(name, front)
    tell(f"{tried} of {len(FRONTS)} web servers were tried")
    return status()


if __name__ == "__main__":
    sys.exit(main())
