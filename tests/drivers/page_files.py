#!/usr/bin/env python3
"""Asks the server for the page that it hands out at its own port, in ways that should be answered and in ways that shouldn't.

    python3 tests/drivers/page_files.py crates/bridge_server/out/bridge_server

What is wanted is read off the folder and off docs/RUNNING.md, "The page", never off what the program did: the bytes of each file of client/,
their type by a table of this script's own, their SHA-256 by Python's. Paths of more than twenty kinds that would lead elsewhere if they were
decoded or taken step by step, methods, heads of 100 kB, clients that say half of what they want; what `make page` compresses, which is to
be the file once more, and to nobody who doesn't ask for it; the same port for WebSockets; connections that ask on, that stay and that are more
than a display has room for; a folder that changes while it is served; folders that are no page. Python, make and gzip alone are needed; it takes
three quarters of a minute. Each line is a check: 'ok', or 'FAILED' with what came. The status is 1 where one failed.
"""
import gzip
import hashlib
import pathlib
import subprocess
import sys
import tempfile
import threading
import time

from checks import check, status, tell
from raw_client import NOT_SIGNED_IN, STATUS, Client, Server, files_allowed, free_port, head

PROGRAM = sys.argv[1] if len(sys.argv) > 1 else "crates/bridge_server/out/bridge_server"
ROOT = pathlib.Path(__file__).resolve().parents[2]
CLIENT = ROOT / "client"
PAGE = ROOT / "out/page"
# what a browser says of codings
BROWSERS = b"Accept-Encoding: gzip, deflate, br, zstd"
TYPES = {".html": "text/html; charset=utf-8", ".css": "text/css; charset=utf-8", ".js": "text/javascript; charset=utf-8", ".json": "application/json",
         ".svg": "image/svg+xml", ".md": "text/plain; charset=utf-8", ".txt": "text/plain; charset=utf-8"}
GUARDS = {"cache-control": "no-cache", "x-content-type-options": "nosniff", "referrer-policy": "no-referrer"}
SECRET = b"nobody may read this"
# targets of requests, as bytes; none names a file
TRICKS = [target.encode("latin-1") for target in (
    "/../secret.txt", "/..", "/../", "/./index.html", "//index.html", "/index.html/", "/index.html/.", "/index.html/../secret.txt", "/views/../../secret.txt",
    "/views", "/views/", "/views/..", "/views//board.js", "/%2e%2e/secret.txt", "/%2e%2e%2fsecret.txt", "/..%2fsecret.txt", "/..%5csecret.txt", "/..\\secret.txt",
    "/%252e%252e/secret.txt", "/..%c0%afsecret.txt", "/..%e2%88%95secret.txt", "/%69ndex.html", "/index.html%00", "/index.html%00.js", "/index.html\x00",
    "/index.html ", "/Index.html", "/INDEX.HTML", "/index", "/index.htm", "/index.html~", "/index.html.bak", "/index.html;a=b", "/.hidden", "/.git/config",
    "/views/.hidden", "/etc/passwd", "/~/secret.txt", "/\xe4", "index.html", "../secret.txt", "*", "", "/session/../index.html", "file:///etc/passwd",
    "http://127.0.0.1/../secret.txt", "/C:/index.html", "/linked.txt")]
METHODS = ("POST", "PUT", "DELETE", "OPTIONS", "PATCH", "TRACE", "PROPFIND", "get", "GETT")


def heard(server, data, seconds=10):
    """All that comes after some bytes were sent, until the server ends the connection."""
    stream = server.stream(seconds)
    got = b""
    try:
        stream.sendall(data)
        while more := stream.recv(262_144):
            got += more
    except (ConnectionResetError, BrokenPipeError):
        got += b" and a reset"
    except TimeoutError:
        got += b" and no end"
    stream.close()
    return got


def request(target, method=b"GET", fields=(), is_last=True):
    """A request, behind which the connection is to end, or not."""
    lines = [method + b" " + target + b" HTTP/1.1", b"Host: 127.0.0.1", *fields, *([b"Connection: close"] if is_last else [])]
    return b"\r\n".join(lines) + b"\r\n\r\n"


def answer(server, data):
    """The status, the fields and the body of an answer that is whole."""
    got = heard(server, data)
    whole, _, body = got.partition(b"\r\n\r\n")
    lines = whole.decode("latin-1").split("\r\n")
    fields = [line.partition(": ")[::2] for line in lines[1:]]
    return lines[0].partition(" ")[2], dict(fields), body


def digest(data):
    return '"' + hashlib.sha256(data).hexdigest() + '"'


def policy():
    text = (CLIENT / "index.html").read_text(encoding="utf-8")
    return text.partition('Content-Security-Policy" content="')[2].partition('"')[0] + "; frame-ancestors 'none'"


def wanted(path, data, method="GET", coding=None):
    fields = {**GUARDS, "content-security-policy": policy(), "vary": "accept-encoding", "etag": digest(data), "content-type": TYPES.get(path.suffix, "application/octet-stream"), "connection": "close"}
    if coding:
        fields["content-encoding"] = coding
    if method == "GET" or data:
        fields["content-length"] = str(len(data))
    return "200 OK", fields, data if method == "GET" else b""


def files_of_the_page(server):
    """Each file of the client, by GET, by HEAD, and by the tag that it has."""
    wrong = []
    paths = [path for path in sorted([*CLIENT.glob("*"), *CLIENT.glob("*/*")]) if path.is_file() and not path.name.startswith(".")]
    for path in paths:
        name, data = str(path.relative_to(CLIENT)).encode(), path.read_bytes()
        if answer(server, request(b"/" + name)) != wanted(path, data) or answer(server, request(b"/" + name, b"HEAD")) != wanted(path, data, "HEAD"):
            wrong.append(name)
        unchanged = answer(server, request(b"/" + name, fields=[b"If-None-Match: " + digest(data).encode()]))
        if unchanged[0] != "304 Not Modified" or unchanged[1].get("etag") != digest(data) or unchanged[2]:
            wrong.append(name + b" with its tag")
    check(f"each of {len(paths)} files is answered with its bytes, its type and its tag, and 304 with that tag", [], wrong)
    index = CLIENT / "index.html"
    check("the slash alone is the index", wanted(index, index.read_bytes()), answer(server, request(b"/")))
    check("what follows a question mark doesn't count", wanted(index, index.read_bytes()), answer(server, request(b"/?server=/second/session")))
    check("a target that names the host too is read", wanted(index, index.read_bytes()), answer(server, request(b"http://127.0.0.1/index.html")))
    others = [b'"x"', b'"' + hashlib.sha256(b"other").hexdigest().encode() + b'"', b"W/" + digest(index.read_bytes()).encode()[:-2]]
    check("another tag isn't the file's", ["200 OK"] * 3, [answer(server, request(b"/", fields=[b"If-None-Match: " + tag]))[0] for tag in others])
    lists = [b'"x", ' + digest(index.read_bytes()).encode(), b"W/" + digest(index.read_bytes()).encode(), b"*"]
    check("a list of tags, a weak one and a star are", ["304 Not Modified"] * 3,
          [answer(server, request(b"/", fields=[b"If-None-Match: " + tag]))[0] for tag in lists])


def compressed_files(server):
    """Each file of the page that `make page` lays out, as a browser gets it and as whoever doesn't understand gzip does."""
    names = sorted(path.relative_to(PAGE) for path in PAGE.rglob("*") if path.is_file() and path.suffix != ".gz")
    own = [path.relative_to(CLIENT) for path in [*CLIENT.glob("*"), *CLIENT.glob("styles/*"), *CLIENT.glob("views/*")] if path.suffix in (".html", ".js", ".css", ".svg")]
    check("all of the page is laid out", sorted(own), names)
    wrong = []
    for name in names:
        path, target = CLIENT / name, b"/" + str(name).encode()
        data, packed = path.read_bytes(), (PAGE / f"{name}.gz").read_bytes()
        if gzip.decompress(packed) != data:
            wrong.append((name, "is compressed otherwise"))
        got = {method: answer(server, request(target, method.encode(), [BROWSERS])) for method in ("GET", "HEAD")}
        if got != {method: wanted(path, packed, method, "gzip") for method in got}:
            wrong.append((name, "to a browser"))
        if answer(server, request(target)) != wanted(path, data):
            wrong.append((name, "to whoever says nothing of codings"))
        tags = [answer(server, request(target, fields=[BROWSERS, b"If-None-Match: " + digest(tagged).encode()]))[0] for tagged in (packed, data)]
        if tags != ["304 Not Modified", "200 OK"]:
            wrong.append((name, f"with the tags of both forms: {tags}"))
    check(f"each of {len(names)} files goes compressed to a browser, under a tag of its own, and as it is to others", [], wrong)
    packed = (PAGE / "index.html.gz").read_bytes()
    check("fewer bytes than half", True, 2 * len(packed) < len((CLIENT / "index.html").read_bytes()))
    for said, is_packed in ((b"gzip", True), (b"GZIP", True), (b"br,gzip", True), (b"gzip;q=0", False), (b"gzip ; q=0", False), (b"identity", False), (b"x-gzip", False), (b"*", False)):
        check(f"Accept-Encoding: {said.decode()}", is_packed, answer(server, request(b"/", fields=[b"Accept-Encoding: " + said]))[2] == packed)


def ways_out(server):
    got = {target: heard(server, request(target)) for target in TRICKS}
    check("no path leads out", [], [target for target, sent in got.items() if SECRET in sent or b"root:" in sent])
    check(f"each of {len(TRICKS)} paths is no file, or no path", [],
          [(target, sent[:40]) for target, sent in got.items() if sent[:13] not in (b"HTTP/1.1 404 ", b"HTTP/1.1 400 ", b"HTTP/1.1 405 ")])


def methods(server):
    for method in METHODS:
        got = answer(server, request(b"/", method.encode()))
        check(f"{method} isn't done", ("405 Method Not Allowed", "GET, HEAD"), (got[0], got[1].get("allow")))
    got = heard(server, b"POST / HTTP/1.1\r\nHost: a\r\nContent-Length: 100000\r\n\r\n" + b"a" * 100_000)
    check("a body is refused", True, got.startswith((b"HTTP/1.1 413 ", b"HTTP/1.1 405 ")))


def long_heads(server):
    for what, data, want in (
            ("a field", request(b"/", fields=[b"X: " + b"a" * 100_000]), b"431"),
            ("a name of a field", request(b"/", fields=[b"a" * 100_000 + b": x"]), b"431"),
            ("a thousand fields", request(b"/", fields=[b"X-%d: %s" % (number, b"a" * 90) for number in range(1000)]), b"431"),
            ("a target", request(b"/" + b"a" * 100_000), b"414"),
            ("a head without an end", b"GET / HTTP/1.1\r\nX: " + b"a" * 100_000, b"431")):
        check(f"{what} of 100 kB", b"HTTP/1.1 " + want, heard(server, data)[:12])
    check("no HTTP at all", b"HTTP/1.1 400", heard(server, b"\x16\x03\x01\x02\x00\x01\x00\x01\xfc\r\n\r\n")[:12])
    check("a host that is none", b"HTTP/1.1 400", heard(server, b"GET / HTTP/1.1\r\nHost: a b\r\n\r\n")[:12])


def beside_the_session(server):
    for path in ("/session", "/"):
        client = Client(server, request=head(request=f"GET {path} HTTP/1.1"))
        check(f"a WebSocket at {path}", NOT_SIGNED_IN, client.ask(STATUS))
        client.stream.close()
    check("and the page after it", "200 OK", answer(server, request(b"/"))[0])


def one_answer(stream, got=b""):
    """The next answer on a connection that goes on, its first line and its body, and what came behind it."""
    while b"\r\n\r\n" not in got:
        more = stream.recv(65_536)
        if not more:
            return got, None, b""
        got += more
    whole, _, body = got.partition(b"\r\n\r\n")
    length = next(int(line.split(b":")[1]) for line in whole.lower().split(b"\r\n") if line.startswith(b"content-length:"))
    while len(body) < length:
        body += stream.recv(65_536)
    return whole.split(b"\r\n")[0], body[:length], body[length:]


def asks_on(server):
    """Several requests on one connection, one after another and all at once, and then a session."""
    index, icon = (CLIENT / "index.html").read_bytes(), (CLIENT / "icon.svg").read_bytes()
    stream = server.stream(10)
    heard_in_turn = []
    for target in (b"/", b"/icon.svg", b"/nothing", b"/"):
        stream.sendall(request(target, is_last=False))
        heard_in_turn.append(one_answer(stream)[:2])
    check("a connection asks on", [(b"HTTP/1.1 200 OK", index), (b"HTTP/1.1 200 OK", icon), (b"HTTP/1.1 404 Not Found", b""), (b"HTTP/1.1 200 OK", index)],
          [(line, b"" if b"404" in line else body) for line, body in heard_in_turn])
    stream.sendall(request(b"/icon.svg", is_last=False) * 20 + head(request="GET /session HTTP/1.1"))
    bodies, rest = [], b""
    for _ in range(20):
        _line, body, rest = one_answer(stream, rest)
        bodies.append(body)
    while b"\r\n\r\n" not in rest:
        rest += stream.recv(65_536)
    check("twenty requests at once are answered in turn, and the session behind them begins", ([icon] * 20, True), (bodies, rest.startswith(b"HTTP/1.1 101 ")))
    stream.close()


def takes_nothing(stream):
    """Asks on and on, until the server takes no more, and reads nothing."""
    stream.settimeout(1)
    try:
        while True:
            stream.sendall(request(b"/texts.js", is_last=False) * 100)
    except (TimeoutError, ConnectionError):
        stream.settimeout(90)


def is_over(stream):
    """Whether a stream has ended or was reset, by what the system knows: nothing is read of it."""
    try:
        ends = f":{stream.getsockname()[1]:04X}", f":{stream.getpeername()[1]:04X}"
    except OSError:
        return True
    rows = [line.split() for line in pathlib.Path("/proc/net/tcp").read_text().splitlines()[1:]]
    return not any(row[1].endswith(ends[0]) and row[2].endswith(ends[1]) and row[3] == "01" for row in rows)


def until_over(stream, is_read):
    if is_read:
        try:
            while stream.recv(262_144):
                pass
        except ConnectionResetError:
            pass
    else:
        while not is_over(stream):
            time.sleep(0.1)


# who it is, what it does, and after how many seconds it is ended, on a machine that has much to do
SLOW = (("says nothing", lambda stream: None, True, 9, 18), ("sends half a request", lambda stream: stream.sendall(b"GET / HTTP/1.1\r\nHost:"), True, 9, 18),
        ("asks once and stays", lambda stream: stream.sendall(request(b"/", is_last=False)), True, 9, 18), ("takes no answer", takes_nothing, False, 25, 90))


def slow_ones(server):
    """The server has one display: who says nothing, half of what he wants, or takes no answer, is ended, and others are answered at once."""
    def slow(what, begin, is_read, least, most):
        stream, began = server.stream(90), time.monotonic()
        begin(stream)
        until_over(stream, is_read)
        took = time.monotonic() - began
        check(f"a client who {what} is ended after {least} to {most} s ({took:.1f} s)", True, least <= took <= most)
        stream.close()

    tasks = [threading.Thread(target=slow, args=row) for row in SLOW]
    for task in tasks:
        task.start()
    waits = []
    while any(task.is_alive() for task in tasks):
        began = time.monotonic()
        line = answer(server, request(b"/"))[0]
        waits.append(time.monotonic() - began if line == "200 OK" else line)
        time.sleep(0.1)
    check(f"and meanwhile others get the page at once ({len(waits)} times)", [], [wait for wait in waits if isinstance(wait, str) or wait > 2])


def is_gone(stream):
    """Whether a stream has ended of which all was read."""
    stream.setblocking(False)
    try:
        return stream.recv(1) == b""
    except BlockingIOError:
        return False
    except OSError:
        return True


def many_who_stay(server):
    """Connections that were answered and stay are more than a display has room for: the oldest make room, and a client is let in beside."""
    most, more = 512, 20
    if files_allowed() < 2 * most:
        raise SystemExit("this script may have too few files open (ulimit -Hn)")
    begun = time.monotonic()
    streams = [server.stream(10) for _ in range(most + more)]
    for stream in streams:
        stream.sendall(request(b"/icon.svg", is_last=False))
    for stream in streams:
        try:
            one_answer(stream)
        except OSError:
            pass
    client = Client(server)
    check(f"beside {most} connections that stay a client is let in", NOT_SIGNED_IN, client.ask(STATUS))
    client.stream.close()
    gone = [place for place, stream in enumerate(streams) if is_gone(stream)]
    took = time.monotonic() - begun
    # all of them are ended ten seconds after they came; and who came within a millisecond came at once
    if took < 9:
        check(f"of the older ones one made room for each that was one too many, and the others stay: {gone}", True,
              more <= len(gone) <= more + 1 and max(gone) < most // 2)
    else:
        tell(f"it took {took:.1f} s to ask them all, by which time they had to go: who made room isn't seen")
    for stream in streams:
        stream.close()


def a_folder_that_changes():
    with tempfile.TemporaryDirectory() as folder:
        page = pathlib.Path(folder) / "page"
        (page / "views").mkdir(parents=True)
        (page / ".git").mkdir()
        for name, text in (("index.html", b"first"), ("views/a.js", b""), (".hidden", SECRET), (".git/config", SECRET), ("views/.hidden", SECRET)):
            (page / name).write_bytes(text)
        (page.parent / "secret.txt").write_bytes(SECRET)
        with Server(PROGRAM, "--page", page, "--displays", 1, "--workers", 0) as server:
            ways_out(server)
            (page / "index.html").write_bytes(b"second")
            (page / "new.txt").write_bytes(b"new")
            (page / "views/a.js").unlink()
            check("a file that was written over is what it was", b"first", answer(server, request(b"/"))[2])
            check("a file that was added isn't there", "404 Not Found", answer(server, request(b"/new.txt"))[0])
            check("a file that was taken away is", "200 OK", answer(server, request(b"/views/a.js"))[0])


def no_pages():
    """Folders that are no page, and how the program ends."""
    with tempfile.TemporaryDirectory() as folder:
        folder = pathlib.Path(folder)
        server = Server(PROGRAM)
        words = server.words
        server.ended()
        for name in ("bare", "linked", "deep/a/b", "large", "many", "unread"):
            (folder / name).mkdir(parents=True)
        for name in ("linked", "deep", "large", "many", "unread"):
            (folder / name / "index.html").write_bytes(b"a")
        (folder / "linked/away.txt").symlink_to("/etc/passwd")
        (folder / "large/more.txt").write_bytes(b"a" * 16_777_216)
        for number in range(1024):
            (folder / f"many/{number}.txt").write_bytes(b"")
        for path, want in (("nowhere", "NoFolder"), ("bare", "NoIndex"), ("linked", f"NotAFile: {folder}/linked/away.txt"), ("deep", f"NotAFile: {folder}/deep/a/b"),
                           ("large", "TooLarge"), ("many", "TooMany"), ("linked/index.html", "NoFolder")):
            done = subprocess.run([*words, "--port", str(free_port()), "--page", str(folder / path)], capture_output=True, timeout=60)
            check(f"{path} is no page", (1, b"", f"bridge_server: {want}"), (done.returncode, done.stdout, done.stderr.decode().partition(" (")[0]))
        server.folder.cleanup()


if __name__ == "__main__":
    subprocess.run(["make", "-s", "-C", ROOT, "page"], check=True)
    with Server(PROGRAM, "--page", PAGE, "--displays", 2, "--workers", 0) as server:
        compressed_files(server)
    with Server(PROGRAM, "--page", CLIENT, "--displays", 2, "--workers", 0) as server:
        for part in (files_of_the_page, methods, long_heads, beside_the_session, asks_on):
            part(server)
        check("and the server goes on", None, server.process.poll())
    with Server(PROGRAM, "--page", CLIENT, "--displays", 1, "--workers", 0) as server:
        slow_ones(server)
        many_who_stay(server)
    a_folder_that_changes()
    no_pages()
    sys.exit(status())
