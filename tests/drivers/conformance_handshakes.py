"""A part of tests/drivers/conformance.py: handshakes, and requests that are none (4.2)."""
import base64
import hashlib
import random
import socket
import time

from conformance_cases import GREETED, HELLO, Played, note
from raw_client import ACCEPT, TEXT, Client, frame, head


def status_of(request, pieces=None, seconds=5, ends=False):
    """Whether a request is answered 101 and the client then served (`served`), by another status, or by the end (`nothing`)."""
    stream = Played.server.stream(seconds)
    came = b""
    try:
        for piece in pieces or [request]:
            stream.sendall(piece)
            time.sleep(0.003 if pieces else 0)
        if ends:
            stream.shutdown(socket.SHUT_WR)
    except OSError:
        pass
    try:
        while b"\r\n\r\n" not in came:
            more = stream.recv(65_536)
            if not more:
                break
            came += more
        if came.startswith(b"HTTP/1.1 101 "):
            stream.sendall(frame(TEXT, HELLO))
            answer = stream.recv(65_536)
            return "served" if answer == b"\x81\x0e" + GREETED[1] else answer
    except TimeoutError:
        return "silence"
    except OSError:
        pass
    finally:
        stream.close()
    words = came.split(b"\r\n")[0].decode("latin-1").split(" ")
    return words[1] if len(words) > 1 else "nothing"


def handshakes():
    """Requests that ask for a WebSocket, and requests that don't. A head has at most 16 KiB and 64 fields."""
    long = len(head(more=["X-Long: "]))
    good = [
        ("the standard's own", head()), ("names in lower case", head().replace(b"Upgrade:", b"upgrade:").replace(b"Host:", b"host:")),
        ("Upgrade: WEBSOCKET", head({"Upgrade": "WEBSOCKET"})), ("Connection: upgrade", head({"Connection": "upgrade"})),
        ("Connection: keep-alive, Upgrade", head({"Connection": "keep-alive, Upgrade"})), ("no blanks", head().replace(b": ", b":")),
        ("a path and a query", head(request="GET /session?x=1&y=%20 HTTP/1.1")), ("a long path", head(request=f"GET /{'p' * 8000} HTTP/1.1")),
        ("a URI", head(request="GET http://127.0.0.1/session HTTP/1.1")), ("an origin and a cookie", head({"Origin": "null", "Cookie": "a=b"})),
        ("subprotocols, none of which is taken", head({"Sec-WebSocket-Protocol": "chat, superchat"})),
        ("an extension, which isn't taken", head({"Sec-WebSocket-Extensions": "permessage-deflate; client_max_window_bits"})),
        ("bytes above 127", head({"X-Name": "Bj\xf6rn"})), ("an empty value", head({"X-Empty": ""})),
        ("64 fields", head(more=[f"X-{number}: v" for number in range(59)])),
        ("16,000 bytes", head(more=["X-Long: " + "a" * (16_000 - long)])),
    ]
    for what, request in good:
        note(f"a handshake: {what}", "served", status_of(request))
    request = head()
    for size in (3, 17, 50):
        note(f"a handshake in segments of {size}", "served", status_of(request, [request[at:at + size] for at in range(0, len(request), size)]))
    key = base64.b64encode(random.Random(1).randbytes(16)).decode()
    wanted = base64.b64encode(hashlib.sha1(f"{key}258EAFA5-E914-47DA-95CA-C5AB0DC85B11".encode()).digest())
    for sent, answer in ((key, wanted), (None, ACCEPT.encode())):
        stream = Played.server.stream()
        stream.sendall(head({"Sec-WebSocket-Key": sent} if sent else {}))
        came = stream.recv(65_536)
        stream.close()
        note(f"the answer to the key {sent or 'of the standard'}", b"HTTP/1.1 101 Switching Protocols\r\nconnection: Upgrade\r\n"
             b"upgrade: websocket\r\nsec-websocket-accept: " + answer + b"\r\n\r\n", came)
    for count in (1, 41):
        client = Client(Played.server, request=head() + frame(TEXT, HELLO) * count)
        note(f"{count} texts right behind the head are answered", [GREETED] * count, [client.next() for _ in range(count)])
        client.stream.close()
    # by RFC 9110 (15.5, 15.6) and RFC 6585 (5): what a request gets that is no handshake
    bad = [
        ("404", "a page", b"GET / HTTP/1.1\r\nHost: 127.0.0.1\r\n\r\n"), ("426", "HTTP/1.0", head(request="GET / HTTP/1.0")),
        ("400", "HTTP/2.0", head(request="GET / HTTP/2.0")), ("400", "HTTP/2", b"PRI * HTTP/2.0\r\n\r\nSM\r\n\r\n"),
        *(("405", f"the method {method}", head(request=f"{method} / HTTP/1.1")) for method in ("POST", "HEAD", "OPTIONS", "get")),
        ("404", "no Upgrade", head({"Upgrade": None})), ("426", "no Connection", head({"Connection": None})),
        ("400", "no key", head({"Sec-WebSocket-Key": None})), ("426", "no version", head({"Sec-WebSocket-Version": None})),
        ("404", "Upgrade: h2c", head({"Upgrade": "h2c"})), ("426", "Connection: close", head({"Connection": "close"})),
        *(("400", f"the key {sent!r}", head({"Sec-WebSocket-Key": sent}))
          for sent in ("", "abc", "!" * 22 + "==", *(base64.b64encode(b"x" * count).decode() for count in (15, 17)))),
        *(("426", f"the version {version!r}", head({"Sec-WebSocket-Version": version}))
          for version in ("0", "8", "12", "14", "", "013", "13, 8", "abc")),
        ("431", "65 fields", head(more=[f"X-{number}: v" for number in range(60)])),
        ("431", "17,000 bytes", head(more=["X-Long: " + "a" * (17_000 - long)])),
        ("431", "a megabyte", head(more=["X-Long: " + "a" * 1_000_000])),
        ("414", "a path that doesn't end", f"GET /{'p' * 100_000}".encode()),
        ("400", "a blank before a colon", head(more=["X-Bad : v"])), ("400", "a folded field", head(more=["X-Fold: a", " b"])),
        ("400", "a NUL", head(more=["X-Nul: a\0b"])), ("400", "a field without a colon", head(more=["X-Nothing"])),
    ]
    for status, what, request in bad:
        note(f"no handshake: {what}", status, status_of(request))
    for status, what, sent in (("400", "a client of TLS", bytes.fromhex("16030100c8010000c40303") + b"\x11" * 190),
                               ("400", "one of SSH", b"SSH-2.0-OpenSSH_9.2\r\n"), ("400", "random bytes", random.Random(2).randbytes(200)),
                               ("nothing", "nothing", b""), ("400", "half a head", head()[:60])):
        note(f"no handshake: {what}, and then the end", status, status_of(sent, ends=True))
