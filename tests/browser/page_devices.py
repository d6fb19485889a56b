"""What tests/browser/page_session.py works with: the server, nginx before it, and the server's replies read without the page."""
import asyncio
import json
import pathlib
import re
import shutil
import socket
import subprocess
import tempfile
import time

import websockets

TOP = pathlib.Path(__file__).resolve().parents[2]
EXAMPLES = TOP / "examples"
# seconds: a processor may have much else to do, and what is waited for is looked at each tenth of a second
WAIT = 60


def free_port():
    with socket.socket() as listener:
        listener.bind(("127.0.0.1", 0))
        return listener.getsockname()[1]


def until(what, found, seconds=WAIT):
    """Waits until something is found, and gives it; or says what wasn't."""
    end = time.monotonic() + seconds
    while True:
        value = found()
        if value:
            return value
        if time.monotonic() > end:
            raise AssertionError(f"not within {seconds} s: {what}")
        time.sleep(0.1)


def listens(port):
    with socket.socket() as attempt:
        return attempt.connect_ex(("127.0.0.1", port)) == 0


class Server:
    """The program with the example session, or one of its own, at one port."""

    def __init__(self, program, workers):
        self.words = [program, "serve", "--displays", "4", "--workers", str(workers)]
        self.session, self.deals = EXAMPLES / "session.json", EXAMPLES / "club.pbn"
        self.port = free_port()
        self.process = None
        self.journal = []

    def keep_session(self, path, deals=EXAMPLES / "club.pbn"):
        """From its next start on, the session and the deals of these files."""
        self.session, self.deals = path, deals

    def keep_journal(self, path):
        """From its next start on, a journal in this file, or none."""
        self.journal = ["--journal", path] if path else []

    def start(self):
        def is_up():
            if self.process is None or self.process.poll() is not None:
                words = [*self.words, "--session", self.session, "--deals", self.deals, "--port", str(self.port), *self.journal]
                self.process = subprocess.Popen(words, stdin=subprocess.DEVNULL, stdout=subprocess.DEVNULL, stderr=subprocess.DEVNULL)
                time.sleep(0.1)
            return listens(self.port)
        until("the server listens", is_up, 90)

    def stop(self):
        if self.process and self.process.poll() is None:
            self.process.terminate()
            self.process.wait()

    def kill(self):
        """As a power cut ends it."""
        self.process.kill()
        self.process.wait()

    def ask(self, name, *messages):
        """Answers to messages on a connection of its own, past nginx and the page."""
        async def on_connection():
            async with websockets.connect(f"ws://127.0.0.1:{self.port}/", compression=None, open_timeout=WAIT) as client:
                answers = []
                for message in ({"hello": name, "token": f"{name}-example"}, *messages):
                    await client.send(json.dumps(message))
                    answers.append(json.loads(await asyncio.wait_for(client.recv(), WAIT)))
                return answers[1:]
        return asyncio.run(on_connection())

    def reply(self, name, message):
        return self.ask(name, message)[0]

    def hold(self, count):
        """Strangers who have each shaken hands, and so hold a place."""
        head = ("GET / HTTP/1.1\r\nHost: 127.0.0.1\r\nUpgrade: websocket\r\nConnection: Upgrade\r\n"
                "Sec-WebSocket-Key: dGhlIHNhbXBsZSBub25jZQ==\r\nSec-WebSocket-Version: 13\r\n\r\n").encode()
        strangers = []
        for _ in range(count):
            stranger = socket.create_connection(("127.0.0.1", self.port), timeout=WAIT)
            stranger.sendall(head)
            stranger.recv(1000)
            strangers.append(stranger)
        return strangers


def code_of(text, heading):
    """The first block of code under a heading of a document."""
    part = text[text.index(heading):]
    lines = part[part.index("\n    "):].splitlines()[1:]
    block = []
    for line in lines:
        if line and not line.startswith("    "):
            break
        block.append(line[4:])
    return "\n".join(block)


class Nginx:
    """nginx with the configuration of docs/RUNNING.md: its `server` over TLS, and the same locations over plain HTTP."""

    def __init__(self, server_port, hostile_port):
        self.folder = pathlib.Path(tempfile.mkdtemp(prefix="page_session_"))
        self.port, self.tls_port, self.process = free_port(), free_port(), None
        text = (TOP / "docs/RUNNING.md").read_text()
        written, page = code_of(text, "## Behind a web server"), code_of(text, "### The page from nginx")
        upgrade, server = written[:written.index("server {")], written[written.index("server {"):].rstrip()
        location = re.search(r"location /session \{.*?\n    \}", server, re.S).group()
        hostile = location.replace("location /session", "location /hostile/session").replace(":8080", f":{hostile_port}")
        locations = "\n".join([page, location, hostile])
        tls = server[:-1] + page + hostile + "}"
        plain = f"server {{ listen 443;\n{locations}\n}}".replace("listen 443", f"listen 127.0.0.1:{self.port}")
        self.configure(upgrade, tls.replace("listen 443", f"listen 127.0.0.1:{self.tls_port}"), plain, server_port)

    def configure(self, upgrade, tls, plain, server_port):
        words = ["-newkey", "rsa:2048", "-nodes", "-days", "1", "-subj", "/CN=bridge.example.org"]
        files = ["-keyout", self.folder / "key", "-out", self.folder / "crt"]
        subprocess.run(["openssl", "req", "-x509", *words, *files], check=True, stderr=subprocess.DEVNULL)
        servers = f"{upgrade}\n{tls}\n{plain}".replace(":8080", f":{server_port}").replace("/srv/bridge/client", str(TOP / "client"))
        for name in ("crt", "key"):
            servers = servers.replace(f"/etc/ssl/bridge.example.org.{name}", str(self.folder / name))
        paths = "\n".join(f"{name}_temp_path {self.folder / name};" for name in ("client_body", "proxy", "fastcgi", "uwsgi", "scgi"))
        (self.folder / "nginx.conf").write_text(
            f"daemon off;\nworker_processes 1;\nuser root;\npid {self.folder}/pid;\nerror_log {self.folder}/errors;\n"
            "events { worker_connections 256; }\n"
            f"http {{\ninclude /etc/nginx/mime.types;\naccess_log off;\n{paths}\n{servers}\n}}\n")

    def start(self):
        words = ["-p", self.folder, "-e", self.folder / "errors", "-c", self.folder / "nginx.conf"]
        self.process = subprocess.Popen(["/usr/sbin/nginx", *words], stdin=subprocess.DEVNULL)
        until("nginx listens", lambda: listens(self.port) and listens(self.tls_port))

    def stop(self):
        if self.process:
            self.process.terminate()
            self.process.wait()
        shutil.rmtree(self.folder, ignore_errors=True)
