#!/usr/bin/python3
"""A server by the plain model of tests/models, for the page's tests while there is no built program; it is called as that is:

    tests/browser/plain_server.py serve --session FILE --deals FILE --port N [--displays N] [--clients N] [--journal FILE] [--workers 0]

    /usr/bin/python3 tests/browser/page_session.py tests/browser/plain_server.py 0    # the whole session over it

It answers over WebSockets by the rules of docs/PROTOCOL.md and docs/POLICY.md, and knows nothing of the program. It solves no board, so it
has no workers. What it accepted goes into the journal as lines of JSON, which no other program reads. It needs python3-websockets.
"""
import argparse
import asyncio
import hashlib
import http
import json
import pathlib
import sys

import websockets

sys.path[:0] = [str(pathlib.Path(__file__).resolve().parents[1] / folder) for folder in ("models", "runs")]
from message_reader import Fault, object_of, read_line  # noqa: E402
from model_runs import opened  # noqa: E402

MOST_BYTES = 65_536


class PlainServer:
    def __init__(self, words):
        # the model's marks are those of Law 2, as are those of the examples
        deals = "".join(line for line in words.deals.read_text().splitlines(True) if not line.startswith(("[Dealer ", "[Vulnerable ")))
        line = json.dumps({**json.loads(words.session.read_text()), "pbn": deals})
        self.session = opened(line)
        self.digests = {user["name"]: user["digest"] for user in json.loads(line)["users"]}
        self.strangers, self.most_strangers = 0, max(1, words.clients // 10)
        if words.journal and words.journal.exists():
            for kept in words.journal.read_text().splitlines():
                self.do(*json.loads(kept))
        self.journal = words.journal and words.journal.open("a")

    def do(self, user, commands):
        """The receipt of a batch; a new user's digest isn't the model's to keep."""
        receipt = self.session.batch(user, commands)
        self.digests |= {command["name"]: command["digest"] for command, answer in zip(commands, receipt["answers"])
                         if command["cmd"] == "AddUser" and answer == "ok"}
        return receipt

    def keep(self, user, commands, receipt):
        taken = [command for command, answer in zip(commands, receipt["answers"]) if answer == "ok"]
        if self.journal and taken:
            self.journal.write(f"{json.dumps([user, taken])}\n")
            self.journal.flush()

    def knows(self, name, token):
        return self.digests.get(name) == hashlib.sha256(token.encode()).hexdigest()

    def answer(self, user, text):
        """Who is signed in after a message, and what it is answered."""
        if len(text.encode()) > MOST_BYTES:
            raise Fault("TooLong")
        found = object_of(text.encode())
        if "hello" in found:
            return (found["hello"], {"hello": found["hello"]}) if self.knows(found["hello"], found["token"]) else (user, {"error": "NotKnown"})
        _, message = read_line(json.dumps({"as": user or "nobody", **json.loads(text)}).encode(), self.session.edition)
        if user is None:
            raise Fault("NotSignedIn")
        if "do" not in message:
            return user, self.session.answer(user, message)
        receipt = self.do(user, message["do"])
        self.keep(user, message["do"], receipt)
        return user, receipt

    async def shake_hands(self, path, head):
        """There is room for so many strangers, and one more is told so."""
        return (http.HTTPStatus.SERVICE_UNAVAILABLE, [], b"") if self.strangers >= self.most_strangers else None

    async def talk(self, client):
        user = None
        self.strangers += 1
        try:
            async for text in client:
                was = user
                try:
                    user, answer = self.answer(user, text)
                except Fault as fault:
                    answer = {"error": str(fault)}
                self.strangers -= was is None and user is not None
                await client.send(json.dumps(answer))
        finally:
            self.strangers -= user is None


async def serve(words):
    server = PlainServer(words)
    async with websockets.serve(server.talk, "127.0.0.1", words.port, process_request=server.shake_hands, compression=None):
        await asyncio.Future()


def main():
    parser = argparse.ArgumentParser()
    parser.add_argument("word", choices=["serve"])
    for word, kind, usual in (("session", pathlib.Path, None), ("deals", pathlib.Path, None), ("port", int, None), ("journal", pathlib.Path, None),
                              ("displays", int, 4), ("clients", int, 1000), ("workers", int, 0)):
        parser.add_argument(f"--{word}", type=kind, default=usual, required=word in ("session", "deals", "port"))
    asyncio.run(serve(parser.parse_args()))


if __name__ == "__main__":
    main()
