"""A server of the test's own, for tests/browser/page_session.py: its texts would be markup, were they taken for it."""
import asyncio
import json
import subprocess
import sys

import websockets
from page_devices import free_port, listens, until


class Hostile:
    """A server of the test's own: its texts would be markup, were they taken for it; board 2 alone is as docs/PROTOCOL.md has it, with
    numbers that a solver took long to find."""
    RESULT = {"by": "S", "doubled": 1, "level": 4, "strain": "H", "tricks": 9}
    CARDS = ["SK", "S2", "S3", "SA", "H2", "HK", "H3", "HA", "D4"]  # West, North, East, South; South's ace wins
    COSTS = [0, 1, 0, 0, 0, 2, 0, 0, 0]
    TRICKS = {"E": [3, 4, 5, 6, 7], "N": [10, 9, 8, 7, 6], "S": [10, 9, 8, 7, 5], "W": [3, 4, 5, 6, 8]}
    BOARD_2 = {
        "board": {"deal": "N:AKQJT98765432... .AKQJT98765432.. ..AKQJT98765432. ...AKQJT98765432", "dealer": "E", "number": 2, "vul": "ns"},
        "traveller": {"board": 2, "rows": [{"table": 1, "ns": "NS1", "ew": "EW3", "points": 0, "score": -200, "result": RESULT},
                                           {"table": 2, "ns": "NS2", "ew": "EW2", "points": 2, "score": 0, "result": "pass"},
                                           {"table": 3, "ns": "NS3", "ew": "EW1", "ruling": [60, 40]}]},
        "analysis": {"board": 2, "tricks": TRICKS}, "par": {"board": 2, "result": {**RESULT, "by": "W", "strain": "C"}, "score": 100}, "play": {"board": 2, "cards": CARDS, "table": 1},
        "costs": {"board": 2, "costs": COSTS, "table": 1}, "reason": {"board": 2, "code": 7, "table": 1}}
    MARKUP = '<img src=x onerror="alert(1)"><script>alert(2)</script>'

    def __init__(self):
        self.port = free_port()
        self.process = None

    def start(self):
        self.process = subprocess.Popen(["/usr/bin/python3", __file__, str(self.port)], stdin=subprocess.DEVNULL, stdout=subprocess.DEVNULL)
        until("the hostile server listens", lambda: listens(self.port))

    def stop(self):
        if self.process:
            self.process.terminate()
            self.process.wait()


def hostile_answer(message):
    bad = Hostile.MARKUP
    rows = [[1, 1, 1, "NS1", "EW1"], [1, 2, 2, "NS2", "EW2"], [2, 1, 2, "NS1", "EW3"], [1, 3, 3, bad, bad], [bad] * 5]
    status = {"edition": 2, "embargo": False, "held": [3], "live": [[1, 3], [], []], "marks": ["N none", bad, "S ew"], "movement": rows, "per_set": 1, "phase": bad, "round": 1,
              "names": [[bad, bad], bad, ["n1", bad]], "title": bad, "date": bad, "reasons": [bad], "rounds": 3, "seats": [[bad, "NS1", "N"], ["n1", "NS1", "S"], ['"><b>x</b>', "EW1", bad]], "tables": 3}
    if "hello" in message:
        return {"hello": bad}
    if "do" in message:
        return {"answers": [f"Spoiled({bad})"] * len(message["do"]), "first": 0, "last": 0, "version": 1}
    if "audit" in message:
        return {"audit": [[1, bad, bad, bad]], "version": 1}
    if message.get("since", 0) > 1:
        return {"error": "Behind", "version": 1}
    if message.get("board") == 2:
        return {"version": 1, message["ask"]: Hostile.BOARD_2[message["ask"]]}
    result = {"by": bad, "doubled": 0, "level": bad, "strain": bad, "tricks": bad}
    rows = [{"table": bad, "ns": bad, "ew": bad, "points": bad, "score": bad, "result": result}]
    hand = bad.replace(" ", "/")
    return {"version": 1, message["ask"]: {
        "status": status, "board": {"deal": f"N:{hand}... .A.. ..A. ...A", "dealer": "N", "number": bad, "vul": bad},
        "traveller": {"board": 1, "rows": rows}, "ranking": [[bad, 1, 2]], "accounts": {"inherits": [[bad, bad]], "users": [[bad, [bad]]]},
        "list": {"boards": [1], "more": False}, "analysis": {"board": 1, "tricks": None},
    }.get(message["ask"], bad)}


async def be_hostile(port):
    async def answer(client):
        async for text in client:
            await client.send(json.dumps(hostile_answer(json.loads(text))))
    async with websockets.serve(answer, "127.0.0.1", port):
        await asyncio.Future()


if __name__ == "__main__":
    asyncio.run(be_hostile(int(sys.argv[1])))
