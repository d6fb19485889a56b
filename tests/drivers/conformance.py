#!/usr/bin/env python3
"""Holds `bridge_server serve` against RFC 6455, case by case, with the bytes of a raw client.

    python3 tests/drivers/conformance.py crates/bridge_server/out/bridge_server [PART ..]

The parts are framing, controls, reserved, fragments, utf8, closes, masks, lengths, segments, handshakes and streams; without a word
all of them are played, in about half a minute. One server with one display has all cases, each on a connection of its own; after each
the next client is served, with nobody signed in. What is wanted comes from RFC 6455 (whose sections stand in brackets),
docs/PROTOCOL.md and docs/RUNNING.md, never from the program. Each part is a line, 'ok' with its number of cases, and each case that
failed is one, with what came. The status is 1 where one failed.
"""
import hashlib
import pathlib
import sys
import time

sys.path[:0] = [str(pathlib.Path(__file__).resolve().parents[1] / folder) for folder in ("runs",)]
from conformance_cases import Played
from conformance_frames import TOKEN, closes, controls, fragments, framing, lengths, masks, reserved, segments, utf8
from conformance_handshakes import handshakes
from conformance_streams import streams
from raw_client import NOTHING_IS_KEPT, SESSION, Ended, Server
from write_stored_runs import user

PROGRAM = sys.argv[1] if len(sys.argv) > 1 else "crates/bridge_server/out/bridge_server"
PARTS = {part.__name__: part for part in
         (framing, controls, reserved, fragments, utf8, closes, masks, lengths, segments, handshakes, streams)}


def main():
    users = [*SESSION["users"], {**user("u", "Spectator"), "digest": hashlib.sha256(TOKEN.encode()).hexdigest()}]
    with Server(PROGRAM, "--displays", 1, "--workers", 0, session={**SESSION, "users": users}) as Played.server:
        for name in sys.argv[2:] or PARTS:
            before, begun, faults = Played.cases, time.monotonic(), len(Played.failed)
            try:
                PARTS[name]()
            except (Ended, OSError, AssertionError) as fault:
                Played.failed.append(name)
                print(f"FAILED  {name}: {fault!r}")
            word = "ok     " if len(Played.failed) == faults else "FAILED "
            print(f"{word} {name}: {Played.cases - before} cases in {time.monotonic() - begun:.1f} s", flush=True)
        if (came := Played.server.stopped()) != (-15, b"", NOTHING_IS_KEPT):
            Played.failed.append("the end")
            print(f"FAILED  the program ran to its end, and wrote nothing: {came}")
    print(f"{len(Played.failed)} of {Played.cases} failed" if Played.failed else f"all {Played.cases} cases are as RFC 6455 has them")
    return 1 if Played.failed else 0


if __name__ == "__main__":
    sys.exit(main())
