#!/usr/bin/env python3
"""Kills a server with a journal at a hundred random moments, starts it again each time, and compares what is there with the plain model.

    /usr/bin/python3 tests/journals/journal_kills.py crates/bridge_server/out/bridge_server [KILLS] [SEED]

It needs Debian's package sqlite3; its sessions and messages are those of tests/drivers/random_session.py. There are ten
evenings, each a session with a journal of its own, in which as many rounds are played as there are kills. In a round the server is
started, four desks send batches over WebSocket and two users ask, until SIGKILL comes; in a fifth of the rounds, by chance, a start is killed too.
Then the journal's rows are read by SQLite, and the model goes on by them. What each round must show:

- No row that was there before is gone or another; each row behind them is a command that was sent, in its sender's name, or the solver's.
- Each batch whose receipt came is there, whole, with the receipt's numbers, as one publication. Of one whose receipt didn't come all that
  the model accepts is there, or nothing.
- Each reply, from the first one after the start, is the model's at the version that it names, byte for byte, and so is each audit and each
  refusal: what was shown before a kill is there after it, and who was shown a board is refused it as before.
- A start that is killed leaves the rows that were there, in a file that is whole; in a hundred rounds one is killed before it says that it serves.
- The server starts, and writes nothing but how it serves; the file is whole to `PRAGMA integrity_check`.

What the clients send comes from the seed; how they fall among one another, and where a kill meets them, doesn't. It takes two minutes or
three. The status is 1 where something isn't so.
"""
import collections
import json
import pathlib
import random
import subprocess
import sys
import tempfile
import threading
import time

sys.path[:0] = [str(pathlib.Path(__file__).resolve().parents[1] / folder) for folder in ("drivers", "runs")]
from compared_talks import compare_batch, compare_version
from journal_files import integrity_of, is_there, publications, rows_of, without_empty_play
from random_session import BOARDS, Sender, SolvedSession, deal_text, pbn_text, session_of, some_hands
from raw_client import Client, Ended, Server, free_port
from write_stored_runs import text_of

PROGRAM = sys.argv[1] if len(sys.argv) > 1 else "crates/bridge_server/out/bridge_server"
KILLS = int(sys.argv[2]) if len(sys.argv) > 2 else 100
SEED = int(sys.argv[3]) if len(sys.argv) > 3 else random.SystemRandom().randrange(2**16)
EVENINGS = 10
DESKS, READERS = ("d", "k", "k2", "a"), ("n1", "*")
LOOKERS = ("d", "n1", "e2", "s", "k", "a")
LONGEST_ROUND, LONGEST_START, LONGEST_BATCH, MOST_ANSWERS = 3, 0.08, 12, 300
# how long a desk waits after each batch, in seconds at most: clubs are slower, and the model has to keep up
PAUSE = 0.06


class Said:
    """All that was said to one process of the server, and by whom."""

    def __init__(self):
        self.answered, self.outstanding, self.faults = [], {}, []

    def say(self, client, sender, message):
        if "do" in message:
            self.outstanding[sender.name] = message
        answer = client.ask(message)
        self.answered.append((sender.name, message, answer))
        if "do" in message:
            del self.outstanding[sender.name]
        sender.hear(json.loads(answer))

    def talk(self, server, sender, turns):
        """A client that greets and takes its turns, until there are no more or the server is gone."""
        try:
            client = Client(server, 20)
            greeting = client.ask({"hello": sender.name, "token": "abc"})
            assert greeting == text_of({"hello": sender.name}), greeting
            for message in turns:
                self.say(client, sender, message)
            client.leave()
        except (Ended, OSError):
            pass
        except Exception as fault:  # in a thread nobody else would hear of it
            self.faults.append(repr(fault))


def batches(sender, gone):
    """What a desk sends: batches, and after each it asks for the status."""
    while True:
        yield {"do": sender.batch_after(gone)}
        yield {"ask": "status"}
        time.sleep(sender.rng.random() * PAUSE)


def queries(sender):
    while True:
        yield sender.query()
        time.sleep(sender.rng.random() * 0.02)


class Desk(Sender):
    """A sender of batches that aren't long, so that there are many moments between them."""

    def batch(self):
        return super().batch()[:LONGEST_BATCH]


class Evening:
    """A session, the file of its journal, and the model of what must be in it."""

    def __init__(self, number, folder):
        self.rng = random.Random(f"{SEED}/{number}")
        self.edition = 1 + number % 2
        self.hands = [some_hands(self.rng) for _ in BOARDS]
        self.model, self.rows = SolvedSession(self.hands, self.edition), []
        self.journal = pathlib.Path(folder, f"{number}.journal")
        self.session, self.deals = session_of(self.edition), pbn_text([deal_text(one) for one in self.hands])
        self.senders = {name: self.sender(name, Desk) for name in DESKS}
        self.counts, self.wrong, self.found = collections.Counter(), collections.defaultdict(list), collections.Counter()

    def sender(self, name, kind=Sender):
        return kind(name, self.hands, self.rng.random(), self.edition)

    def server(self):
        return Server(PROGRAM, "--journal", self.journal, "--displays", 8, "--workers", 1, session=self.session, deals=self.deals)

    # ---- a round

    def round(self, gone):
        if self.rng.random() < 0.2:
            self.kill_a_start()
        said, begun = Said(), time.monotonic()
        with self.server() as server:
            self.counts["longest start"] = max(self.counts["longest start"], round(1000 * (time.monotonic() - begun)))
            self.look_around(server, said)
            threads = [threading.Thread(target=said.talk, args=(server, sender, batches(sender, gone))) for sender in self.senders.values()]
            for name in READERS:
                sender = self.sender(self.rng.choice(["e1", "e2", "s", "d2", "m"]) if name == "*" else name)
                threads.append(threading.Thread(target=said.talk, args=(server, sender, queries(sender))))
            for thread in threads:
                thread.start()
            self.wait_a_while(said)
            assert server.process.poll() is None, "the server ended by itself"
            server.process.kill()
            for thread in threads:
                thread.join()
            assert server.stopped() == (-9, b"", b""), "the server wrote something"
        assert not said.faults, said.faults
        self.take_in(said)

    def wait_a_while(self, said):
        """Until some more was answered, and a little longer; a server that is slow isn't waited for much longer than one that isn't."""
        enough, until = len(said.answered) + self.rng.randrange(MOST_ANSWERS), time.monotonic() + LONGEST_ROUND
        while len(said.answered) < enough and time.monotonic() < until:
            time.sleep(0.002)
        time.sleep(self.rng.random() * PAUSE)

    def kill_a_start(self):
        """Kills a server while it starts, which leaves what was there."""
        with tempfile.TemporaryDirectory() as folder:
            session, deals = pathlib.Path(folder, "session.json"), pathlib.Path(folder, "deals.pbn")
            session.write_text(text_of(self.session))
            deals.write_text(self.deals)
            with subprocess.Popen([PROGRAM, "serve", "--session", session, "--deals", deals, "--journal", self.journal, "--port", str(free_port())],
                                  stdin=subprocess.DEVNULL, stderr=subprocess.PIPE) as process:
                # the cube has every third kill come within three milliseconds, in which a fast machine starts the server, and some late
                time.sleep(self.rng.random() ** 3 * LONGEST_START)
                process.kill()
                told = process.stderr.read()
        assert process.returncode == -9 or b"NotListening" in told, f"a start ended by itself: {told}"
        self.counts["starts killed"] += told == b""
        assert rows_of(self.journal)[:len(self.rows)] == self.rows, "a start that was killed has lost rows"
        assert not is_there(self.journal) or integrity_of(self.journal) == "ok", "a start that was killed has left a file that isn't whole"

    def look_around(self, server, said):
        """What is shown right after the start: the whole audit, and to several users queries of each kind."""
        for name in LOOKERS:
            sender = self.sender(name)
            asked = [{"ask": "status"}, {"ask": "ranking"}, {"ask": "list"}, {"ask": "accounts"}]
            asked += [{"ask": word, "board": board} for word in ("board", "traveller") for board in self.rng.sample(BOARDS, 2)]
            asked += [{"ask": word, "board": board, "table": table} for word in ("play", "costs", "reason")
                      for table, board in [self.rng.choice(sender.cells)[:2]]]
            if name == "d":
                asked = [{"audit": {"from": first, "limit": 1000}} for first in range(1, len(self.rows) + 2, 1000)] + asked
            said.talk(server, sender, asked)
        assert not said.faults, said.faults
        wanted = len(LOOKERS) * 11 + 1 + len(self.rows) // 1000
        assert len(said.answered) == wanted, f"{len(said.answered)} answers right after the start, and not {wanted}"

    # ---- what is left after it

    def take_in(self, said):
        """Lets the model go on by the rows that are new, and compares all that was said with it."""
        rows = rows_of(self.journal)
        assert rows[:len(self.rows)] == self.rows, f"of {len(self.rows)} rows that were there some are gone or others: {len(rows)} are left"
        assert [row.number for row in rows] == list(range(1, len(rows) + 1)), "the numbers of the rows"
        groups = publications(rows)
        assert [group[0].publication for group in groups] == list(range(1, len(groups) + 1)), "the numbers of the publications"
        assert integrity_of(self.journal) == "ok", integrity_of(self.journal)
        receipts, refused, looks = sorted_out(said.answered)
        self.compare_version(refused, looks)
        for group in publications(rows[len(self.rows):]):
            self.enter(group, receipts, said.outstanding)
            self.compare_version(refused, looks)
        assert not receipts, f"a receipt came, and its batch is not in the file: {next(iter(receipts.values()))}"
        strange = [entry for version in [*looks, *refused] for entry in [*looks[version], *refused[version]]]
        assert not strange, f"a version was named that is not in the file, which has {len(rows)} rows: {strange[0]}"
        self.rows = rows

    def compare_version(self, refused, looks):
        version = self.model.version
        compare_version(self.model, refused.pop(version, []), looks.pop(version, []), self.wrong, self.counts)
        for kind in ("batches", "replies"):
            assert not self.wrong[kind], self.wrong[kind][0]

    def enter(self, group, receipts, outstanding):
        """A publication of the file: what the solver found, a batch with its receipt, or one whose receipt didn't come."""
        first, last, user = group[0].number, group[-1].number, group[0].user
        if user is None:
            done = group[0].done
            assert len(group) == 1 and done["cmd"] == "Analysed" and done["deal"] == deal_text(self.hands[done["board"] - 1]), group
            self.model.analyse(done["table"], done["board"])
            self.found["solver"] += 1
        elif first in receipts:
            name, message, answer = receipts.pop(first)
            assert (name, json.loads(answer)["last"]) == (user, last), ("another batch has a receipt's numbers", answer, group)
            compare_batch(self.model, name, message, answer, self.wrong, self.counts)
            self.compare_rows(group, message["do"], json.loads(answer)["answers"])
        else:
            message = outstanding.pop(user, None)
            assert message, ("nobody sent this, or more than once", group)
            self.compare_rows(group, message["do"], self.model.answer(user, message)["answers"])
            self.found["without its receipt"] += 1
        noted = [[row.number, row.user, row.done["cmd"]] for row in group]
        assert self.model.journal[first - 1:last] and [one[:3] for one in self.model.journal[first - 1:]] == noted, (noted, "isn't the model's")

    def compare_rows(self, group, commands, answers):
        accepted = [without_empty_play(command) for command, answer in zip(commands, answers) if answer == "ok"]
        assert [row.done for row in group] == accepted, ("the rows aren't the commands", group, accepted)
        self.counts["spoiled"] += sum(answer.startswith("Spoiled") for answer in answers)

    def tell(self, number, rounds):
        counts, found = self.counts, self.found
        print(f"ok      evening {number}: {rounds} kills, {counts['starts killed']} besides before a start had said that it serves; {len(self.rows)} rows, {found['solver']} of them by "
              f"the solver; {counts['batches']} batches, {found['without its receipt']} more without their receipts; {counts['replies']} replies; "
              f"the slowest start {counts['longest start']} ms", flush=True)


def sorted_out(answered):
    """Receipts by their first numbers; by versions batches of which nothing was accepted, and all that was asked."""
    receipts, refused, looks = {}, collections.defaultdict(list), collections.defaultdict(list)
    for name, message, answer in answered:
        heard = json.loads(answer)
        assert heard.get("error") not in ("NotKept", "Unsure", "OutOfMemory", "NoEntry"), (name, message, answer)
        if "do" in message and heard["last"]:
            receipts[heard["first"]] = name, message, answer
        elif "do" in message:
            refused[heard["version"]].append((name, message, answer))
        elif "version" in heard:
            looks[heard["version"]].append((name, message, answer))
    return receipts, refused, looks


def main():
    print(f"        seed {SEED}, {KILLS} kills in {EVENINGS} evenings", flush=True)
    begun, spoiled, starts = time.monotonic(), 0, 0
    with tempfile.TemporaryDirectory() as folder:
        for number in range(EVENINGS):
            rounds = KILLS // EVENINGS + (number < KILLS % EVENINGS)
            evening = Evening(number, folder)
            for played in range(rounds):
                try:
                    evening.round(played / rounds)
                except AssertionError as fault:
                    raise SystemExit(f"FAILED  evening {number}, kill {played + 1}: {fault}") from None
            spoiled += evening.counts["spoiled"]
            starts += evening.counts["starts killed"]
            evening.tell(number, rounds)
    assert KILLS < 100 or spoiled, "nobody was refused a board that he was shown: the sessions are too tame"
    assert KILLS < 100 or starts, "no start was killed before it said that it serves"
    print(f"all is as it should be: {spoiled} results were refused to those who were shown the board; {time.monotonic() - begun:.0f} s")


if __name__ == "__main__":
    main()
