"""A script of the stored runs with a judged session beside it."""
import pathlib
import sys

sys.path[:0] = [str(pathlib.Path(__file__).resolve().parents[1] / folder) for folder in ("models",)]
from message_reader import Fault, read_line
from write_query_runs import Run
from write_stored_runs import do, text_of

OK = "ok"


class JudgedRun(Run):
    """A script with a judged session beside it, which says what each message is answered."""

    def do(self, name, *commands_and_answers):
        """A batch: its commands, and as many answers by hand."""
        half = len(commands_and_answers) // 2
        commands, by_hand = list(commands_and_answers[:half]), list(commands_and_answers[half:])
        answers = self.session.batch(name, commands)["answers"]
        assert answers == by_hand, (name, commands, answers, by_hand)
        self.batch(do(name, *commands), *by_hand)

    def says(self, message, by_hand):
        """A message and its answer, both word for word."""
        try:
            answer = self.session.answer(*read_line(message.encode(), self.session.edition))
        except Fault as fault:
            answer = {"error": str(fault)}
        assert text_of(answer) == by_hand, (message, answer, by_hand)
        self.version = self.session.version
        self.given.append(message + "\n")
        self.wanted.append(by_hand + "\n")

    def audit(self, name, rows=None, **wanted):
        """An audit, whose rows stand here by hand; without any it isn't permitted."""
        by_hand = {"error": "NotPermitted"} if rows is None else {"audit": rows, "version": self.version}
        self.says(text_of({"as": name, "audit": wanted}), text_of(by_hand))

    def ask_hands(self, board, **by_hand):
        """What each of these users is answered who asks for the hands of a board."""
        for name, answer in by_hand.items():
            self.ask(name, "board", answer, board=board)

    def ask_everything(self, names, cells):
        for name in names:
            self.ask_all(name, [1, 2, 3], cells)
