#!/usr/bin/env python3
"""Compares what a script of this folder was answered with the answers beside it, and says in words what was seen.

    examples/say_answers.py SCRIPT ANSWERS         # SCRIPT as examples/one_board.script, ANSWERS what the program wrote
    examples/say_answers.py SCRIPT --by PROGRAM    # the same, and PROGRAM, a built bridge_server, is asked first

The status is 1 where a line differs.
"""
import json
import pathlib
import subprocess
import sys


def say(message, answer):
    if "do" in message:
        what = f"{len(message['do'])} command{'s' if len(message['do']) > 1 else ''}, {message['do'][0]['cmd']} first"
        refused = [why for why in answer["answers"] if why != "ok"]
        came = f"refused ({', '.join(refused)})" if refused else f"accepted, so the version is {answer['version']}"
    else:
        asked = [] if message["ask"] == "board" else [f"the {message['ask']}"]
        about = [f"board {message['board']}"] if "board" in message else []
        what = f"asks for {' of '.join(asked + about)}"
        if "denied" in answer:
            came = f"denied by rule {answer['denied']['rule']}: {answer['denied']['why']}"
        elif "traveller" in answer:
            came = f"shown, with {len(answer['traveller']['rows'])} of its results"
        elif "ranking" in answer:
            came = f"shown, and {answer['ranking'][0][0]} leads {len(answer['ranking'])} pairs"
        elif "error" in answer:
            came = "refused: " + answer["error"]
        else:
            came = "shown"
    return f"{message['as']:>6}  {what:<34} {came}"


def answers(script, words):
    if words[0] != "--by":
        return pathlib.Path(words[0]).read_text(encoding="utf-8")
    with script.open(encoding="utf-8") as messages:
        return subprocess.run([words[1], "script"], stdin=messages, stdout=subprocess.PIPE, text=True, check=True).stdout


def main():
    script = pathlib.Path(sys.argv[1])
    messages = script.read_text(encoding="utf-8").splitlines()[1:]
    wanted = script.with_suffix(".answers").read_text(encoding="utf-8").splitlines()
    got = answers(script, sys.argv[2:]).splitlines()
    for number, (message, want) in enumerate(zip(messages, wanted)):
        if number >= len(got) or got[number] != want:
            came = got[number] if number < len(got) else "nothing"
            print(f"message {number + 1} was not answered as promised.\n  wanted {want}\n  got    {came}")
            return 1
        print(say(json.loads(message), json.loads(want)))
    if len(got) != len(wanted):
        print(f"{len(got) - len(wanted)} lines too many")
        return 1
    denied = sum("denied" in json.loads(line) for line in wanted)
    were = f"{denied} was denied" if denied == 1 else f"{denied} were denied, each"
    print(f"{len(wanted)} messages, each answered as promised; {were} by the first rule that forbids.")
    return 0


if __name__ == "__main__":
    sys.exit(main())
