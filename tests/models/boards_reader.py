"""What the text of a session's boards says, by docs/SESSION.md and docs/READINGS.md: its tags, its games, and a deal for each board, or the
first refusal, as the program writes it.

A plain reader beside the program's own, which knows the program by its documents alone.
"""
import re

from refused import Refused

USED = (b"Board", b"Dealer", b"Vulnerable", b"Deal")
RANKS = b"AKQJT98765432"

# ---- the tags, each with the place of its `[`

BLANK_LINE = re.compile(rb"[ \t]*\r?\n")
TAG_NAME = re.compile(rb"\[[ \t\r\n]*([A-Za-z0-9_]+)[ \t\r\n]*\"")
TAG_END = re.compile(rb"[ \t\r\n]*\]")


# where the quotes that were opened before a place are closed
def closing(text, at):
    while at < len(text) and text[at] not in b"\n\"":
        at += 2 if text[at:at + 2] in (b"\\\"", b"\\\\") else 1
    return at if text[at:at + 1] == b'"' else None


def tag_at(text, at):
    name = TAG_NAME.match(text, at)
    quote = name and closing(text, name.end())
    end = TAG_END.match(text, quote + 1) if quote else None
    return end and (end.end(), (at, name[1], text[name.end():quote]))


# after how many bytes what is no tag ends, and whether a line starts there
def skipped(text, at, starting):
    byte = text[at:at + 1]
    if byte == b"{":
        end = text.find(b"}", at)
        return len(text) if end < 0 else end + 1
    if byte == b";" or (byte == b"%" and starting):
        end = text.find(b"\n", at)
        return len(text) if end < 0 else end
    if byte == b'"' and (end := closing(text, at + 1)) is not None:
        return end + 1
    return at + 1


def games_of(text):
    """The games, each a list of tags, and where a `[` begins no tag."""
    games, game, starting = [], [], True
    at = 3 if text.startswith(b"\xef\xbb\xbf") else 0
    while at < len(text):
        if starting and (blank := BLANK_LINE.match(text, at)):
            games.append(game)
            game, at = [], blank.end()
        elif text[at:at + 1] == b"[":
            found = tag_at(text, at)
            if not found:
                return games + [game], at
            at, tag = found
            if tag[1] in USED and any(tag[1] == other[1] for other in game):
                games.append(game)
                game = []
            game, starting = game + [tag], False
        else:
            plain = text[at:at + 1] == b"\n"
            at, starting = skipped(text, at, starting), plain
    return games + [game], None


def values_of(game, before):
    found = {}
    for at, name, value in game:
        if name in USED and name not in found:
            if value == b"#":
                found[name] = (at, before[name][1]) if name in before else None
            else:
                found[name] = (at, re.sub(rb"\\([\"\\])", rb"\1", value))
    return {name: value for name, value in found.items() if value}


# ---- what the tags say of a board

def is_open(value):
    return value in (b"", b"?")


def hands_of(value):
    """The four hands of a Deal's value as they are written, from North on clockwise, or None."""
    parts = [part for part in value.split(b" ") if part]
    if len(parts) != 4 or not re.match(rb"[NESWnesw]:", parts[0]):
        return None
    turn = b"NESW".index(parts[0][:1].upper())
    written = [parts[0][2:], *parts[1:]]
    return [written[(place - turn) % 4] for place in range(4)]


def cards_of(hand):
    suits = hand.upper().split(b".")
    return [(suit, rank) for suit, holding in enumerate(suits) for rank in holding]


def is_form(hand):
    return hand.count(b".") == 3 and all(rank in RANKS for rank in hand.upper().replace(b".", b""))


def deal_of(value):
    hands = hands_of(value)
    if hands is None or not all(map(is_form, hands)):
        return None
    cards = [cards_of(hand) for hand in hands]
    if any(len(hand) != 13 for hand in cards) or len({card for hand in cards for card in hand}) != 52:
        return None
    return [frozenset(hand) for hand in cards]


def is_hidden(value):
    hands = hands_of(value)
    return hands is not None and b"-" in hands and all(hand == b"-" or is_form(hand) for hand in hands)


def board_of(values, boards):
    if b"Deal" not in values or is_open(values[b"Deal"][1]) or b"Board" not in values:
        return None
    number = re.fullmatch(rb"0*([1-9][0-9]{0,2})", values[b"Board"][1])
    return int(number[1]) if number and int(number[1]) <= boards else None


def is_bad_mark(name, value):
    marks = {b"Dealer": (b"n", b"e", b"s", b"w"), b"Vulnerable": (b"none", b"love", b"-", b"ns", b"ew", b"all", b"both")}
    return not is_open(value) and value.lower() not in marks[name]


def faults_of(values, board, first):
    """The faults of a game of a board, or of none, where the board's first game has this deal."""
    for name, (at, value) in values.items():
        if value.startswith(b"##"):
            yield at, "InheritedForm", f"the value of {name.decode()} begins with ##"
        elif board is not None and name in (b"Dealer", b"Vulnerable") and first is None and is_bad_mark(name, value):
            yield at, "BadMark", f"board {board}: {name.decode()} is {value.decode(errors='replace')}"
        elif board is not None and name == b"Deal":
            if is_hidden(value):
                yield at, "HiddenHand", f"board {board}: a hand isn't shown"
            elif deal_of(value) is None:
                yield at, "BadDeal", f"board {board}: the value of Deal is no deal of 52 cards"
            elif first is not None and first != deal_of(value):
                yield at, "DealConflict", f"board {board} stood before, with other cards"


def check_boards(text, boards):
    games, broken = games_of(text)
    faults = [] if broken is None else [(broken, "BadTag", "a `[` begins no tag")]
    known, before = {}, {}
    for game in games:
        if game:
            before = values_of(game, before)
            board = board_of(before, boards)
            faults += faults_of(before, board, known.get(board))
            if board is not None:
                known.setdefault(board, deal_of(before[b"Deal"][1]))
    if faults:
        at, fault, why = min(faults)
        raise Refused(f"{fault}({at})", f"line {text[:at].count(10) + 1} of the PBN text: {why}")
    for board in range(1, boards + 1):
        if board not in known:
            raise Refused(f"MissingBoard({board})", f"no game has a deal of board {board}, of the boards 1 to {boards}")
