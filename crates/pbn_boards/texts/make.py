#!/usr/bin/env python3
"""Writes the stored run of `pbn_boards`: the texts of `../data`, the words of `../args` that name each, and in `../stdout` what must be
answered. What a row wants was worked out by the PBN standard and the reader's profile of it, or is what the text's own tags say; none of it
comes from the program. README.md says which texts other programs wrote."""
import pathlib
import re

here = pathlib.Path(__file__).resolve().parent
crate = here.parent
data = crate / "data"

# North has the spades, East the hearts, South the diamonds and West the clubs.
SUITS = "N:AKQJT98765432... .AKQJT98765432.. ..AKQJT98765432. ...AKQJT98765432"
# The same deal from West on.
FROM_WEST = "W:...akqjt98765432 AKQJT98765432... .AKQJT98765432.. ..AKQJT98765432."
# The same hands a place further: another deal.
EAST_HAS_SPADES = "E:AKQJT98765432... .AKQJT98765432.. ..AKQJT98765432. ...AKQJT98765432"
# Without the two of spades.
OF_51_CARDS = "N:AKQJT9876543... .AKQJT98765432.. ..AKQJT98765432. ...AKQJT98765432"
DEAL = f'[Deal "{SUITS}"]'

# Law 2: who deals, and who is vulnerable, on boards 1 to 16.
DEALERS = "NESW"
VULNERABLE = "none ns ew both ns ew both none ew both none ns both none ns ew".split()


def line(board, deal=SUITS, dealer=None, vulnerable=None):
    """What is written of a board: its marks are those of Law 2, where none are given."""
    dealer = dealer or DEALERS[(board - 1) % 4]
    vulnerable = vulnerable or VULNERABLE[(board - 1) % 16]
    return f"{board} {dealer} {vulnerable} {deal}\n"


rows = []


def row(name, text, wanted, boards=1):
    """A text that is read, and what must be answered: a fault's name, or the lines of its boards."""
    path = data / f"{name}.pbn"
    text = text if isinstance(text, bytes) else text.encode()
    assert not path.exists() or path.read_bytes() == text, name
    path.write_bytes(text)
    again(name, wanted, boards)


def again(name, wanted, boards):
    """A text that stands there already, read for so many boards."""
    rows.append((boards, f"{name}.pbn", wanted))


def reads(name, text, dealer="N", vulnerable="none"):
    """A text whose board 1 has the suits, with these marks."""
    row(name, text, [line(1, SUITS, dealer, vulnerable)])


def boards_text(count):
    """So many boards with the same deal."""
    return "".join(f'[Board "{board}"]\n{DEAL}\n\n' for board in range(1, count + 1))


for old in data.glob("*.pbn"):
    if old.name not in ("dealer.pbn", "deal.pbn"):
        old.unlink()

# A text with pieces of each kind, two games of a board and an ignored one; the same on standard input; and such texts, cut.
ACCEPTED = f"""{{ note [ here }}
% escape [
[Board "1"]
[Deal "{FROM_WEST}"]
[Play "E"]
HA D2 C2 S2
*

[Board "1"]
{DEAL}

[Board "9"]
[Deal "N:- - - -"]
"""
reads("accepted", ACCEPTED)
(crate / "stdin").write_text(ACCEPTED)
rows.append((1, "-", [line(1)]))
row("cut_in_a_comment", ACCEPTED[:10], "MissingBoard(1)")
row("cut_in_an_escape_line", ACCEPTED[:20], "MissingBoard(1)")
row("cut_after_a_bracket", ACCEPTED[:ACCEPTED.index("[Board") + 1], "BadTag(27)")
row("cut_after_a_tag_name", ACCEPTED[:ACCEPTED.index("[Board") + 6], "BadTag(27)")
row("cut_before_a_value", ACCEPTED[:ACCEPTED.index('"1"')], "BadTag(27)")
row("cut_in_a_value", '[Board "1', "BadTag(0)")
row("cut_in_a_deal", '[Board "1"]\n[Deal "N:', "BadTag(12)")
row("cut_before_a_closing_bracket", ACCEPTED[:ACCEPTED.index("]\n[Play")], "BadTag(39)")
reads("cut_after_a_tag", ACCEPTED[:ACCEPTED.index("\n[Play")])
row("cut_in_an_ignored_game", ACCEPTED[:-3], "BadTag(248)")

# Marks in either case, open ones, inherited ones, and the bytes that say that a text is UTF-8.
reads("marks_in_either_case", f'[Board "1"]{DEAL}[Dealer "e"][Vulnerable "aLL"]', "E", "both")
reads("open_marks", '[Board "01"][Dealer ""][Vulnerable "?"][Deal "  n:akqjt98765432...   .AKQJT98765432..  ..AKQJT98765432. ...AKQJT98765432 "]')
reads("love_all", f'[Board "1"][Dealer "W"][Vulnerable "Love"]{DEAL}', "W")
reads("inherited_marks", f'[Dealer "S"]\n\n[Board "1"][Dealer "#"][Vulnerable "#"]{DEAL}', "S")
reads("byte_order_mark", b"\xef\xbb\xbf" + b'[Board "1"]\r\n[Vulnerable "-"]\r\n[Deal "S:..AKQJT98765432. ...AKQJT98765432 AKQJT98765432... .AKQJT98765432.."]\r\n')

# Values of ignored games, and none past a game that hasn't the tag.
reads("dealer_of_an_ignored_game", f'[Board "9"][Dealer "W"]\n\n[Board "1"][Dealer "#"]{DEAL}', "W")
reads("board_and_mark_of_an_open_game", f'[Board "1"][Deal "?"][Vulnerable "EW"]\n\n[Board "#"][Vulnerable "#"]{DEAL}', "N", "ew")
reads("deal_of_an_ignored_game", f'[Board "9"]{DEAL}\n\n[Board "1"][Deal "#"]')
reads("no_value_past_a_game", f'[Dealer "S"]\n\n[Event "club"]\n\n[Board "1"][Dealer "#"]{DEAL}')
reads("marks_of_a_second_game", f'[Board "1"]{DEAL}\n\n[Board "1"][Dealer "X"][Vulnerable "Some"]{DEAL}')

# As many boards as are asked for, up to as many as a byte counts.
row("255_boards", boards_text(255), [], 0)
for count in (1, 64, 128, 254, 255):
    again("255_boards", [line(board) for board in range(1, count + 1)], count)
row("254_boards", boards_text(254), "MissingBoard(255)", 255)
row("board_257", f'[Board "257"]\n{DEAL}\n', "MissingBoard(1)")

# How a text is cut into tags, comments, quoted texts and lines.
reads("tag_over_lines", f'[\r\n Board\t"1" ]rest[Event "a\\"b\\\\" ]{DEAL}')
reads("escaped_quotes", f'[Event "the \\"club\\" game"]\n[Board "1"]{DEAL}')
reads("tag_in_a_comment", f'{{ [Board "2"] [Dealer 1] }}[Board "1"]{DEAL}')
row("brace_in_a_comment", "{ a { b } [Board 1] }", "BadTag(10)")
row("open_comment", '{ [Board "1"]', "MissingBoard(1)")
reads("line_comment", f'; a {{ [Board 1]\n[Board "1"]{DEAL}')
row("escape_line", "%[Board 1", "MissingBoard(1)")
reads("percent_within_a_line", f'[Board "1"] % {DEAL}')
row("tag_in_quotes", '"[Board 1"', "MissingBoard(1)")
row("open_quote", '"[Board 1', "BadTag(1)")
row("quote_over_a_line", '"a\n[Board 1]"', "BadTag(3)")
reads("blank_line_with_blanks", f'[Dealer "S"]\n \t\n[Board "1"][Dealer "#"]{DEAL}', "S")
reads("blank_line_with_cr", f'[Dealer "S"]\r\n\r\n[Board "1"][Dealer "#"]{DEAL}', "S")

# The first fault, by the offset of its `[`.
row("hidden_hands", '[Board "1"]\n[Deal "N:AKQJT98765432... - - -"]\n', "HiddenHand(12)")
row("51_cards", f'[Board "1"]\n[Deal "{OF_51_CARDS}"]\n', "BadDeal(12)")
row("another_deal_of_a_board", f'[Board "1"]\n{DEAL}\n\n[Board "1"]\n[Deal "{EAST_HAS_SPADES}"]\n', "DealConflict(104)")
row("unknown_vulnerability", f'[Board "1"]\n[Vulnerable "Some"]\n{DEAL}\n', "BadMark(12)")
row("double_hash", '[Board "##1"]\n', "InheritedForm(0)")
row("no_quotes", "[Board 1]\n", "BadTag(0)")
row("no_quotes_after_a_byte_order_mark", b"\xef\xbb\xbf[Board 1]", "BadTag(3)")
row("empty", "", "MissingBoard(1)")
row("blank_after_the_colon", f'[Board "1"][Deal "N: {SUITS[2:]}"]', "BadDeal(11)")
row("question_mark_between_blanks", '[Board "1"][Deal " ? "]', "BadDeal(11)")
row("open_deal", '[Board "1"][Deal "?"]', "MissingBoard(1)")
row("bad_mark_before_a_double_hash", '[Board "1"][Dealer "X"][Deal "##"]', "BadMark(11)")
again("no_quotes", "BadTag(0)", 2)
again("another_deal_of_a_board", "DealConflict(104)", 2)
row("one_board", f'[Board "1"]\n{DEAL}\n', "MissingBoard(2)", 2)
again("empty", "MissingBoard(1)", 2)

# A deal is written from any player on, the cards of a suit in any order and in either case, and printed from North on, each
# suit from the ace down.
FROM_ANY = (
    ("E:.AKQJT98765432.. ..AKQJT98765432. ...AKQJT98765432 AKQJT98765432...", SUITS),
    ("W:...23456789tjqka akqjt98765432... .AKQJT98765432.. ..AKQJT98765432.", SUITS),
    ("E:.63.AKQ987.A9732 A8654.KQ5.T.QJT6 J973.J98742.3.K4 KQT2.AT.J6542.85",
     "N:KQT2.AT.J6542.85 .63.AKQ987.A9732 A8654.KQ5.T.QJT6 J973.J98742.3.K4"),
    ("N:QAK.tJ.56789.324 jt98765432.qka.. .98765432.tjqka. ..243.56789tjqka",
     "N:AKQ.JT.98765.432 JT98765432.AKQ.. .98765432.AKQJT. ..432.AKQJT98765"),
)
row("deals_from_any_player", "".join(f'[Board "{board}"]\n[Deal "{text}"]\n\n' for board, (text, _) in enumerate(FROM_ANY, 1)),
    [line(board, wanted) for board, (_, wanted) in enumerate(FROM_ANY, 1)], 4)
row("14_and_12_cards", '[Board "1"]\n[Deal "N:AKQJT98765432.2.. .AKQJT9876543.. ..AKQJT98765432. ...AKQJT98765432"]\n', "BadDeal(12)")
row("a_suit_twice", '[Board "1"]\n[Deal "N:AKQJT98765432... AKQJT98765432... ..AKQJT98765432. ...AKQJT98765432"]\n', "BadDeal(12)")

# What other programs wrote: `deal` numbers no board, so its text is also read with a number before each deal.
dealer = (data / "dealer.pbn").read_text()
WORDS = {"None": "none", "NS": "ns", "EW": "ew", "All": "both"}
tags = zip(*(re.findall(rf'\[{tag} "(.*)"\]', dealer) for tag in ("Board", "Deal", "Dealer", "Vulnerable")))
again("dealer", [line(int(board), deal, place, WORDS[word]) for board, deal, place, word in tags], 3)
deal = (data / "deal.pbn").read_text()
again("deal", "MissingBoard(1)", 3)
count = iter(range(1, 4))
numbered = re.sub(r"^\[Deal", lambda tag: f'[Board "{next(count)}"]\n[Deal', deal, flags=re.M)
row("deal_numbered", numbered, [line(board, text) for board, text in enumerate(re.findall(r'\[Deal "(.*)"\]', deal), 1)], 3)

(crate / "args").write_text("".join(f"{boards}\n{name}\n" for boards, name, _ in rows))
(crate / "stdout").write_text(
    "".join(f"{name}: {wanted}\n" if isinstance(wanted, str) else f"{name}:\n" + "".join(wanted) for _, name, wanted in rows)
)
# Some text has a fault, and each can be read.
(crate / "status").write_text("1\n")
