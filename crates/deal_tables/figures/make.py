#!/usr/bin/env python3
"""Writes random deals, or with the word `special` deals of five special kinds, with the word `endings` random endings of 2 to 8
cards a hand with up to three cards on the table, or with the word `plays` random plays of 1 to 52 cards, a line each, for DDS
and for `deal_tables`: make.py NUMBER SEED, make.py special NUMBER SEED (NUMBER of each kind), make.py endings NUMBER SEED
(NUMBER of each size), or make.py plays NUMBER SEED."""
import random
import sys

RANKS = "AKQJT98765432"
SUITS = "SHDC"
PLACES = "NESW"


def text(hand):
    """A hand as PBN writes it."""
    return ".".join("".join(r for r in RANKS if (s, r) in hand) for s in SUITS)


def pack():
    """A shuffled pack."""
    cards = [(s, r) for s in SUITS for r in RANKS]
    random.shuffle(cards)
    return cards


def write_deal(hands):
    """A deal's line."""
    print("N:" + " ".join(text(hand) for hand in hands))


def deals(number):
    """So many deals."""
    for _ in range(number):
        cards = pack()
        write_deal([set(cards[13 * i:13 * i + 13]) for i in range(4)])


def fill(hands, cards):
    """Deals the cards to the players whose hands are short of thirteen, in turn."""
    player = 0
    for card in cards:
        while len(hands[player % 4]) == 13:
            player += 1
        hands[player % 4].add(card)
        player += 1
    return hands


def long_suit():
    """One player has ten to thirteen cards of a suit."""
    cards = pack()
    suit = random.choice(SUITS)
    long = [c for c in cards if c[0] == suit][:random.randint(10, 13)]
    hands = [set() for _ in range(4)]
    hands[random.randrange(4)] |= set(long)
    return fill(hands, [c for c in cards if c not in long])


def voids():
    """Each player is void in a suit of his own."""
    without = random.sample(SUITS, 4)
    while True:
        hands = [set() for _ in range(4)]
        for card in pack():
            able = [h for h, suit in zip(hands, without) if card[0] != suit and len(h) < 13]
            if not able:
                break
            random.choice(able).add(card)
        else:
            return hands


def by_runs(least, most):
    """The pack in order goes round in runs of so many cards."""
    cards = [(s, r) for s in SUITS for r in RANKS]
    hands = [set() for _ in range(4)]
    while cards:
        hand = random.choice([h for h in hands if len(h) < 13])
        for _ in range(min(random.randint(least, most), 13 - len(hand))):
            if cards:
                hand.add(cards.pop(0))
    return hands


def honours_apart():
    """One side has most of the honours, the other the small cards."""
    cards = pack()
    cards.sort(key=lambda c: RANKS.index(c[1]) + random.uniform(0, 4))
    strong, weak = cards[:26], cards[26:]
    random.shuffle(strong)
    random.shuffle(weak)
    return [set(strong[:13]), set(weak[:13]), set(strong[13:]), set(weak[13:])]


def special(number):
    """So many deals of each kind: a long suit, voids, all cards in runs, no two touching cards often, honours on one side."""
    for _ in range(number):
        write_deal(long_suit())
        write_deal(voids())
        write_deal(by_runs(3, 6))
        write_deal(by_runs(1, 1))
        write_deal(honours_apart())


def ending(size, strain, played):
    """An ending of so many cards a hand, of which so many are on the table."""
    cards = pack()
    hands = [set(cards[size * i:size * i + size]) for i in range(4)]
    leader = random.randrange(4)
    table = []
    for i in range(played):
        hand = hands[(leader + i) % 4]
        follows = [c for c in hand if table and c[0] == table[0][0]]
        card = random.choice(sorted(follows or hand))
        hand.discard(card)
        table.append(card)
    print("N:" + " ".join(text(h) for h in hands), strain, PLACES[leader], ",".join(s + r for s, r in table) or "-")


def endings(number):
    """So many endings of each size."""
    for size in range(2, 9):
        for k in range(number):
            ending(size, "SHDCN"[k % 5], k % 4)


def winner(trick, trump):
    """Who won a trick: the player of its highest trump, or else of its highest card of the suit led."""
    strength = {player: (card[0] == trump, card[0] == trick[0][1][0], -RANKS.index(card[1])) for player, card in trick}
    return max(strength, key=strength.get)


def play(strain, declarer, number):
    """A deal, and so many cards of it that were played as the rules allow."""
    cards = pack()
    hands = [set(cards[13 * i:13 * i + 13]) for i in range(4)]
    deal = " ".join(text(hand) for hand in hands)
    turn, trick, played = (declarer + 1) % 4, [], []
    while len(played) < number:
        follows = [c for c in hands[turn] if trick and c[0] == trick[0][1][0]]
        card = random.choice(sorted(follows or hands[turn]))
        hands[turn].discard(card)
        played.append(card)
        trick.append((turn, card))
        turn = (turn + 1) % 4
        if len(trick) == 4:
            turn, trick = winner(trick, strain), []
    print("costs N:" + deal, strain, PLACES[declarer], ",".join(s + r for s, r in played))


def plays(number):
    """So many plays: each fourth of all the cards."""
    for k in range(number):
        play("SHDCN"[k % 5], random.randrange(4), 52 if k % 4 == 0 else random.randint(1, 51))


if sys.argv[1] == "endings":
    random.seed(int(sys.argv[3]))
    endings(int(sys.argv[2]))
elif sys.argv[1] == "special":
    random.seed(int(sys.argv[3]))
    special(int(sys.argv[2]))
elif sys.argv[1] == "plays":
    random.seed(int(sys.argv[3]))
    plays(int(sys.argv[2]))
else:
    random.seed(int(sys.argv[2]))
    deals(int(sys.argv[1]))
