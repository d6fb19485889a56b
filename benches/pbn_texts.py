#!/usr/bin/env python3
# Writes a PBN text of so many MiB, of one kind, to standard output:
#
#     benches/pbn_texts.py KIND MEBIBYTES
#
# `deals` is a plain file of deals; each other kind is one that a reader might read more than once, as `deal` and `zeros`, where half
# of the text is one long value and each later game takes it by `#`.
import sys

HANDS = "AKQJT98765432... .AKQJT98765432.. ..AKQJT98765432. ...AKQJT98765432"
GAME = '[Event "club"]\n[Board "%d"]\n[Dealer "N"]\n[Vulnerable "None"]\n[Deal "N:' + HANDS + '"]\n\n'


# the whole games among the first bytes
def whole(games, size):
    return games[: games.rindex("\n\n", 0, size) + 2]


KINDS = {
    "deals": lambda n: whole("".join(GAME % (i % 36 + 1) for i in range(n // 130 + 1)), n),
    "comment": lambda n: "{" + "a" * n,
    "games": lambda n: '[A "1"]\n\n' * (n // 9),
    "braces": lambda n: "{" * n,
    "quotes": lambda n: '"' + '\\"' * (n // 2),
    "backslashes": lambda n: '[A "' + "\\" * n,
    "blanks": lambda n: "[" + " " * n,
    "spaces": lambda n: " " * n,
    "hashes": lambda n: '[Board "#"]\n' * (n // 12),
    "board": lambda n: whole((GAME % 1) * (n // 130), n),
    "deal": lambda n: whole('[Board "1"]\n[Deal "N:' + HANDS + " " * (n // 2) + '"]\n\n' + '[Board "#"]\n[Deal "#"]\n\n' * (n // 48), n),
    "zeros": lambda n: whole('[Board "' + "0" * (n // 2) + '1"]\n[Deal "N:' + HANDS + '"]\n\n' + '[Board "#"]\n[Deal "#"]\n\n' * (n // 48), n),
}
if __name__ == "__main__":
    kind, size = sys.argv[1], int(float(sys.argv[2]) * 1024 * 1024)
    sys.stdout.write(KINDS[kind](size)[:size])
