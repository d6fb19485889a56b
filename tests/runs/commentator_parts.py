"""Parts of tests/runs/write_edition_runs.py: a commentator who plays, and one who loses and gains roles."""
from account_commands import EMBARGO, assign, deassign, disinherit, inherit, seat, unseat
from judged_run import OK
from second_edition import BOARD_1, BOARD_2, BOARD_3, NEITHER, NO_MEMBER, second_edition
from write_query_runs import ACCOUNTS_0, NEXT, NOTHING_EARNED, R420_ROW, played, void
from write_stored_runs import FOUR_SPADES, confirm, enter


def write_commentator_who_plays():
    run = second_edition()
    run.says('{"as":"a","do":[{"cmd":"Assign","name":"c","role":"Contestant"}]}', '{"answers":["Separation(S4)"],"first":0,"last":0,"version":0}')
    run.do("a", deassign("c", "Commentator"), OK)
    run.do("a", assign("c", "Contestant"), OK)
    run.do("d", seat("c", "NS3", "N"), OK)
    run.says('{"as":"k","do":[{"board":3,"cmd":"Enter","result":{"by":"N","doubled":0,"level":4,"strain":"S","tricks":10},"table":3}]}',
             '{"answers":["Spoiled(c)"],"first":0,"last":0,"version":3}')
    # who commented on the session is denied what his pair has still to play, and spoils every board of his
    run.ask_hands(3, c=(6, 3), d=BOARD_3)
    run.do("d", NEXT, OK)
    run.do("k", enter(3, 3, FOUR_SPADES), confirm(3, 1, FOUR_SPADES), enter(3, 1, FOUR_SPADES), "Spoiled(c)", "NothingEntered", "Spoiled(c)")
    run.do("a", deassign("c", "Contestant"), assign("c", "Commentator"), "StillSeated", "Separation(S4)")
    run.do("d", unseat("c"), OK)
    run.do("k", *played(3, 3, FOUR_SPADES), OK, OK)
    run.do("a", deassign("c", "Contestant"), assign("c", "Commentator"), OK, OK)
    run.ask_hands(1, c=BOARD_1)
    run.write("a commentator who plays")


def write_changed_commentator():
    run = second_edition()
    run.do("k", *played(1, 1, FOUR_SPADES), OK, OK)
    # by the user's own roles
    run.do("a", deassign("c", "Commentator"), OK)
    run.ask_hands(2, c=NO_MEMBER)
    run.do("a", deassign("c", "Commentator"), assign("c", "Member"), "NotAssigned", OK)
    run.ask_hands(2, c=NEITHER)
    run.do("a", assign("c", "Spectator"), OK)
    run.ask_hands(2, c=(9, 1))
    run.do("a", assign("c", "Commentator"), assign("c", "Commentator"), OK, "AlreadyAssigned")
    run.ask_hands(2, c=BOARD_2)
    run.do("a", deassign("c", "Spectator"), deassign("c", "Member"), OK, OK)
    run.ask_hands(2, c=BOARD_2, s=(9, 1))
    # by the inheritance: without a spectator's role a commentator is shown nothing, without a member's not even what is public
    run.do("a", disinherit("Commentator", "Spectator"), disinherit("Commentator", "Spectator"), OK, "NotThere")
    run.ask_hands(2, c=NO_MEMBER)
    run.ask("c", "status", NO_MEMBER)
    run.do("a", inherit("Commentator", "Member"), OK)
    for board in (1, 2):
        run.ask_hands(board, c=NEITHER)
    run.ask("c", "list", {"boards": [], "more": False})
    run.ask("c", "ranking", NOTHING_EARNED)
    run.do("a", assign("c", "Spectator"), OK)
    run.ask_hands(2, c=BOARD_2)
    run.do("a", deassign("c", "Spectator"), inherit("Commentator", "Spectator"), inherit("Commentator", "Spectator"), OK, OK, "AlreadyThere")
    run.ask_hands(2, c=BOARD_2)
    # all spectators as commentators, and then all scorers: who was shown what plays it no more
    run.do("a", inherit("Spectator", "Commentator"), inherit("Commentator", "Commentator"), "Cycle", "Cycle")
    run.do("a", disinherit("Commentator", "Spectator"), inherit("Spectator", "Commentator"), OK, OK)
    run.ask_hands(2, c=NEITHER, s=BOARD_2, d=BOARD_2, k=NEITHER, n1=(6, 1))
    run.ask("s", "traveller", {"board": 1, "rows": [R420_ROW]}, board=1)
    run.ask("s", "analysis", {"board": 2, "tricks": None}, board=2)
    run.do("a", disinherit("Spectator", "Commentator"), inherit("Commentator", "Spectator"), inherit("Scorer", "Commentator"), OK, OK, OK)
    run.ask_hands(2, c=BOARD_2, s=(9, 1), k=BOARD_2, n1=(6, 1))
    run.ask("k", "list", {"boards": [1, 2, 3], "more": False})
    run.do("a", disinherit("Scorer", "Commentator"), OK)
    run.ask_hands(2, k=NEITHER)
    # nobody is authorized for both roles of the fourth set, by whatever way; where several sets are broken, the first is named
    run.do("a", assign("n1", "Commentator"), inherit("Contestant", "Commentator"), inherit("Commentator", "Contestant"), assign("zz", "Commentator"),
           "Separation(S4)", "Separation(S4)", "Separation(S4)", "NoSuchUser")
    run.do("a", inherit("Director", "Contestant"), inherit("Scorer", "Contestant"), inherit("Spectator", "Contestant"),
           "Separation(S1)", "Separation(S1)", "Separation(S1)")
    run.do("a", deassign("c", "Commentator"), inherit("Commentator", "Contestant"), OK, OK)
    run.do("a", assign("c", "Commentator"), assign("s", "Contestant"), "Separation(S4)", OK)
    run.do("a", disinherit("Commentator", "Contestant"), assign("c", "Commentator"), assign("s", "Commentator"), OK, OK, "Separation(S4)")
    # with other roles: a scorer, a director and an administrator may comment too
    run.do("a", assign("k", "Commentator"), assign("a", "Commentator"), assign("d2", "Commentator"), OK, OK, OK)
    run.ask_hands(2, k=BOARD_2, a=BOARD_2, d2=BOARD_2)
    run.do("a", deassign("d2", "Director"), OK)
    run.ask_hands(2, d2=BOARD_2)
    run.ask("d2", "play", (11, 1), table=1, board=1)
    run.do("d2", EMBARGO, "NotPermitted")
    run.ask("d", "accounts", {"inherits": [*ACCOUNTS_0["inherits"], ["Commentator", "Member"], ["Commentator", "Spectator"]],
                              "users": [["a", ["Administrator", "Commentator"]], ["d", ["Director"]], ["d2", ["Commentator"]], ["k", ["Scorer", "Commentator"]],
                                        ["s", ["Spectator", "Contestant"]], ["n1", ["Contestant"]], ["n2", ["Contestant"]], ["c", ["Commentator"]]]})
    # s was a commentator for a while, and was shown board 1
    run.do("d", void(1, 1), unseat("n1"), seat("s", "NS1", "N"), OK, OK, OK)
    run.do("k", enter(1, 1, FOUR_SPADES), "Spoiled(s)")
    run.audit("d", [[3, "a", "Deassign", "c:Commentator"], [4, "a", "Assign", "c:Member"], [5, "a", "Assign", "c:Spectator"],
                    [6, "a", "Assign", "c:Commentator"]], **{"from": 3, "limit": 4})
    run.audit("a", [[9, "a", "DeleteInheritance", "Commentator>Spectator"], [10, "a", "AddInheritance", "Commentator>Member"]], **{"from": 9, "limit": 2})
    run.write("a commentator's roles")
