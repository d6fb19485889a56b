"""Parts of tests/runs/write_edition_runs.py: an embargo, and every query to every role before, under and after one."""
from account_commands import EMBARGO, LIFT, add, assign, seat, unseat
from judged_run import OK
from second_edition import (ALL_ROLES, BOARD_1, BOARD_2, BOARD_3, HELD, NEITHER, NO_ACCOUNT, NO_MEMBER, NOT_DIRECTORS, ROLES_MORE, UNDER_EMBARGO,
                            second_edition)
from write_query_runs import ABOUT_ALL, ABOUT_BOARDS, ABOUT_TABLES, CLOSE, FINALISE, NEXT, NOTHING_EARNED, STATUS_0, hold, played, release, rule
from write_stored_runs import FOUR_SPADES, confirm, enter


def write_embargo():
    run = second_edition()
    run.says('{"as":"d","do":[{"cmd":"Embargo"}]}', '{"answers":["ok"],"first":1,"last":1,"version":1}')
    for name in ("c", "n1"):
        run.says('{"as":"%s","ask":"board","board":1}' % name,
                 '{"denied":{"board":1,"rule":4,"table":0,"why":"the session is under embargo"},"version":1}')
    run.says('{"as":"c","ask":"list"}', '{"list":{"boards":[],"more":false},"version":1}')
    run.says('{"as":"d","ask":"board","board":1}',
             '{"board":{"deal":"N:AKQJT98765432... .AKQJT98765432.. ..AKQJT98765432. ...AKQJT98765432","dealer":"N","number":1,"vul":"none"},"version":1}')
    run.says('{"as":"d","do":[{"cmd":"Embargo"}]}', '{"answers":["AlreadyEmbargoed"],"first":0,"last":0,"version":1}')
    run.says('{"as":"d","do":[{"board":1,"cmd":"Hold"}]}', '{"answers":["ok"],"first":2,"last":2,"version":2}')
    run.says('{"as":"c","ask":"board","board":1}',
             '{"denied":{"board":1,"rule":4,"table":0,"why":"the session is under embargo"},"version":2}')
    run.says('{"as":"d","do":[{"cmd":"Lift"}]}', '{"answers":["ok"],"first":3,"last":3,"version":3}')
    run.says('{"as":"c","ask":"board","board":1}', '{"denied":{"board":1,"rule":5,"table":0,"why":"the board is held"},"version":3}')
    run.says('{"as":"d","do":[{"cmd":"Lift"}]}', '{"answers":["NotEmbargoed"],"first":0,"last":0,"version":3}')
    run.says('{"as":"k","do":[{"cmd":"Embargo"}]}', '{"answers":["NotPermitted"],"first":0,"last":0,"version":3}')
    # nobody but a director may embargo and lift, and of one batch each is tried in its turn
    for name in ("a", "k", "s", "n1", "c", "zz"):
        run.do(name, EMBARGO, LIFT, "NotPermitted", "NotPermitted")
    run.do("d2", LIFT, EMBARGO, EMBARGO, LIFT, LIFT, EMBARGO, "NotEmbargoed", OK, "AlreadyEmbargoed", OK, "NotEmbargoed", OK)
    # every command of the desk is taken as without an embargo
    run.do("k", enter(1, 1, FOUR_SPADES), confirm(1, 1, "pass"), confirm(1, 1, FOUR_SPADES), OK, "Mismatch", OK)
    run.do("d", rule(3, 3, 60, 40, 7), hold(1), release(1), release(1), unseat("n2"), seat("n2", "NS2", "N"), NEXT, OK, "AlreadyHeld", OK, "NotHeld", OK, OK, OK)
    run.do("a", add("v"), assign("v", "Spectator"), OK, OK)
    run.ask("v", "list", {"boards": [], "more": False})
    run.ask("v", "status", {"edition": 2, "embargo": True, **STATUS_0, "live": [[1], [], [3]], "round": 2})
    # what an audit tells of it
    run.audit("a", [[1, "d", "Embargo", ""], [2, "d", "Hold", "1"], [3, "d", "Lift", ""], [4, "d2", "Embargo", ""], [5, "d2", "Lift", ""]],
              **{"from": 1, "limit": 5})
    run.audit("d", [[6, "d2", "Embargo", ""], [7, "k", "Enter", "1/1"]], **{"from": 6, "limit": 2})
    for name in ("c", "s", "zz"):
        run.audit(name, **{"from": 1, "limit": 5})
    run.write("embargo")


def ask_under_embargo(run, cells):
    """Every member but the directors is denied what belongs to a board by rule 4, and is told what is public."""
    for name in NOT_DIRECTORS:
        for board in (1, 2, 3):
            for ask in ABOUT_BOARDS:
                run.ask(name, ask, UNDER_EMBARGO, board=board)
        for table, board in cells:
            for ask in ABOUT_TABLES:
                run.ask(name, ask, UNDER_EMBARGO, table=table, board=board)
        run.ask(name, "list", {"boards": [], "more": False})
        run.ask(name, "list", {"boards": [], "more": False}, filter={"not": {"vul": "both"}})
        run.ask(name, "ranking", NOTHING_EARNED)
        run.ask(name, "status")
        run.ask(name, "accounts")
    for name, denial in (("x", NO_MEMBER), ("zz", NO_ACCOUNT)):
        for ask in ABOUT_ALL:
            run.ask(name, ask, denial)
        for ask in ABOUT_BOARDS:
            run.ask(name, ask, denial, board=1)
    run.ask_everything(["d", "cd"], cells)


def write_all_roles():
    run, cells = second_edition(*ROLES_MORE), [(1, 1), (2, 1), (2, 2), (1, 3)]
    run.ask_everything(ALL_ROLES, cells[:2])
    run.do("k", *played(1, 1, FOUR_SPADES, ["SA"]), *played(2, 2, "pass"), OK, OK, OK, OK)
    run.do("d", rule(3, 3, 60, 40, 7), OK)
    run.ask_hands(1, a=NEITHER, d=BOARD_1, k=NEITHER, s=(9, 2), n1=BOARD_1, n2=(6, 2), c=BOARD_1, m=NEITHER, x=NO_MEMBER, cd=BOARD_1, ca=BOARD_1)
    run.ask_everything(ALL_ROLES, cells)
    run.do("cd", EMBARGO, OK)
    ask_under_embargo(run, cells)
    # there is no such board, and a version to come, before a denial
    run.ask("n1", "board", "NoSuchBoard", board=4, since=99)
    run.ask("n1", "play", "NoSuchCell", table=4, board=1, since=99)
    run.ask("n1", "board", "Behind", board=1, since=99)
    # what is entered, held and changed meanwhile shows when the embargo is lifted, and not before
    run.do("d", NEXT, hold(2), OK, OK)
    run.do("k", *played(1, 2, FOUR_SPADES), *played(2, 3, FOUR_SPADES), *played(3, 1, "pass"), *[OK] * 6)
    ask_under_embargo(run, cells)
    run.do("d2", LIFT, OK)
    run.ask_hands(1, n1=BOARD_1, n2=(6, 2), s=(9, 2), c=BOARD_1, ca=BOARD_1)
    run.ask_hands(2, n1=HELD, n2=HELD, s=HELD, c=HELD, k=HELD, d=BOARD_2)
    run.ask_hands(3, n1=(6, 1), n2=BOARD_3, s=(9, 1), c=BOARD_3)
    run.ask_everything(ALL_ROLES, cells)
    # in the correction period as during play; a session that is final is put under no embargo, and one that is under one is lifted
    run.do("d", NEXT, release(2), OK, OK)
    run.do("k", *played(1, 3, "pass"), *played(2, 1, FOUR_SPADES), *played(3, 2, "pass"), *[OK] * 6)
    run.do("d", CLOSE, EMBARGO, OK, OK)
    ask_under_embargo(run, cells)
    run.do("d", EMBARGO, FINALISE, EMBARGO, "AlreadyEmbargoed", OK, "WrongPhase")
    run.do("n1", EMBARGO, "NotPermitted")
    ask_under_embargo(run, cells[:1])
    run.do("d", LIFT, LIFT, EMBARGO, OK, "NotEmbargoed", "WrongPhase")
    run.ask_hands(1, s=BOARD_1, n1=BOARD_1, n2=BOARD_1, c=BOARD_1, k=NEITHER)
    run.ask("c", "play", {"board": 1, "cards": ["SA"], "table": 1}, table=1, board=1)
    run.ask("c", "costs", {"board": 1, "costs": "pending", "table": 1}, table=1, board=1)
    run.ask("c", "reason", (12, 3), table=3, board=3)
    run.ask_everything(ALL_ROLES, cells)
    run.write("every role and an embargo")
