"""The session of the stored runs' second edition, and what its boards and its denials are."""
from judged_run import JudgedRun
from judged_session import JudgedSession
from write_query_runs import DEALS
from write_stored_runs import SECOND_SESSION, SECOND_USERS, text_of, user

BOARD_1 = {"deal": DEALS[0], "dealer": "N", "number": 1, "vul": "none"}
BOARD_2 = {"deal": DEALS[1], "dealer": "E", "number": 2, "vul": "ns"}
BOARD_3 = {"deal": DEALS[2], "dealer": "S", "number": 3, "vul": "ew"}
# the rules of the second edition that a board's hands meet, where they name no table
NO_ACCOUNT, NO_MEMBER, UNDER_EMBARGO, HELD, NEITHER = (1, 0), (2, 0), (4, 0), (5, 0), (8, 0)
ROLES_MORE = [user("m", "Member"), {**user("x", "Member"), "roles": []}, {**user("cd", "Director"), "roles": ["Director", "Commentator"]},
              {**user("ca", "Administrator"), "roles": ["Administrator", "Commentator"]}]
ALL_ROLES = ["a", "d", "k", "s", "n1", "n2", "c", "m", "x", "cd", "ca", "zz"]
NOT_DIRECTORS = ["a", "k", "s", "n1", "n2", "c", "m", "ca"]


def second_edition(*more, absent=None):
    """The session of the examples in the second edition, with a commentator and these users more."""
    users = [*SECOND_USERS, *more]
    opening = SECOND_SESSION.replace(f'"users":{text_of(SECOND_USERS)}', f'"users":{text_of(users)}', 1)
    if absent:
        opening = opening.replace('"budget":0', f'"absent":"{absent}","budget":0', 1)
    return JudgedRun(opening, JudgedSession(3, 3, 1, users, DEALS, absent, 2))
