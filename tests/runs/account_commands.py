"""Commands about users, their roles and seats, and about an embargo."""
from write_stored_runs import DIGEST

EMBARGO, LIFT = {"cmd": "Embargo"}, {"cmd": "Lift"}


def assign(name, role):
    return {"cmd": "Assign", "name": name, "role": role}


def deassign(name, role):
    return {"cmd": "Deassign", "name": name, "role": role}


def seat(name, pair, place):
    return {"cmd": "Seat", "name": name, "pair": pair, "place": place}


def unseat(name):
    return {"cmd": "Unseat", "name": name}


def add(name):
    return {"cmd": "AddUser", "digest": DIGEST, "name": name}


def inherit(senior, junior):
    return {"cmd": "AddInheritance", "junior": junior, "senior": senior}


def disinherit(senior, junior):
    return {"cmd": "DeleteInheritance", "junior": junior, "senior": senior}
