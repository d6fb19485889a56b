"""A refusal of a session that isn't opened, as the plain readers raise it."""


class Refused(Exception):
    """A refusal as the program writes it, why, and the name of the user, where it is about one."""

    def __init__(self, refusal, why, user=None):
        super().__init__(f"{refusal}: {why}")
        self.refusal, self.user = refusal, user


def refusal_of(look, *given):
    """The refusal, and the name of the user whom it is about; None where it isn't refused, or is about nobody."""
    try:
        look(*given)
        return None, None
    except Refused as refused:
        return refused.refusal, refused.user
