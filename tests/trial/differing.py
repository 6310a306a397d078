"""How a check says that something doesn't hold."""


class Differs(Exception):
    """What was wanted, and what came."""

    def __init__(self, what, wanted, came):
        super().__init__(what)
        self.what = what
        self.wanted = wanted
        self.came = came


def want(what, wanted, came):
    if wanted != came:
        raise Differs(what, wanted, came)


def want_that(what, holds, came=''):
    if not holds:
        raise Differs(what, '', came)
