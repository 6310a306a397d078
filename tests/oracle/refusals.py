"""Refusals. A call's tests are at its beginning, in their order, and the first that holds refuses it."""

# Written by tools/calls from calls.table: refusals
E1 = 'E1 NoSuchWindow'
E2 = 'E2 NoSuchPanel'
E3 = 'E3 OffScreen'
E4 = 'E4 OutsideParent'
E5 = 'E5 OutsideWindow'
E6 = 'E6 HasDerived'
E7 = 'E7 InPanel'
E8 = 'E8 IsPad'
E9 = 'E9 NotPad'
E10 = 'E10 NotDerived'
E11 = 'E11 BadSize'
E12 = 'E12 BadRegion'
E13 = 'E13 BadCharacter'
E14 = 'E14 StandardScreen'
E15 = 'E15 Hidden'
E16 = 'E16 ScrollingOff'
E17 = 'E17 TooMany'
E18 = 'E18 NoMemory'
E19 = 'E19 BadRectangle'
E20 = 'E20 BadPair'
# End of what tools/calls wrote


class Refused(Exception):
    """The call did nothing. There always is memory here: nothing is refused as E18 NoMemory."""


def refuse(test, why):
    if test:
        raise Refused(why)
