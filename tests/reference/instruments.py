"""Document 01, "Limits", and document 02, Asks 8 and 11: what an instrument loads at
most; the kinds of records that it takes, and its events."""
from typing import NamedTuple

OPTION = "--instrument"


class Instrument(NamedTuple):
    """The limits in which instruments differ, any numbers, the highest kind of a
    record (14 in document 01, 17 with Ask 2 of document 02, 19 with Ask 4, 20 with
    Ask 9, 22 on the four-channel instrument of Ask 11), and the number of events."""
    bytes: int
    points: int
    kinds: int = 20
    events: int = 32


LARGE = Instrument(65536, 512)
ENTRY = Instrument(8192, 64)
FOUR_CHANNEL = Instrument(65536, 512, 22, 64)
TWO_CHANNEL = {"large": LARGE, "entry": ENTRY}
INSTRUMENTS = TWO_CHANNEL | {"four": FOUR_CHANNEL}
CHOICE = "large|entry|four"


def chosen_instrument(arguments):
    """The instrument that `--instrument NAME`, in front, names, and the other
    arguments; the large one without the option. A ValueError says what is wrong.
    """
    if arguments[:1] != [OPTION]:
        return LARGE, arguments
    if len(arguments) < 2 or arguments[1] not in INSTRUMENTS:
        raise ValueError(f"{OPTION} needs an instrument: "
                         "large, entry or four")
    return INSTRUMENTS[arguments[1]], arguments[2:]
