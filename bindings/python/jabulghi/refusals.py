"""Written by tools/refusals from include/jabulghi.h."""
import enum

VERSION = "1.1.0"
LISTING_ROOM = 20480
MOST_ASKED = 1000000


class Refusal(enum.IntEnum):
    """Why a call was refused: the numbers of jabulghi.h."""

    K_TOO_LARGE = 2
    V_TOO_LARGE = 3
    ODD_LENGTH = 4
    JOB_TOO_LONG = 5
    NO_FORM = 6
    NUMBER_TOO_LARGE = 7
    WRONG_PLACE = 8
    TOO_MANY_SHOTS = 9
    LISTING_TOO_LONG = 10
    UNFIT_STREAM_A = 11
    UNFIT_STREAM_B = 12
    COUNT_FULL = 13
    REQUEST_OPEN = 14
    NO_REQUEST = 15
    WRONG_REQUEST = 16
    UNFIT_WINDOW = 17
    BAD_NAME = 18
    NAME_NOT_HELD = 19
    MARKS_FULL = 20
    NO_LEG = 21
    LEG_OUT_OF_RANGE = 22
    OTHER_STATION = 23
    SHOT_TOO_LARGE = 24
    LOW_ABOVE_HIGH = 25


WORDS = {
    2: "k of 2^48 or more",
    3: "v above 65535",
    4: "block of odd length",
    5: "job over 60,000 bytes",
    6: "line is none of the three forms, or lacks its line feed; in a listing: unlike its lines, missing, or a false count",
    7: "number beyond its range",
    8: "form in the wrong place, or text ends before line 2",
    9: "501st shot",
    10: "listing or shot lines longer than the buffer",
    11: "a register of stream a below its minimum",
    12: "a register of stream b below its minimum, stream a being fit",
    13: "the count would pass 2^64 - 1",
    14: "a request is open: take it or give it up first",
    15: "no request is open",
    16: "more than 1,000,000 pairs, asked or noted, or a block not of two samples for each",
    17: "a window's N outside 1 to 4096, more than N held, a place outside it, or a sum beyond 2^42 in size",
    18: "a mark's name is not 1 to 12 letters or digits",
    19: "no mark has that name",
    20: "all 16 places are used, and the name is new",
    21: "Survex: no data line, or line is no leg, a name or number has not its form, or no line feed",
    22: "Survex: tape above 1000 m, compass above 360 degrees, or clino not the single digit 0",
    23: "a shot that does not start where the one before ended",
    24: "a listing's 501st shot, distance above 1,008,242 mm or step above 65535",
    25: "a shot whose shortest distance is above its longest",
}
