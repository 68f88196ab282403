// Written by tools/refusals from include/jabulghi.h.

/// Every listing fits this many bytes.
pub const LISTING_ROOM: usize = 20480;

refusals! {
    KTooLarge = 2, "k of 2^48 or more";
    VTooLarge = 3, "v above 65535";
    OddLength = 4, "block of odd length";
    JobTooLong = 5, "job over 60,000 bytes";
    NoForm = 6, "line is none of the three forms, or lacks its line feed; in a listing: unlike its lines, missing, or a false count";
    NumberTooLarge = 7, "number beyond its range";
    WrongPlace = 8, "form in the wrong place, or text ends before line 2";
    TooManyShots = 9, "501st shot";
    ListingTooLong = 10, "listing or shot lines longer than the buffer";
    UnfitStreamA = 11, "a register of stream a below its minimum";
    UnfitStreamB = 12, "a register of stream b below its minimum, stream a being fit";
    CountFull = 13, "the count would pass 2^64 - 1";
    RequestOpen = 14, "a request is open: take it or give it up first";
    NoRequest = 15, "no request is open";
    WrongRequest = 16, "more than 1,000,000 pairs, asked or noted, or a block not of two samples for each";
    UnfitWindow = 17, "a window's N outside 1 to 4096, more than N held, a place outside it, or a sum beyond 2^42 in size";
    BadName = 18, "a mark's name is not 1 to 12 letters or digits";
    NameNotHeld = 19, "no mark has that name";
    MarksFull = 20, "all 16 places are used, and the name is new";
    NoLeg = 21, "Survex: no data line, or line is no leg, a name or number has not its form, or no line feed";
    LegOutOfRange = 22, "Survex: tape above 1000 m, compass above 360 degrees, or clino not the single digit 0";
    OtherStation = 23, "a shot that does not start where the one before ended";
    ShotTooLarge = 24, "a listing's 501st shot, distance above 1,008,242 mm or step above 65535";
    LowAboveHigh = 25, "a shot whose shortest distance is above its longest";
}
