// Written by tools/refusals from include/jabulghi.h.
#ifndef JABULGHI_REFUSALS_HPP
#define JABULGHI_REFUSALS_HPP

namespace jabulghi {

/// The words for a number that a call returned.
inline const char *words(unsigned number) noexcept {
    switch (number) {
    case 0: return "accepted";
    case 2: return "k of 2^48 or more";
    case 3: return "v above 65535";
    case 4: return "block of odd length";
    case 5: return "job over 60,000 bytes";
    case 6: return "line is none of the three forms, or lacks its line feed; in a listing: unlike its lines, missing, or a false count";
    case 7: return "number beyond its range";
    case 8: return "form in the wrong place, or text ends before line 2";
    case 9: return "501st shot";
    case 10: return "listing or shot lines longer than the buffer";
    case 11: return "a register of stream a below its minimum";
    case 12: return "a register of stream b below its minimum, stream a being fit";
    case 13: return "the count would pass 2^64 - 1";
    case 14: return "a request is open: take it or give it up first";
    case 15: return "no request is open";
    case 16: return "more than 1,000,000 pairs, asked or noted, or a block not of two samples for each";
    case 17: return "a window's N outside 1 to 4096, more than N held, a place outside it, or a sum beyond 2^42 in size";
    case 18: return "a mark's name is not 1 to 12 letters or digits";
    case 19: return "no mark has that name";
    case 20: return "all 16 places are used, and the name is new";
    case 21: return "Survex: no data line, or line is no leg, a name or number has not its form, or no line feed";
    case 22: return "Survex: tape above 1000 m, compass above 360 degrees, or clino not the single digit 0";
    case 23: return "a shot that does not start where the one before ended";
    case 24: return "a listing's 501st shot, distance above 1,008,242 mm or step above 65535";
    case 25: return "a shot whose shortest distance is above its longest";
    default: return "refused";
    }
}

} // namespace jabulghi

#endif
