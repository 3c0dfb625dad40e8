/*
 * What the library has beside the proved calls: what a verdict means, and the version. It takes no buffer.
 */
#include "lomvuze.h"

const char *lomvuze_strerror(uint32_t verdict) {
  switch (verdict) {
    case LOMVUZE_ACCEPTED: return "accepted";
    case LOMVUZE_SHEET: return "the sheet is over 60,000 bytes or breaks the line rules";
    case LOMVUZE_SIZE: return "a size, count or length is not permitted";
    case LOMVUZE_ELEMENT: return "an element is p or more";
    case LOMVUZE_CIRCUIT: return "a circuit entry is outside or out of order";
    case LOMVUZE_CHALLENGE: return "the challenge is not permitted";
    case LOMVUZE_POSITION: return "a position is outside the codeword";
    case LOMVUZE_NEW_ITEM: return "the new item is not the one of the challenge";
    case LOMVUZE_OPENING: return "an opening does not lead to its root";
    case LOMVUZE_COMBINATION: return "a new opened value is no combination";
    case LOMVUZE_ROOT: return "a root is not that of its witness";
    case LOMVUZE_CLAIM: return "an item does not hold";
    case LOMVUZE_POINTS: return "a point repeats another, or is p or more";
    case LOMVUZE_FIRST_INPUT: return "an item's first input is not 1";
    default: return "unknown answer";
  }
}

const char *lomvuze_version(void) { return LOMVUZE_VERSION; }
