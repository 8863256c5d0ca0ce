/* A refusal in words: nidskalm_refusal of nidskalm.h. Compile it with your program; the library itself has no strings. */
#include "nidskalm.h"

const char *nidskalm_refusal(uint64_t row) {
    switch (row) {
    case 0: return "not refused";
    case 1: return "more than 512 atoms, 8,192 dependencies or 256 entry bits, or room for no more sets than atoms or over 1,024";
    case 2: return "a list of the load hasn't the length called for";
    case 3: return "the work area is too short";
    case 4: return "the starts don't begin at 0, fall, or don't end at the number of dependencies";
    case 5: return "a dependency is no atom, or the atom itself";
    case 6: return "a host is neither none nor an atom";
    case 7: return "an entry set has a bit at or above the number of entry bits";
    case 8: return "two atoms have equal sets";
    case 9: return "the move graph's area is inconsistent, or keeps another mark than is lent";
    case 10: return "there is no such atom";
    case 11: return "the set hasn't the right count of numbers, or has a bit at or above the number of entry bits";
    case 12: return "the target is the atom's present set";
    case 14: return "a size of the merge graph is over its limit, or there is room for no chunk";
    case 15: return "a list of the merge graph has a wrong length or faulty starts, or its area is too short";
    case 16: return "a module, key or set is out of range, or a chunk isn't made yet, or isn't initial where it must be";
    case 17: return "one set is named twice";
    case 18: return "there is no room for so many chunks";
    case 19: return "there is no room for another list entry";
    case 20: return "source and target are the same chunk";
    case 21: return "the merge graph's area is inconsistent";
    case 23: return "over 1,024 kinds or 4,096 modules, or a list with a wrong length, faulty starts, or a kind or index out of range";
    case 24: return "the atom is fixed";
    case 25: return "the entry classes aren't eight, one is neither 0 nor 1, or an odd one isn't 1";
    case 26: return "the entry bit is out of range, or the graph has a cycle";
    case 27: return "the list for the start order holds fewer numbers than there are atoms";
    case 28: return "a chunk has been merged away";
    default: return "no row of that number is known";
    }
}
