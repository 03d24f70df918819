/* What answers mean, in words, for the messages of programs.

   It includes nothing, so that the kit's compiler makes the same bytes of it on every machine. */
const char *vbr_answer_text(int answer);

const char *vbr_answer_text(int answer)
{
    switch (answer) {
    case 2: return "another value";
    case 1: return "yes";
    case 0: return "no; of an opening or a renewal, done";
    case -1: return "out of steps";
    case -2: return "no slot";
    case -3: return "the last epoch is spent";
    case -4: return "no handle";
    case -5: return "a handle is in use";
    case -6: return "a number is out of range";
    case -7: return "too few handles, or too many";
    case -8: return "no memory";
    case -9: return "the set is lost";
    case -10: return "the keys do not ascend, or are too many";
    case -11: return "no room for the keys, or in the file";
    case -12: return "a handle is missing";
    case -13: return "handles of different sets";
    case -14: return "a slot is in hand, or none is";
    case -15: return "another opening than when the walk began";
    default: return "no answer of this library";
    }
}
