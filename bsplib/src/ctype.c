/* The functions of ctype.h for a signed char. picolibc's take numbers of bytes alone. These, and the table that its macros read, take
   a char below 0 too, which is of no kind: so that isalpha(text[i]) answers for every text. */
#include <ctype.h>

#ifdef ALLOW_NEGATIVE_CTYPE_INDEX

#undef isalnum
#undef isalpha
#undef iscntrl
#undef isdigit
#undef isgraph
#undef islower
#undef isprint
#undef ispunct
#undef isspace
#undef isupper
#undef isxdigit
#undef tolower
#undef toupper

enum { BELOW = 128, CONTROL = _C, SPACE = _C | _S, PUNCTUATION = _P, DIGIT = _N, HEX = _X };

/* The kinds of the bytes -128 to 255, so that EOF is one of them. */
const char _ctype_b[BELOW + 256] = {
    [BELOW + 0 ... BELOW + 8] = CONTROL,
    [BELOW + '\t' ... BELOW + '\r'] = SPACE,
    [BELOW + 14 ... BELOW + 31] = CONTROL,
    [BELOW + ' '] = (char)(_S | _B),
    [BELOW + '!' ... BELOW + '/'] = PUNCTUATION,
    [BELOW + '0' ... BELOW + '9'] = DIGIT,
    [BELOW + ':' ... BELOW + '@'] = PUNCTUATION,
    [BELOW + 'A' ... BELOW + 'F'] = _U | HEX,
    [BELOW + 'G' ... BELOW + 'Z'] = _U,
    [BELOW + '[' ... BELOW + '`'] = PUNCTUATION,
    [BELOW + 'a' ... BELOW + 'f'] = _L | HEX,
    [BELOW + 'g' ... BELOW + 'z'] = _L,
    [BELOW + '{' ... BELOW + '~'] = PUNCTUATION,
    [BELOW + 127] = CONTROL,
};

static int is(int byte, int kinds)
{
    return byte >= -BELOW && byte < 256 ? _ctype_b[BELOW + byte] & kinds : 0;
}

int isalnum(int byte) { return is(byte, _U | _L | _N); }
int isalpha(int byte) { return is(byte, _U | _L); }
int iscntrl(int byte) { return is(byte, _C); }
int isdigit(int byte) { return is(byte, _N); }
int isgraph(int byte) { return is(byte, _P | _U | _L | _N); }
int islower(int byte) { return is(byte, _L); }
int isprint(int byte) { return is(byte, _P | _U | _L | _N | _B); }
int ispunct(int byte) { return is(byte, _P); }
int isspace(int byte) { return is(byte, _S); }
int isupper(int byte) { return is(byte, _U); }
int isxdigit(int byte) { return is(byte, _X | _N); }
int tolower(int byte) { return is(byte, _U) ? byte - 'A' + 'a' : byte; }
int toupper(int byte) { return is(byte, _L) ? byte - 'a' + 'A' : byte; }

#endif
