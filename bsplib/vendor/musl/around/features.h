/* What the files of musl want of musl's own headers. An alias has a name that the C library has already. NAME is that of the file's
   function: a program may have a function of this name of its own. */
#ifndef FEATURES_OF_MUSL
#define FEATURES_OF_MUSL
#define hidden
#define weak_alias(old, new)
#define PRAGMA(text) _Pragma(#text)
#define MAKE_WEAK(name) PRAGMA(weak name)
#ifdef NAME
MAKE_WEAK(NAME)
#endif
#endif
