/* What bspcc takes the macros of before all else. GCC takes a precompiled header, as x.h.gch beside x.h, for the first file alone that is
 * read. It takes it as it is, without a look at x.h, so that one from somebody else could make GCC do anything. */
