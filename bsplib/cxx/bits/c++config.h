/* GCC's settings of its standard library, which are those of the host, for a node: it has one thread. */
#pragma GCC system_header
#include_next <bits/c++config.h>
#undef _GLIBCXX_HAS_GTHREADS
#undef _GLIBCXX_HAVE_TIMESPEC_GET
#undef _GLIBCXX_HAVE_LINUX_FUTEX
#undef _GLIBCXX_USE_LFS
#undef _GLIBCXX_HAVE_SYS_SDT_H
