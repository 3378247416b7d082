/*
 * The functions that the header defines itself, for the shared library: a binding that reads no header, such as one by
 * Python's ctypes, calls them there and needs no copy of their texts. The other functions come from the proved archive.
 */
#define YASLAUREL_INLINE
#include <yaslaurel.h>
