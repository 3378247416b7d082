/* An attribute by a path with two slashes. */
#include "../moves.h"
int main() { attribute_by(".", "/proc//self/fd/%d"); }
