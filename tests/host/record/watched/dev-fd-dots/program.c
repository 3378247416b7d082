/* An attribute by /dev/./fd. */
#include "../moves.h"
int main() { attribute_by(".", "/dev/./fd/%d"); }
