/* The same over twelve words. */
#define WORDS 12
#include "../murmur32.c"
