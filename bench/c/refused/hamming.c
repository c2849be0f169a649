/* The same of six bytes. */
#define CODES 6
#include "../hamming.c"
