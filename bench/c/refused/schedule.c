/* The same with four words. */
#define WORDS 4
#include "../schedule.c"
