/* The same with places of 32 bits. */
#define PLACE u32
#include "../tlv.c"
