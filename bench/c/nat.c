#include "record.h"

/* Checksums of a packet whose source is translated to another address and port:
 * what goes is taken out of the old sums and what comes is added. Over packets. */
u64 program(const struct record *record, u64 length, u64 accumulator)
{
    if (record->bytes[0] != 0x45)
        return accumulator;
    u32 protocol = record->bytes[9];
    u32 port = 0x8000 | ((record->halves[10] ^ record->halves[7] * 0x2f) & 0x7fff);
    u32 change = (u16)~record->halves[6] + (u16)~record->halves[7] + 0x00cb + 0x0571;

    u32 head = (u16)~record->halves[5] + change;
    head = (head & 0xffff) + (head >> 16);
    head = (head & 0xffff) + (head >> 16);
    head = (u16)~head;

    u32 body = 0;
    if (protocol == 6 || (protocol == 17 && record->halves[13] != 0)) {
        u32 old = protocol == 6 ? record->halves[18] : record->halves[13];
        body = (u16)~old + change + (u16)~record->halves[10] + port;
        body = (body & 0xffff) + (body >> 16);
        body = (body & 0xffff) + (body >> 16);
        body = (u16)~body;
        if (protocol == 17 && body == 0)
            body = 0xffff;
    }
    return accumulator + (body << 16 | head);
}
