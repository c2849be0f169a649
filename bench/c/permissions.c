#include "record.h"

/* How far a caller comes on a path of five inodes, and whether the last may be read and written:
 * owner, group or others' bits of the mode, and root above them. Over chains. */
u64 program(const struct record *record, u64 length, u64 accumulator)
{
    u32 user = record->bytes[0], group = record->bytes[1], second = record->bytes[2];
    u32 deep = 0, denied = 0;
#pragma clang loop unroll(full)
    for (int i = 0; i < 5; i++) {
        const u8 *inode = record->bytes + 8 + 8 * i;
        u32 wanted = i < 4 ? 1 : 6;
        u32 mode = (inode[2] & 7) << 6 | (inode[3] & 7) << 3 | (inode[4] & 7);
        if (user == 0) {
            if (wanted == 1 && !(mode & 0111))
                denied = 1;
        } else {
            if (user == inode[0])
                mode >>= 6;
            else if (group == inode[1] || second == inode[1])
                mode >>= 3;
            if ((mode & wanted) != wanted)
                denied = 1;
        }
        deep += !denied;
    }
    return accumulator + deep + (denied ? 1ull << 32 : 0);
}
