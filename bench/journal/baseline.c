/* What the journal does to its file, on files that stay open.
   append COUNT: 15 bytes of a slot, a sync, its first byte, a sync, so often.
   attach: two syncs, and the reads of one bank in pieces of 4,096 bytes. */
#include <fcntl.h>
#include <stdio.h>
#include <stdlib.h>
#include <string.h>
#include <unistd.h>

static void must(int is_done)
{
    if (!is_done) {
        perror("baseline");
        exit(1);
    }
}

static void append(int ranges, long count)
{
    unsigned char slot[16] = {1, 1};
    for (long i = 0; i < count; i++) {
        off_t at = 96 + 16 * i;
        slot[7] = slot[15] = (unsigned char)i;
        must(pwrite(ranges, slot + 1, 15, at + 1) == 15);
        must(fdatasync(ranges) == 0);
        must(pwrite(ranges, slot, 1, at) == 1);
        must(fdatasync(ranges) == 0);
    }
}

static void attach(int bytes, int ranges)
{
    static unsigned char piece[4096];
    must(fdatasync(bytes) == 0);
    must(fdatasync(ranges) == 0);
    for (off_t at = 64; at < 1048640; at += sizeof piece)
        must(pread(ranges, piece, sizeof piece, at) == (ssize_t)sizeof piece);
}

int main(int count, char **words)
{
    int bytes = open("journal.dat", O_RDWR | O_CREAT, 0666);
    int ranges = open("journal.dat.gfr", O_RDWR);
    must(bytes >= 0 && ranges >= 0 && count >= 2);
    if (strcmp(words[1], "append") == 0)
        append(ranges, count > 2 ? atol(words[2]) : 0);
    else
        attach(bytes, ranges);
    return 0;
}
