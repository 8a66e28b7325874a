/* What `drain` does to its files, on files that stay open: standard input in pieces of so many bytes, each written and
   synced, and then named in a slot of the ranges: 15 bytes of it, a sync, its first byte, a sync. */
#include <fcntl.h>
#include <stdio.h>
#include <stdlib.h>
#include <unistd.h>

static void must(int is_done)
{
    if (!is_done) {
        perror("baseline");
        exit(1);
    }
}

static size_t read_piece(unsigned char *piece, size_t len)
{
    size_t done = 0;
    ssize_t more;
    while (done < len && (more = read(0, piece + done, len - done)) > 0)
        done += (size_t)more;
    return done;
}

int main(int count, char **words)
{
    must(count == 2);
    size_t len = strtoul(words[1], NULL, 10), done;
    unsigned char *piece = malloc(len), slot[16] = {1, 1};
    int bytes = open("copy", O_RDWR | O_CREAT | O_TRUNC, 0666);
    int ranges = open("copy.gfr", O_RDWR | O_CREAT | O_TRUNC, 0666);
    off_t at = 0, place = 96;
    must(piece && bytes >= 0 && ranges >= 0);
    must(ftruncate(ranges, 2097216) == 0 && fsync(ranges) == 0);
    while ((done = read_piece(piece, len)) > 0) {
        must(pwrite(bytes, piece, done, at) == (ssize_t)done);
        must(fdatasync(bytes) == 0);
        must(pwrite(ranges, slot + 1, 15, place + 1) == 15);
        must(fdatasync(ranges) == 0);
        must(pwrite(ranges, slot, 1, place) == 1);
        must(fdatasync(ranges) == 0);
        at += done;
        place += 16;
    }
    return 0;
}
