/* The calls of an update of a flash file with a stream, done plainly: what bench/update measures x7 against.
   usage: update_limit FLASH STREAM */
#define _GNU_SOURCE
#include <fcntl.h>
#include <stdio.h>
#include <stdlib.h>
#include <string.h>
#include <sys/stat.h>
#include <unistd.h>

enum { SECTOR = 65536, PIECE = 4096 };
static unsigned char sector[SECTOR];

static void stop(const char *what) { perror(what); exit(1); }

enum { READ, WRITE };

/* Reads or writes all of the bytes from the place on. */
static void move_at(int f, int call, long place, unsigned char *bytes, long count) {
    if (lseek(f, place, SEEK_SET) != place) stop("seek");
    for (long done = 0; done < count;) {
        long left = count - done;
        long n = call == READ ? read(f, bytes + done, left) : write(f, bytes + done, left);
        if (n <= 0) stop(call == READ ? "read" : "write");
        done += n;
    }
}

static void program(int f, long place, const unsigned char *given, long count) {
    unsigned char old[PIECE];
    for (long done = 0; done < count; done += PIECE) {
        long n = count - done < PIECE ? count - done : PIECE;
        move_at(f, READ, place + done, old, n);
        for (long i = 0; i < n; i++) old[i] &= given[done + i];
        move_at(f, WRITE, place + done, old, n);
    }
    if (fdatasync(f)) stop("sync");
}

static void erase(int f, long number) {
    memset(sector, 0xFF, SECTOR);
    move_at(f, WRITE, number * SECTOR, sector, SECTOR);
    if (fdatasync(f)) stop("sync");
}

int main(int argc, char **argv) {
    if (argc != 3) return 2;
    int f = open(argv[1], O_RDWR), s = open(argv[2], O_RDONLY);
    struct stat of;
    if (f < 0 || s < 0 || fstat(s, &of)) stop("open");
    long size = lseek(f, 0, SEEK_END), count = of.st_size;
    unsigned char *stream = malloc(count + 1);
    if (!stream) stop("memory");
    move_at(s, READ, 0, stream, count);
    move_at(f, READ, 0, sector, SECTOR);
    long update = (long)sector[12] << 24 | sector[13] << 16 | sector[14] << 8 | sector[15];
    static const unsigned char open_word[4] = {0xAA, 0x99, 0x55, 0x66}, spent[4], ones[4] = {0xFF, 0xFF, 0xFF, 0xFF};
    long opened = -1, next = 0;
    for (long slot = 0; slot < SECTOR / 32; slot++) {
        if (memcmp(sector + 32 * slot + 4, sector + 4, 28)) return 5;
        if (!memcmp(sector + 32 * slot, open_word, 4)) opened = slot;
        if (memcmp(sector + 32 * slot, ones, 4)) next = slot + 1;
    }
    if (next >= SECTOR / 32 || update + count > size) return 5;
    if (opened >= 0) program(f, 32 * opened, spent, 4);
    for (long number = update / SECTOR; number < size / SECTOR; number++) erase(f, number);
    program(f, update, stream, count);
    for (long place = update; place < size; place += SECTOR) {
        move_at(f, READ, place, sector, SECTOR);
        for (long i = 0; i < SECTOR; i++) {
            long at = place - update + i;
            if (sector[i] != (at < count ? stream[at] : 0xFF)) return 11;
        }
    }
    program(f, 32 * next, open_word, 4);
    move_at(f, READ, 32 * next, sector, 4);
    return memcmp(sector, open_word, 4) ? 11 : 0;
}
