/*
 * The same bytes made durable without Kefsdalv, to compare with: syncs plain|slots|mapped FILE PAGES COUNT.
 *
 * plain   COUNT times what an msync of PAGES pages writes in layout 2 once a journal is live, by plain calls: the homes, a sync, the gate closed, a
 *         sync, the body and the map, a sync, the gate opened, a sync. It reads nothing back and checks nothing.
 * slots   the same in layout 4, of the same pages each time: slots of the body whose turn it is, the blocks of its map that count, a sync, the gate, a sync.
 * mapped  COUNT times a byte stored to each of PAGES pages of a mapped file, and msync(MS_SYNC) over them. A stop may tear it.
 */
#include <fcntl.h>
#include <stdio.h>
#include <stdlib.h>
#include <string.h>
#include <sys/mman.h>
#include <sys/stat.h>
#include <unistd.h>

enum { SECTOR = 512, PAGE = 4096, GATE = 2, MAP = 3, BODY = 11, HOMES = 8195, MOST = 1023 };
enum { POOL_GATE = 8, POOL_FRONT = 16, BLOCKS = 4, BLOCK_SLOTS = 504, HALF = 4040 * BLOCKS }; /* a pool of 4,032 pages */

static char page[PAGE];

static void fail(const char *what) {
    perror(what);
    exit(1);
}

static void put(int file, size_t length, off_t sector) {
    if (pwrite(file, page, length, sector * SECTOR) != (ssize_t)length) fail("pwrite");
}

static void settle(int file) {
    if (fdatasync(file) != 0) fail("fdatasync");
}

static void plain(int file, int pages, int count) {
    for (int turn = 0; turn < count; turn++) {
        memset(page, turn, sizeof page);
        for (int k = 0; k < pages; k++) put(file, PAGE, HOMES + 8 * k);
        settle(file);
        put(file, SECTOR, GATE);
        settle(file);
        for (int k = 0; k < pages; k++) put(file, PAGE, BODY + 8 * k);
        put(file, PAGE, MAP);
        settle(file);
        put(file, SECTOR, GATE);
        settle(file);
    }
}

static void in_slots(int file, int pages, int count) {
    int blocks = (pages + BLOCK_SLOTS - 1) / BLOCK_SLOTS;
    for (int turn = 0; turn < count; turn++) {
        off_t map = POOL_FRONT + turn % 2 * HALF, body = map + 8 * BLOCKS;
        memset(page, turn, sizeof page);
        for (int k = 0; k < pages; k++) put(file, PAGE, body + 8 * k);
        for (int q = 1; q <= blocks; q++) put(file, PAGE, body - 8 * q);
        settle(file);
        put(file, SECTOR, POOL_GATE);
        settle(file);
    }
}

static void mapped(int file, int pages, int count) {
    size_t length = (size_t)pages * PAGE;
    char *at = mmap(NULL, length, PROT_READ | PROT_WRITE, MAP_SHARED, file, 0);
    if (at == MAP_FAILED) fail("mmap");
    for (int turn = 0; turn < count; turn++) {
        for (int k = 0; k < pages; k++) at[(size_t)k * PAGE] = (char)(turn + 1);
        if (msync(at, length, MS_SYNC) != 0) fail("msync");
    }
}

int main(int argc, char **argv) {
    int pages = argc == 5 ? atoi(argv[3]) : 0, count = argc == 5 ? atoi(argv[4]) : 0;
    if (pages < 1 || pages > MOST || count < 1) {
        fputs("usage: syncs plain|slots|mapped FILE PAGES COUNT\n", stderr);
        return 2;
    }
    int file = open(argv[2], O_RDWR | O_CREAT, 0600);
    if (file < 0 || ftruncate(file, (off_t)SECTOR * (POOL_FRONT + 2 * HALF)) != 0 || fsync(file) != 0) fail(argv[2]);
    if (strcmp(argv[1], "plain") == 0) plain(file, pages, count);
    else if (strcmp(argv[1], "slots") == 0) in_slots(file, pages, count);
    else mapped(file, pages, count);
    return 0;
}
