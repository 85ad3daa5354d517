/*
 * Lines of a trace by the calls of Linux: mapped FILE.. <TRACE. A file whose name ends in ".ro" is opened to be read alone.
 *
 * It takes, of process 1, the lines mmap (anon, private and shared, fixed), munmap, mprotect, dontneed, msync, load and store, and truncate, and replies as
 * pagerun would: addresses are those of the trace, moved up by MOVED. `read F OFF LEN` gives the bytes that pread gives, as hexadecimal digits, and
 * `length F` how many fstat tells. SIGSEGV and SIGBUS are caught, and are the replies of accesses.
 */
#define _GNU_SOURCE
#include <errno.h>
#include <fcntl.h>
#include <setjmp.h>
#include <signal.h>
#include <stdint.h>
#include <stdio.h>
#include <stdlib.h>
#include <string.h>
#include <sys/mman.h>
#include <sys/stat.h>
#include <unistd.h>

enum { FILES = 16, WORDS = 10, LINE = 256, MOST_READ = 4096 };
static const uint64_t MOVED = 1ul << 40;

static int files[FILES];
static sigjmp_buf back;
static volatile int code, number;
static uint8_t *volatile touched;

static void fail(const char *what) {
    perror(what);
    exit(1);
}

static void caught(int signal, siginfo_t *info, void *context) {
    (void)context;
    number = signal;
    code = info->si_code;
    touched = info->si_addr;
    siglongjmp(back, 1);
}

static const struct {
    int number;
    const char *name;
} errors[] = {{EBADF, "EBADF"}, {ENOMEM, "ENOMEM"}, {EACCES, "EACCES"}, {EEXIST, "EEXIST"}, {EINVAL, "EINVAL"}, {EFBIG, "EFBIG"}, {EOVERFLOW, "EOVERFLOW"}};

static void refused(void) {
    for (size_t k = 0; k < sizeof errors / sizeof *errors; k++)
        if (errors[k].number == errno) {
            printf("error %d %s\n", errno, errors[k].name);
            return;
        }
    printf("error %d\n", errno);
}

static void done(int result) {
    if (result) refused();
    else puts("ok");
}

static uint64_t value(const char *word) { return strtoull(word, NULL, 0); }
static void *place(const char *word) { return (void *)(value(word) + MOVED); }

static int permission(const char *word) {
    return (word[0] == 'r' ? PROT_READ : 0) | (word[1] == 'w' ? PROT_READ | PROT_WRITE : 0) | (word[2] == 'x' ? PROT_EXEC : 0);
}

static void map(char **words, int count) {
    int is_anon = strcmp(words[5], "anon") == 0, flags = MAP_FIXED | (strcmp(words[5], "shared") ? MAP_PRIVATE : MAP_SHARED) | (is_anon ? MAP_ANONYMOUS : 0);
    if (count != (is_anon ? 7 : 9) || strcmp(words[count - 1], "fixed")) fail("only fixed mappings are taken");
    void *found = mmap(place(words[2]), value(words[3]), permission(words[4]), flags, is_anon ? -1 : files[value(words[6])], is_anon ? 0 : (off_t)value(words[7]));
    if (found == MAP_FAILED) refused();
    else printf("addr %#lx\n", (uint64_t)found - MOVED);
}

static void faulted(const char *kind) {
    const char *name = number == SIGBUS ? (code == BUS_ADRERR ? "BUS_ADRERR" : "SIGBUS") : code == SEGV_MAPERR ? "SEGV_MAPERR" : code == SEGV_ACCERR ? "SEGV_ACCERR" : "SIGSEGV";
    printf("fault %d %s %#lx\n", *kind == 'l' ? 13 : 15, name, (uint64_t)touched - MOVED);
}

static void load(char **words) {
    uint64_t width = value(words[3]), found = 0;
    volatile void *at = place(words[2]);
    if (sigsetjmp(back, 1)) {
        faulted(words[0]);
        return;
    }
    if (width == 1) found = *(volatile uint8_t *)at;
    else if (width == 2) found = *(volatile uint16_t *)at;
    else if (width == 4) found = *(volatile uint32_t *)at;
    else found = *(volatile uint64_t *)at;
    printf("value 0x%0*lx\n", (int)(2 * width), found);
}

static void store(char **words) {
    uint64_t width = value(words[3]), new = value(words[4]);
    volatile void *at = place(words[2]);
    if (sigsetjmp(back, 1)) {
        faulted(words[0]);
        return;
    }
    if (width == 1) *(volatile uint8_t *)at = new;
    else if (width == 2) *(volatile uint16_t *)at = new;
    else if (width == 4) *(volatile uint32_t *)at = new;
    else *(volatile uint64_t *)at = new;
    puts("ok");
}

static void read_bytes(char **words) {
    uint8_t bytes[MOST_READ];
    ssize_t count = pread(files[value(words[1])], bytes, value(words[3]) < MOST_READ ? value(words[3]) : MOST_READ, value(words[2]));
    if (count < 0) fail("pread");
    printf("bytes ");
    for (ssize_t k = 0; k < count; k++) printf("%02x", bytes[k]);
    puts("");
}

static void tell_length(char **words) {
    struct stat found;
    if (fstat(files[value(words[1])], &found)) fail("fstat");
    printf("length %lu\n", (uint64_t)found.st_size);
}

static void carry_out(char **words, int count) {
    const char *name = words[0];
    if (!strcmp(name, "mmap")) map(words, count);
    else if (!strcmp(name, "munmap")) done(munmap(place(words[2]), value(words[3])));
    else if (!strcmp(name, "mprotect")) done(mprotect(place(words[2]), value(words[3]), permission(words[4])));
    else if (!strcmp(name, "dontneed")) done(madvise(place(words[2]), value(words[3]), MADV_DONTNEED));
    else if (!strcmp(name, "msync")) done(msync(place(words[2]), value(words[3]), !strcmp(words[4], "sync") ? MS_SYNC : MS_ASYNC));
    else if (!strcmp(name, "truncate")) done(ftruncate(files[value(words[1])], (off_t)value(words[2])));
    else if (!strcmp(name, "load")) load(words);
    else if (!strcmp(name, "store")) store(words);
    else if (!strcmp(name, "read")) read_bytes(words);
    else if (!strcmp(name, "length")) tell_length(words);
    else puts("bad line");
}

static int is_read_only(const char *name) {
    size_t length = strlen(name);
    return length > 3 && !strcmp(name + length - 3, ".ro");
}

int main(int argc, char **argv) {
    char line[LINE], *words[WORDS];
    struct sigaction action = {.sa_sigaction = caught, .sa_flags = SA_SIGINFO};
    if (argc > FILES || sigaction(SIGSEGV, &action, NULL) || sigaction(SIGBUS, &action, NULL)) fail("sigaction");
    for (int k = 1; k < argc; k++)
        if ((files[k - 1] = open(argv[k], is_read_only(argv[k]) ? O_RDONLY : O_RDWR)) < 0) fail(argv[k]);
    while (fgets(line, sizeof line, stdin)) {
        int count = 0;
        for (char *word = strtok(line, " \n"); word && count < WORDS; word = strtok(NULL, " \n")) words[count++] = word;
        carry_out(words, count);
    }
    return fflush(stdout) != 0;
}
