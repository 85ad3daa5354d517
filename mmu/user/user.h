/* What programs call: the kernel (mmu/kernel/calls.c), and a few words to print with. All returned numbers below 0 are errors, as Linux numbers them. */
#pragma once
typedef __UINT64_TYPE__ u64;
typedef __UINT8_TYPE__ u8;

enum { PAGE = 4096 };
enum { READ = 1, WRITE = 2, RUN = 4 };                  /* permissions */
enum { ANON, COMMON, PRIVATE, SHARED };                 /* what a mapping stands on */
enum { HINT, FIXED, NOREPLACE };                        /* how firmly its address is asked for */

long write(const char *text, u64 n);
_Noreturn void exit(int status);
long fork(void);
void *mmap(void *at, u64 n, int prot, int source, u64 file, u64 offset, int placing);
long munmap(void *at, u64 n);
long mprotect(void *at, u64 n, int prot);
long dontneed(void *at, u64 n);
long msync(void *at, u64 n);
long truncate(u64 file, u64 length);                      /* of an image of layout 4 */
long wait(int *status);
void yield(void);
long getpid(void);
_Noreturn void end_all(int status);                       /* all processes, and the machine */
long kernel_call(long number, long a, long b, long c, long d, long e, long f, long g);

void *pages(u64 count);                                 /* new pages of zeros, of the process alone */
void say(const char *text);
void say_number(long n);
