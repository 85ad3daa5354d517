/* What the files of the kernel share. Each part says which file has it, and that file says how it works. */
#pragma once
typedef __UINT64_TYPE__ u64;
typedef __UINT32_TYPE__ u32;
typedef __UINT16_TYPE__ u16;
typedef __UINT8_TYPE__ u8;
typedef __SIZE_TYPE__ size_t;

enum { PAGE = 4096, PROCESSES = 64 };
enum error { ESRCH = 3, EIO = 5, ENOEXEC = 8, EBADF = 9, ECHILD = 10, EAGAIN = 11, ENOMEM = 12, EFAULT = 14, EINVAL = 22, ENOSYS = 38 };

/* Causes of traps (RISC-V Privileged Specification, scause). */
enum cause {
  ILLEGAL = 2, BREAKPOINT = 3, CALL = 8,
  FETCH_FAULT = 12, LOAD_FAULT = 13, STORE_FAULT = 15,
  GUEST_FETCH_FAULT = 20, GUEST_LOAD_FAULT = 21, NOT_FOR_GUESTS = 22, GUEST_STORE_FAULT = 23,
};
#define TIMER (1ul << 63 | 5)

/* firmware.c */
void put_char(int c);
void set_timer(u64 at);
u64 time_now(void);
u64 instructions(void);
_Noreturn void power_off(int status);

/* console.c */
void put(const char *text);
void put_number(u64 n);
void put_hex(u64 n);
_Noreturn void panic(const char *why, u64 a, u64 b);

/* memory.c */
void *memcpy(void *to, const void *from, size_t n);
void *memmove(void *to, const void *from, size_t n);
void *memset(void *to, int c, size_t n);
int memcmp(const void *a, const void *b, size_t n);
size_t strlen(const char *text);

/* heap.c: frames_at is where the pager's frames lie, once it has taken them */
extern u8 *frames_at;
extern u64 frames_bytes;
void heap_start(u8 *from, u8 *to, u64 frames);

/* disk.c */
enum { IMAGE, SWAP, DISKS, TRACE = DISKS, MOST_DISKS }; /* the pager has the first two; a third is for a variant of the kernel */
void disks_start(void);
u64 disk_bytes(int disk);
int disk_read(int disk, u64 at, void *to, u64 n);
int disk_write(int disk, u64 at, const void *from, u64 n);
int disk_flush(int disk);

/* pager.c: the proved program */
enum kind { SPAWN, FORK, EXIT, MMAP, MUNMAP, MPROTECT, DONTNEED, MSYNC, MSYNC_ASYNC, LOAD, FETCH, TOUCH, TRUNCATE };
enum outcome { PROCESS, ADDRESS, DONE, VALUE, FAULT, REFUSED, STALLED, HALTED, MALFORMED, HISTORY };
enum source { ANON, COMMON, PRIVATE, SHARED };
enum placing { HINT, FIXED, NOREPLACE };
struct request { u64 kind, pid, addr, len, prot, source, value, offset, placing; };
struct reply { u64 kind, first, second, third, root; };
void pager_start(const char **words, int count);
struct reply ask(struct request request);
long result_of(struct reply reply);
extern u64 requests_made;

/* stages.c */
void stages_start(int is_sv48);
void use_root(u64 frame);
u64 user_end(void);

/* user.c: the memory of the current process, as it sees it */
int load_user(u64 from, void *to, u64 n);
int zero_user(u64 at, u64 n);

/* processes.c */
enum state { FREE, READY, WAITING, ENDED };
struct process {
  u64 regs[32];       /* the program counter in place of x0 */
  u64 fault_regs[32]; /* those of the last fault */
  u64 root, pid, parent, status, repeats;
  enum state state;
};
extern struct process *current;
extern u64 slices_ended;
struct process *process_begin(struct reply made, u64 parent);
void process_end(u64 status);
_Noreturn void end_all(int status);
void process_wait(void);
void process_choose(void);
void slice_extend(u64 time);

/* programs.c */
void program_start(u64 file, u64 files);

/* faults.c, calls.c, counts.c */
void fault(u64 cause, u64 at);
void end_by(u64 cause, u64 at);
void call(void);
void count_trap(u64 cause);
void count_return(void);
void tell_counts(void);

/* entry.S */
void switch_stacks(u64 *keep, u64 to);
_Noreturn void enter(u64 *regs);
struct access { u64 value, cause; };
struct access hardware_load(u64 at);
struct access hardware_load_2(u64 at), hardware_load_4(u64 at), hardware_load_8(u64 at), hardware_fetch(u64 at);
struct access hardware_store(u64 at, u64 byte);
struct access hardware_store_2(u64 at, u64 value), hardware_store_4(u64 at, u64 value), hardware_store_8(u64 at, u64 value);
struct access hypervisor_trial(void);
void fence_first_stage(void);
void fence_second_stage(void);
