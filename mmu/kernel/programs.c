/* A program is a file of the image: an ELF file whose headers say what is mapped where (System V Application Binary Interface, "Program Header"). Its text is read from
   the file as it is fetched, and what it writes is its own. */
#include "kernel.h"

enum { HEADERS_AT = 0x3000000000, STACK_END = 0x3f00000000, STACK_BYTES = 1 << 20 };
enum { CAN_READ = 4, CAN_WRITE = 2, CAN_RUN = 1, LOADED = 1, MOST_PARTS = 16, RISCV = 243 };
enum { READ = 1, WRITE = 2, RUN = 4 };

struct elf { u8 ident[16]; u16 type, machine; u32 version; u64 entry, parts_at, sections_at; u32 flags; u16 bytes, part_bytes, parts; };
struct part { u32 type, flags; u64 offset, at, physical, file_bytes, memory_bytes, align; };

static u64 down(u64 at) { return at & -(u64)PAGE; }
static u64 up(u64 at) { return down(at + PAGE - 1); }

static _Noreturn void refuse(u64 file, const char *why) {
  put("kernel: file ");
  put_number(file);
  put(" is no program: ");
  put(why);
  put("\n");
  power_off(2);
}

static void map(u64 file, u64 at, u64 bytes, u64 prot, enum source source, u64 offset) {
  struct reply reply = ask((struct request){MMAP, current->pid, at, bytes, prot, source, file, offset, FIXED});
  if (reply.kind != ADDRESS) refuse(file, "what its headers ask for can't be mapped");
}

/* The pages of a part that the file has bytes for are mapped from it, and the rest is zeros: those behind the bytes in their last page are stored. */
static void load_part(u64 file, const struct part *part) {
  u64 prot = (part->flags & CAN_READ ? READ : 0) | (part->flags & CAN_WRITE ? WRITE : 0) | (part->flags & CAN_RUN ? RUN : 0);
  u64 begin = down(part->at), bytes_end = part->at + part->file_bytes, end = up(part->at + part->memory_bytes);
  u64 file_end = part->file_bytes ? up(bytes_end) : begin;
  if (file_end > begin) map(file, begin, file_end - begin, prot, PRIVATE, down(part->offset));
  if (end > file_end) map(file, file_end, end - file_end, prot, ANON, 0);
  u64 rest = part->file_bytes && part->memory_bytes > part->file_bytes ? file_end - bytes_end : 0;
  if (rest && zero_user(bytes_end, rest)) refuse(file, "a part with zeros behind its bytes can't be written");
}

static void read_at(u64 file, u64 at, void *to, u64 n) {
  if (load_user(HEADERS_AT + at, to, n)) refuse(file, "its headers can't be read");
}

/* Maps what the headers say, which are mapped themselves meanwhile, and returns where the program begins. */
static u64 load_program(u64 file) {
  struct elf elf;
  map(file, HEADERS_AT, PAGE, READ, PRIVATE, 0);
  read_at(file, 0, &elf, sizeof elf);
  if (memcmp(elf.ident, "\177ELF\2\1", 6) || elf.machine != RISCV) refuse(file, "it is no ELF file of 64-bit RISC-V");
  if (elf.part_bytes != sizeof(struct part) || elf.parts > MOST_PARTS) refuse(file, "its headers are of another form");
  for (u64 i = 0; i < elf.parts; i++) {
    struct part part;
    read_at(file, elf.parts_at + i * sizeof part, &part, sizeof part);
    if (part.type == LOADED && part.memory_bytes) load_part(file, &part);
  }
  ask((struct request){MUNMAP, current->pid, HEADERS_AT, PAGE});
  return elf.entry;
}

/* Begins a process that runs the program of a file. Its `main` gets the number of the image's first file that is no program. */
void program_start(u64 file, u64 files) {
  struct reply made = ask((struct request){SPAWN});
  if (made.kind != PROCESS) refuse(file, "there is no room for its process");
  current = process_begin(made, 0);
  use_root(current->root);
  current->regs[0] = load_program(file);
  map(file, STACK_END - STACK_BYTES, STACK_BYTES, READ | WRITE, ANON, 0);
  current->regs[2] = STACK_END;
  current->regs[10] = files;
}
