/* The two disks: virtio-blk over memory-mapped registers (Virtual I/O Device Specification 1.1, 4.2 and 5.2), one request at a time, which is
   waited for. The first found is the image, the second swap. One that offers no flush is refused: an msync has to be durable when it returns. */
#include "kernel.h"

enum { FIRST = 0x10001000, STEP = 0x1000, PLACES = 8, SECTOR = 512, QUEUE = 8, CHUNK = 65536 };
enum { MAGIC = 0, VERSION = 0x4, DEVICE = 0x8, FEATURES = 0x10, FEATURES_SELECT = 0x14, DRIVER = 0x20, DRIVER_SELECT = 0x24, QUEUE_SELECT = 0x30,
       QUEUE_SIZE = 0x38, QUEUE_READY = 0x44, NOTIFY = 0x50, STATUS = 0x70, DESCRIPTORS = 0x80, AVAILABLE = 0x90, USED = 0xa0, CAPACITY = 0x100 };
enum { ACKNOWLEDGED = 1, DRIVES = 2, RUNS = 4, FEATURES_FIT = 8 };
enum { IN, OUT, FLUSH = 4 };
enum { CAN_FLUSH = 1 << 9, IS_MODERN = 1 };
enum { NEXT = 1, DEVICE_WRITES = 2 };

struct descriptor { u64 at; u32 length; u16 flags, next; };
struct available { u16 flags, count, ring[QUEUE]; };
struct used { u16 flags, count; struct { u32 id, length; } ring[QUEUE]; };
struct head { u32 type, reserved; u64 sector; };

static struct disk {
  volatile u32 *registers;
  struct descriptor descriptors[QUEUE] __attribute__((aligned(16)));
  volatile struct available available;
  volatile struct used used __attribute__((aligned(16)));
  struct head head;
  volatile u8 status;
} disks[MOST_DISKS];
static int count;

static u32 get(struct disk *disk, int at) { return disk->registers[at / 4]; }
static void set(struct disk *disk, int at, u32 value) { disk->registers[at / 4] = value; }

static void set_place(struct disk *disk, int at, volatile void *place) {
  set(disk, at, (u32)(u64)place);
  set(disk, at + 4, (u64)place >> 32);
}

static void barrier(void) { asm volatile("fence rw, rw" ::: "memory"); }

static void disk_start(struct disk *disk) {
  set(disk, STATUS, 0);
  set(disk, STATUS, ACKNOWLEDGED | DRIVES);
  set(disk, FEATURES_SELECT, 0);
  if (!(get(disk, FEATURES) & CAN_FLUSH)) panic("this disk offers no flush, so nothing on it is durable; it is at", (u64)disk->registers, get(disk, FEATURES));
  set(disk, DRIVER_SELECT, 0);
  set(disk, DRIVER, CAN_FLUSH);
  set(disk, DRIVER_SELECT, 1);
  set(disk, DRIVER, IS_MODERN);
  set(disk, STATUS, ACKNOWLEDGED | DRIVES | FEATURES_FIT);
  if (!(get(disk, STATUS) & FEATURES_FIT)) panic("this disk refuses what it offered; it is at", (u64)disk->registers, get(disk, STATUS));
  set(disk, QUEUE_SELECT, 0);
  set(disk, QUEUE_SIZE, QUEUE);
  set_place(disk, DESCRIPTORS, disk->descriptors);
  set_place(disk, AVAILABLE, &disk->available);
  set_place(disk, USED, &disk->used);
  set(disk, QUEUE_READY, 1);
  set(disk, STATUS, ACKNOWLEDGED | DRIVES | FEATURES_FIT | RUNS);
}

void disks_start(void) {
  for (u64 place = 0; place < PLACES && count < MOST_DISKS; place++) {
    struct disk *disk = &disks[count];
    disk->registers = (volatile u32 *)(FIRST + STEP * place);
    if (get(disk, MAGIC) != 0x74726976 || get(disk, VERSION) != 2 || get(disk, DEVICE) != 2) continue;
    disk_start(disk);
    count++;
  }
  if (count < DISKS) panic("an image and a swap device are wanted; disks found", count, DISKS);
}

u64 disk_bytes(int disk) { return SECTOR * (get(&disks[disk], CAPACITY) | (u64)get(&disks[disk], CAPACITY + 4) << 32); }

/* One request: its head, the bytes where there are some, and a byte for the outcome. Returns 0, or -1 where the device failed. */
static int carry_out(struct disk *disk, u32 type, u64 sector, void *bytes, u32 length) {
  struct descriptor *next = disk->descriptors;
  disk->head = (struct head){type, 0, sector};
  disk->status = 255;
  *next++ = (struct descriptor){(u64)&disk->head, sizeof disk->head, NEXT, 1};
  if (length) *next++ = (struct descriptor){(u64)bytes, length, NEXT | (type == IN ? DEVICE_WRITES : 0), 2};
  *next = (struct descriptor){(u64)&disk->status, 1, DEVICE_WRITES, 0};
  u16 before = disk->used.count;
  disk->available.ring[disk->available.count % QUEUE] = 0;
  barrier();
  disk->available.count++;
  barrier();
  set(disk, NOTIFY, 0);
  while (disk->used.count == before) {}
  barrier();
  return disk->status ? -1 : 0;
}

static int move(int disk, u32 type, u64 at, u8 *bytes, u64 n) {
  if (at % SECTOR || n % SECTOR || at + n > disk_bytes(disk)) return -1;
  for (u64 done = 0; done < n; done += CHUNK) {
    u64 some = n - done < CHUNK ? n - done : CHUNK;
    if (carry_out(&disks[disk], type, (at + done) / SECTOR, bytes + done, some)) return -1;
  }
  return 0;
}

int disk_read(int disk, u64 at, void *to, u64 n) { return move(disk, IN, at, to, n); }
int disk_write(int disk, u64 at, const void *from, u64 n) { return move(disk, OUT, at, (u8 *)from, n); }
int disk_flush(int disk) { return carry_out(&disks[disk], FLUSH, 0, 0, 0); }
