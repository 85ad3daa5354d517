// Failure-atomic commits of web pages: an image, as libkefs makes it, in a file of the origin's private file system, over the proved plans of famsync. It runs in a worker, where files have
// createSyncAccessHandle; its flush is the sync.
"use strict";
const KefsFile = (() => {
  const PAGE = 4096, SECTOR = 512, CALL = 24, UNIT = 65536; // bytes, of a call of a plan and of a page of WebAssembly's memory too
  const JOURNAL = 1023, ROOM = 16384, HEAP = 1 << 20; // pages that the journal of layout 2 takes; calls of a plan over it; bytes that a call of the module may ask for
  // Of layout 4, whose maps have blocks: slots of a block in each of two bodies, sectors of map and body; calls of a plan and bytes asked for; pages of its directory.
  const SLOTS = 504, HALF = 4040, ROOM_OF_BLOCK = 8192, HEAP_OF_BLOCK = 1 << 16, DIRECTORY = 4;
  const FRONT = 16, ENTRY = 256, MOST_BLOCKS = 2048; // sectors; bytes of an entry; blocks of a map
  const POOL = 4032; // slots of a new image where no other number is given: 16.6 MB
  const MARK = "FAMSYNC4", OLD = "FAMSYNC3";
  const KINDS = { write: 1, sync: 2, lent: 3, copy: 4 };
  const RESULTS = ["ok", "another call's turn", "the file has no layout of a store", "its journal has a map that no commit writes",
    "no such pages: none, more than the store takes, one twice, or one outside of its file", "the file of a page may only be read", "the plan has too many calls", "there is no memory for the pool's map"];
  const TOO_OLD = "the file has a store of layout 3, which is no longer opened: `pagefmt upgrade4 OLD NEW` makes one of layout 4 of a copy of it";

  const homesOf = (blocks) => FRONT + 2 * HALF * blocks;

  // An image of files of zeros of these lengths, of layout 4, whose pool has this many slots at least.
  function newImage(lengths, pool = POOL) {
    const blocks = Math.ceil(pool / (2 * SLOTS));
    if (!(blocks >= 1 && blocks <= MOST_BLOCKS)) throw new RangeError(`a pool of ${pool} pages`);
    const pages = lengths.map((it) => Math.ceil(it / PAGE)), homes = SECTOR * homesOf(blocks), bytes = new Uint8Array(homes + PAGE * pages.reduce((sum, it) => sum + it, DIRECTORY));
    const view = new DataView(bytes.buffer), put32 = (at, ...numbers) => numbers.forEach((it, n) => view.setUint32(at + 4 * n, it, true));
    bytes.set(new TextEncoder().encode(MARK.repeat((2 * SECTOR) / MARK.length)));
    put32(SECTOR + 8, blocks, DIRECTORY);
    lengths.reduce((first, length, n) => {
      put32(homes + ENTRY * n, 1, pages[n] > 0 ? 1 : 0, length, 0, ...(pages[n] > 0 ? [first, pages[n]] : []));
      return first + pages[n];
    }, DIRECTORY);
    return bytes;
  }

  const begins = (bytes, at, text) => new TextDecoder().decode(bytes.subarray(at, at + text.length)) === text;

  const hasMark = (device) => {
    const mark = new Uint8Array(8);
    return device.getSize() >= SECTOR && device.read(mark, { at: 0 }) === 8 && begins(mark, 0, "FAMSYNC");
  };

  // Makes an image in a file that has none. The sector of the kind comes behind the rest and that of the mark last, so that a stop leaves no image, or all of it. All of it is written, the
  // pool too, so that no commit wants more room.
  function create(device, lengths, pool = POOL) {
    if (hasMark(device)) throw new Error("the file has an image");
    const bytes = newImage(lengths, pool);
    device.truncate(bytes.length);
    for (const [first, end] of [[2 * SECTOR, bytes.length], [SECTOR, 2 * SECTOR], [0, SECTOR]]) {
      put(device, bytes.subarray(first, end), first);
      device.flush();
    }
  }

  function put(device, bytes, at) {
    if (device.write(bytes, { at }) !== bytes.length) throw new Error(`a write of ${bytes.length} bytes at ${at} was cut short`);
  }

  // How many blocks a map has, by the kind; 0 in layout 2, and where the file is too short for so many, which is refused.
  function blocksOf(head, size) {
    const blocks = begins(head, SECTOR, MARK) ? new DataView(head.buffer).getUint32(SECTOR + 8, true) : 0;
    return SECTOR * homesOf(blocks) <= size ? blocks : 0;
  }

  // An open image. The module has all of it in memory, as it lends it to each call; what a plan writes goes to both. After a failure of the device only `recover` is of use.
  class Image {
    constructor(module, device) {
      this.device = device;
      this.library = new WebAssembly.Instance(module, { env: this.memory() }).exports;
      this.recover();
    }

    // Opens the image anew, from what the file holds, and makes the calls that recovery takes.
    recover() {
      const head = this.readHead();
      this.take(this.device.getSize(), blocksOf(head, this.device.getSize()));
      if (this.device.read(this.bytes(this.image, this.size), { at: 0 }) !== this.size) throw new Error("a read of the file was cut short");
      this.view().setUint32(this.handle, 0, true);
      this.planned(this.library.famsync_open(BigInt(this.handle), ...this.lent(), ...this.plan()));
      this.carryOut();
    }

    // Mark and kind. Layout 3 is refused here, whatever the module makes of it.
    readHead() {
      const head = new Uint8Array(2 * SECTOR);
      this.device.read(head, { at: 0 });
      if (begins(head, 0, OLD)) throw new Error(TOO_OLD);
      return head;
    }

    // The memory that the module asks for within a call, and gives back before it returns: one block behind the other, in room of which each call begins anew. A block comes back through a
    // pointer to a pair: whether there is one, and where.
    memory() {
      const alloc = (to, length) => {
        const at = this.heap + this.taken, is = this.taken + Number(length) <= this.most;
        this.view().setBigUint64(Number(to), is ? 1n : 0n, true);
        this.view().setBigUint64(Number(to) + 8, BigInt(at), true);
        if (is) this.taken += Math.ceil((Number(length) || 1) / 16) * 16;
        return is ? at : 0;
      };
      const realloc = (to, old, kept, length) => {
        const at = alloc(to, length);
        if (at !== 0) new Uint8Array(this.library.memory.buffer).copyWithin(at, Number(old), Number(old) + Number(kept));
      };
      return { rattle_alloc: alloc, rattle_realloc: realloc, rattle_dealloc: () => {} };
    }

    // Places in the module's memory, above what it had: the image, a handle, a count, two plans, and what a commit lends. Of layout 4, and of no other, a map has blocks.
    take(size, blocks) {
      const { memory } = this.library, slots = blocks > 0 ? 2 * SLOTS * blocks : JOURNAL, room = blocks > 0 ? ROOM_OF_BLOCK * blocks : ROOM, most = HEAP + HEAP_OF_BLOCK * blocks;
      if (this.low === undefined) this.low = memory.buffer.byteLength;
      let at = this.low;
      const place = (bytes) => {
        const found = at;
        at += Math.ceil(bytes / PAGE) * PAGE;
        return found;
      };
      Object.assign(this, { size, blocks, slots, room, most, image: place(size), handle: place(8), used: place(8), calls: place(room * CALL), rows: place(room * SECTOR), scratchCalls: place(room * CALL),
        scratchRows: place(room * SECTOR), pages: place(8 * slots), pointers: place(8 * slots), content: place(PAGE * slots), page: place(PAGE), heap: place(most), taken: 0 });
      const short = at - memory.buffer.byteLength;
      if (short > 0) memory.grow(Math.ceil(short / UNIT));
    }

    bytes(at, length) { return new Uint8Array(this.library.memory.buffer, at, length); }

    view() { return new DataView(this.library.memory.buffer); }

    lent() {
      this.taken = 0;
      return [this.image, Math.floor(this.size / SECTOR), this.scratchCalls, this.room, this.scratchRows, this.room].map(BigInt);
    }

    plan() { return [this.used, this.calls, this.room, this.rows, this.room].map(BigInt); }

    planned(result) { if (result !== 0) throw new Error(RESULTS[result] || `result ${result}`); }

    // Makes the calls of the plan, on the file and on the image in memory.
    carryOut() {
      const count = Number(this.view().getBigUint64(this.used, true));
      try {
        for (let n = 0; n < count; n += 1) this.call(n);
      } catch (why) {
        this.library.famsync_failed(BigInt(this.handle));
        throw why;
      }
      this.planned(this.library.famsync_done(BigInt(this.handle)));
    }

    call(n) {
      const view = this.view(), at = this.calls + CALL * n, [kind, sector, from] = [0, 8, 16].map((it) => Number(view.getBigUint64(at + it, true)));
      if (kind === KINDS.sync) {
        this.device.flush();
        return;
      }
      const bytes = kind === KINDS.write ? this.bytes(this.rows + SECTOR * n, SECTOR) : kind === KINDS.lent ? this.bytes(this.content + PAGE * from, PAGE) : this.bytes(this.image + SECTOR * from, PAGE);
      put(this.device, bytes, SECTOR * sector);
      new Uint8Array(this.library.memory.buffer).copyWithin(this.image + SECTOR * sector, bytes.byteOffset, bytes.byteOffset + bytes.length);
    }

    // Makes pages durable, all of them or none, each { file, page, bytes }, of 4,096 bytes. It returns when they are. A pool takes as many as it has slots; where fewer
    // are free, the plan begins by bringing home all pages that stand in slots. Pages in the order of their files are planned faster.
    commit(updates) {
      if (updates.length > this.slots) throw new Error(RESULTS[4]);
      [...updates].sort((a, b) => a.file - b.file || a.page - b.page).forEach(({ file, page, bytes }, n) => {
        const view = this.view();
        view.setUint16(this.pages + 8 * n, file, true);
        view.setUint32(this.pages + 8 * n + 4, page, true);
        view.setBigUint64(this.pointers + 8 * n, BigInt(this.content + PAGE * n), true);
        this.bytes(this.content + PAGE * n, PAGE).set(bytes);
      });
      const lent = [this.pages, updates.length, this.pointers, updates.length].map(BigInt);
      this.planned(this.library.famsync_commit(BigInt(this.handle), ...this.lent(), ...this.plan(), ...lent));
      this.carryOut();
    }

    // A page of a file as the last commit left it.
    read(file, page) {
      this.planned(this.library.famsync_read(BigInt(this.handle), ...this.lent(), file, page, BigInt(this.page)));
      return this.bytes(this.page, PAGE).slice();
    }

    // The length of a file in bytes.
    length(file) {
      this.planned(this.library.famsync_length(BigInt(this.handle), ...this.lent(), file, BigInt(this.page)));
      return Number(this.view().getBigUint64(this.page, true));
    }

    close() { this.device.close(); }
  }

  return { create, hasMark, newImage, Image, PAGE, POOL };
})();
if (typeof module !== "undefined") module.exports = KefsFile;
