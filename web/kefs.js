// The C library of the proved programs, in a browser or in node: files are arrays of bytes, standard input is a list of pieces. It stands for the contracts that the programs assume.
"use strict";
const Kefs = (() => {
  const ERRORS = { ENOENT: 2, EBADF: 9, EEXIST: 17 };
  const OPEN = { create: 0o100, exclusive: 0o200, truncate: 0o1000 };
  const SECTOR = 512, UNIT = 16; // bytes; blocks of memory are of whole units
  const encoded = (text) => new TextEncoder().encode(text);
  const decoded = (bytes) => new TextDecoder().decode(bytes);

  // A file. Where `events` is a list, it gets each write of a sector and each sync, with the number of lines that were read before: power cuts are made of these.
  class Disk {
    constructor(bytes = new Uint8Array(0)) {
      this.bytes = bytes;
      this.events = null;
    }

    resize(length) {
      if (length === this.bytes.length) return;
      const bytes = new Uint8Array(length);
      bytes.set(this.bytes.subarray(0, length));
      this.bytes = bytes;
    }

    read(at, count) { return this.bytes.subarray(at, at + count); }

    write(at, from, line) {
      if (at + from.length > this.bytes.length) this.resize(at + from.length);
      this.bytes.set(from, at);
      if (this.events === null) return;
      for (let i = 0; i < from.length; i += SECTOR) this.events.push({ sector: (at + i) / SECTOR, bytes: from.slice(i, i + SECTOR), line });
    }

    sync(line) { if (this.events !== null) this.events.push({ sector: -1, line }); }
  }

  // The memory of a run above what its module has: blocks of whole units. One that was given back serves for another of its size, since a run may ask for the same block a thousand times.
  class Heap {
    constructor(memory, start) {
      this.memory = memory;
      this.top = Math.ceil(start / UNIT) * UNIT;
      this.sizes = new Map();
      this.free = new Map();
    }

    // The number of the first byte of a block, or 0 where there is no memory.
    take(bytes) {
      const size = Math.ceil(bytes / UNIT) * UNIT, at = (this.free.get(size) || []).pop() || this.above(size);
      if (at !== 0) this.sizes.set(at, size);
      return at;
    }

    above(size) {
      const at = this.top, short = at + size - this.memory.buffer.byteLength;
      if (short > 0 && !this.grow(Math.ceil(short / 65536))) return 0;
      this.top += size;
      return at;
    }

    // A memory of 64 bits grows by a BigInt in engines of today, and by a number in node 20, as one of 32 bits does.
    grow(pages) {
      for (const count of [BigInt(pages), pages]) {
        try {
          this.memory.grow(count);
          return true;
        } catch (why) {
          if (why instanceof RangeError) return false;
        }
      }
      return false;
    }

    give(at) {
      const size = this.sizes.get(at);
      this.sizes.delete(at);
      if (at + size === this.top) this.top = at;
      else if (this.free.has(size)) this.free.get(size).push(at);
      else this.free.set(size, [at]);
    }
  }

  // What a run has open and has said. Of each place of `places`, by its descriptor: a disk with a position, the input, or a list of the bytes that were written.
  class Host {
    constructor(words, input, files) {
      Object.assign(this, { words, input, files, memory: null, heap: null, error: 0, lines: 0, onLine: null });
      this.places = [{ input: true }, { taken: [] }, { taken: [] }];
      this.output = this.places[1].taken;
      this.errors = this.places[2].taken;
      this.piece = new Uint8Array(0);
    }

    bytes(at, count) { return new Uint8Array(this.memory.buffer, Number(at), Number(count)); } // made anew each time: a memory that grows leaves its old views empty

    view(at, count) { return new DataView(this.memory.buffer, Number(at), count); }

    text(at) {
      const from = new Uint8Array(this.memory.buffer, Number(at));
      return decoded(from.slice(0, from.indexOf(0)));
    }

    fails(error) {
      this.error = ERRORS[error];
      return -1;
    }

    disk(descriptor) { return this.places[descriptor] && this.places[descriptor].disk; }

    // Puts something open at the least descriptor that is free.
    place(it) {
      let descriptor = 3;
      while (this.places[descriptor]) descriptor += 1;
      this.places[descriptor] = it;
      return descriptor;
    }

    // The next piece of the input, where the last one is used up. A program that asks for it has written the replies to all before.
    fill() {
      while (this.piece.length === 0 && this.lines < this.input.length) {
        this.piece = this.input[this.lines];
        this.lines += 1;
        if (this.onLine !== null) this.onLine(this.lines);
      }
    }
  }

  // Memory. A block comes back through a pointer to a pair: whether there is one, and where.
  const memoryOf = (host) => {
    function alloc(to, size, align) {
      const at = host.heap.take(Number(size) || Number(align)), pair = host.view(to, 16);
      pair.setBigUint64(0, at === 0 ? 0n : 1n, true);
      pair.setBigUint64(8, BigInt(at || UNIT), true);
      return at;
    }
    function realloc(to, old, kept, size, align) {
      const at = alloc(to, size, align);
      if (at === 0) return;
      new Uint8Array(host.memory.buffer).copyWithin(at, Number(old), Number(old) + Number(kept));
      host.heap.give(Number(old));
    }
    return { rattle_alloc: alloc, rattle_realloc: realloc, rattle_dealloc: (at) => host.heap.give(Number(at)) };
  };

  // Words of the command line, of which word 0 is the program's name, and no environment.
  const wordsOf = (host) => {
    function arg(number, to, room) {
      if (Number(number) >= host.words.length) return -1n;
      const text = encoded(host.words[Number(number)]);
      host.bytes(to, Math.min(text.length, Number(room))).set(text.subarray(0, Number(room)));
      return BigInt(text.length > Number(room) ? -2 : text.length);
    }
    return {
      rattle_arg: arg, rattle_env: () => -1n, rattle_env_at: () => -1n, __sysv_signal: () => 0n,
      rattle_errno: () => host.error, rattle_set_errno(number) { host.error = number; },
    };
  };

  // Names of files.
  const namesOf = (host) => {
    function open(path, flags) {
      const name = host.text(path), found = host.files.get(name);
      if (name === "/dev/null") return host.place({});
      if (found && flags & OPEN.create && flags & OPEN.exclusive) return host.fails("EEXIST");
      if (!found && !(flags & OPEN.create)) return host.fails("ENOENT");
      const disk = found || new Disk();
      if (!found) host.files.set(name, disk);
      if (flags & OPEN.truncate) disk.resize(0);
      return host.place({ disk, at: 0 });
    }
    function close(descriptor) {
      host.places[descriptor] = descriptor < 3 ? {} : undefined;
      return 0;
    }
    // A regular file of one name, which its owner may read and write.
    function statx(descriptor, path, flags, mask, to) {
      const name = host.text(path), disk = name ? host.files.get(name) : host.disk(descriptor);
      if (!disk) return host.fails(name ? "ENOENT" : "EBADF");
      host.bytes(to, 256).fill(0);
      const said = host.view(to, 256);
      said.setUint32(0, 0x7ff, true);
      said.setUint32(4, 4096, true);
      said.setUint32(16, 1, true);
      said.setUint16(28, 0o100600, true);
      said.setBigUint64(32, BigInt([...host.files.values()].indexOf(disk) + 1), true);
      said.setBigUint64(40, BigInt(disk.bytes.length), true);
      said.setBigUint64(48, BigInt(Math.ceil(disk.bytes.length / SECTOR)), true);
      return 0;
    }
    function realpath(path, to) {
      const name = host.text(path);
      if (!host.files.has(name)) {
        host.fails("ENOENT");
        return 0n;
      }
      const text = encoded(`${name}\0`);
      host.bytes(to, text.length).set(text);
      return to;
    }
    const unlink = (path) => (host.files.delete(host.text(path)) ? 0 : host.fails("ENOENT"));
    const fcntl = (descriptor) => (host.places[descriptor] ? host.place(host.places[descriptor]) : host.fails("EBADF")); // F_DUPFD
    return { open, close, statx, realpath, unlink, fcntl, flock: () => 0, fchmod: () => 0 };
  };

  // Bytes of files and streams.
  const bytesOf = (host) => {
    function pread(descriptor, to, count, at) {
      const disk = host.disk(descriptor);
      if (!disk) return BigInt(host.fails("EBADF"));
      const from = disk.read(Number(at), Number(count));
      host.bytes(to, from.length).set(from);
      return BigInt(from.length);
    }
    function pwrite(descriptor, from, count, at) {
      const disk = host.disk(descriptor);
      if (!disk) return BigInt(host.fails("EBADF"));
      disk.write(Number(at), host.bytes(from, count), host.lines);
      return count;
    }
    function read(descriptor, to, count) {
      const place = host.places[descriptor];
      if (place && place.disk) {
        const done = pread(descriptor, to, count, place.at);
        place.at += Number(done);
        return done;
      }
      if (!place || !place.input) return 0n;
      host.fill();
      const from = host.piece.subarray(0, Number(count));
      host.bytes(to, from.length).set(from);
      host.piece = host.piece.subarray(from.length);
      return BigInt(from.length);
    }
    function write(descriptor, from, count) {
      const place = host.places[descriptor];
      if (!place || !place.taken) return BigInt(host.fails("EBADF"));
      place.taken.push(host.bytes(from, count).slice());
      return count;
    }
    function sync(descriptor) {
      const disk = host.disk(descriptor);
      if (!disk) return host.fails("EBADF");
      disk.sync(host.lines);
      return 0;
    }
    function ftruncate(descriptor, length) {
      const disk = host.disk(descriptor);
      if (!disk) return host.fails("EBADF");
      disk.resize(Number(length));
      return 0;
    }
    return { pread, pwrite, read, write, __write: write, fsync: sync, fdatasync: sync, ftruncate };
  };

  const functionsOf = (host) => ({ ...memoryOf(host), ...wordsOf(host), ...namesOf(host), ...bytesOf(host) });

  // The names of all functions that there are: what a module imports has to be among them.
  const NAMES = Object.keys(functionsOf(new Host([], [], new Map())));

  function joined(pieces) {
    const all = new Uint8Array(pieces.reduce((sum, it) => sum + it.length, 0));
    pieces.reduce((at, it) => {
      all.set(it, at);
      return at + it.length;
    }, 0);
    return all;
  }

  // Runs a program once, in a new instance: its status, and what it wrote. `files` are disks by their names, `onLine` is told how many pieces were read. A trap is thrown.
  function run(module, words, input, files, onLine = null) {
    const host = new Host(["", ...words], input, files), functions = functionsOf(host);
    host.onLine = onLine;
    const { exports } = new WebAssembly.Instance(module, { env: functions });
    host.memory = exports.memory;
    host.heap = new Heap(exports.memory, Number(exports.__heap_base.value));
    const status = exports.main(0, 0n);
    return { status, output: joined(host.output), errors: decoded(joined(host.errors)) };
  }

  // The lines of a text as pieces, each with its newline.
  const pieces = (text) => (text.match(/[^\n]*\n|[^\n]+$/g) || []).map(encoded);

  return { Disk, SECTOR, NAMES, run, pieces };
})();
if (typeof module !== "undefined") module.exports = Kefs;
