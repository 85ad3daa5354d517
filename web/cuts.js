// Power cuts: what a stop within an event of a run leaves of an image, and after how many msyncs the files stand that recovery finds there. Events count from 1, as those of pagestops.
"use strict";
const Cuts = (() => {
  const kefs = typeof Kefs === "undefined" ? require("./kefs.js") : Kefs;
  const { SECTOR } = kefs;
  const gate = new TextEncoder().encode("GATEOPEN".repeat(SECTOR / 8)), half = new Uint8Array(SECTOR), zeros = new Uint8Array(SECTOR), ones = new Uint8Array(SECTOR).fill(255);
  half.set(gate.subarray(0, SECTOR / 2));

  // What a sector that was not synced holds, by what was last written to it and by lot; null for what it held before. The first five are those of pagestops.
  const FILLINGS = {
    "old bytes": () => null, zeros: () => zeros, ones: () => ones, "half a gate": () => half, "a whole gate": () => gate, "new bytes": (written) => written,
    "old or new, by lot": (written, lot) => (lot() < 0.5 ? null : written),
    "anything, by lot": (written, lot) => [null, written, zeros, ones, half, gate, Uint8Array.from({ length: SECTOR }, () => 256 * lot())][Math.floor(7 * lot())],
  };

  // Numbers from 0 to 1 that are the same for the same seed (xorshift).
  function lots(seed) {
    let it = (seed * 2654435761) >>> 0 || 1;
    return () => {
      it = (it ^ (it << 13)) >>> 0;
      it ^= it >>> 17;
      it = (it ^ (it << 5)) >>> 0;
      return it / 4294967296;
    };
  }

  // The image after a stop within event `stop`: the event is not finished, and what was written since the last sync holds anything. The event `lie`, a sync, has synced nothing.
  function left(base, events, stop, filling, lie = 0) {
    const bytes = base.slice(), unsynced = new Map(), lot = lots(stop);
    events.slice(0, stop).forEach(({ sector, bytes: written }, at) => {
      if (sector >= 0) unsynced.set(sector, written);
      else if (at + 1 < stop && at + 1 !== lie) {
        for (const [n, it] of unsynced) bytes.set(it, n * SECTOR);
        unsynced.clear();
      }
    });
    for (const [n, written] of unsynced) {
      const it = FILLINGS[filling](written, lot);
      if (it) bytes.set(it, n * SECTOR);
    }
    return { bytes, unsynced: unsynced.size };
  }

  // The image after these events, each of them finished.
  function standing(base, events) {
    const bytes = base.slice();
    for (const { sector, bytes: written } of events) if (sector >= 0) bytes.set(written, sector * SECTOR);
    return bytes;
  }

  // The files of an image as pagecat finds them, which recovers first; a text where it refuses.
  function recovered(pagecat, bytes, count) {
    const files = new Map([["image", new kefs.Disk(bytes.slice())]]), found = [];
    for (let n = 0; n < count; n += 1) {
      const { status, output, errors } = kefs.run(pagecat, ["image", String(n)], [], files);
      if (status !== 0) return errors.trim();
      found.push(output);
    }
    return found;
  }

  const isEqual = (a, b) => a.length === b.length && a.every((it, i) => it === b[i]);
  const isAlike = (a, b) => a.length === b.length && a.every((it, i) => isEqual(it, b[i]));

  // A run to be cut: the image before it, its events, the number of files, and the lines at which an msync was acknowledged.
  class Trial {
    constructor(pagecat, base, events, files, acknowledged) { Object.assign(this, { pagecat, base, events, files, acknowledged, kept: [] }); }

    // The files after a number of msyncs, which are found once.
    after(msyncs) {
      const line = msyncs > 0 ? this.acknowledged[msyncs - 1] : -1;
      if (!this.kept[msyncs]) this.kept[msyncs] = recovered(this.pagecat, standing(this.base, this.events.filter((it) => it.line <= line)), this.files);
      return this.kept[msyncs];
    }

    // What recovery finds after a stop; `msyncs` is the least number of msyncs after which the files are so, no less than were acknowledged, or -1.
    judged(stop, filling, lie = 0) {
      const rest = left(this.base, this.events, stop, filling, lie), found = recovered(this.pagecat, rest.bytes, this.files);
      const acknowledged = this.acknowledged.filter((line) => line < this.events[stop - 1].line).length;
      let msyncs = acknowledged;
      while (typeof found !== "string" && msyncs <= this.acknowledged.length && !isAlike(this.after(msyncs), found)) msyncs += 1;
      return { ...rest, found, acknowledged, msyncs: typeof found === "string" || msyncs > this.acknowledged.length ? -1 : msyncs };
    }
  }

  // Of an image, by its mark, the sectors of the gate, of a map, of the first home, and where maps begin: one in layout 2, two of so many blocks in layout 4.
  function placesOf(image) {
    if (image[7] !== 52) return { gate: 2, map: 8, homes: 8195, maps: [3] };
    const blocks = new DataView(image.buffer, image.byteOffset).getUint32(SECTOR + 8, true);
    return { gate: 8, map: 8 * blocks, homes: 16 + 8080 * blocks, maps: [16, 16 + 4040 * blocks] };
  }

  // The part of an image that a sector is of.
  function partOf(image, sector) {
    if (sector < 0) return "sync";
    const { gate, map, homes, maps } = placesOf(image), start = maps.filter((it) => it <= sector).pop();
    if (sector === gate) return "gate";
    if (sector >= homes) return "home";
    return start === undefined ? "head" : sector < start + map ? "map" : "body";
  }

  return { FILLINGS, Trial, left, partOf };
})();
if (typeof module !== "undefined") module.exports = Cuts;
