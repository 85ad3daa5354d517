// node modules.js FOLDER <REQUESTS: tests/web asks it for runs of the modules in FOLDER, a request a line in JSON, each answered by one. LIE=1 has a disk whose reads give what the file held at first.
"use strict";
const fs = require("fs"), { createHash } = require("crypto"), { createInterface } = require("readline");
const Kefs = require("../web/kefs.js"), Trace = require("../web/trace.js"), Draw = require("../web/draw.js"), Cuts = require("../web/cuts.js"), Runs = require("../web/runs.js");
const KefsFile = require("../web/kefs_file.js"), { moduleOf } = require("./program.js");

const folder = process.argv[2], NAMES = ["pagefmt", "pagelook", "pagecat"];
const programs = Object.fromEntries(NAMES.map((it) => [it, moduleOf(folder, it)]));
const text = (lines) => lines.map((it) => `${it}\n`).join("");
const sum = (bytes) => createHash("sha256").update(bytes).digest("hex");

if (process.env.LIE) {
  Kefs.Disk.prototype.read = function read(at, count) { // of a disk that was lengthened, the new part holds zeros
    if (!this.old || this.old.length < this.bytes.length) {
      const old = new Uint8Array(this.bytes.length);
      old.set(this.old || new Uint8Array(0));
      this.old = old;
    }
    return this.old.subarray(at, at + count);
  };
}

function imageOf({ layout, specs, host }) {
  const files = new Map(Object.entries(host || {}).map(([name, content]) => [name, new Kefs.Disk(new TextEncoder().encode(content))]));
  const { status, errors } = Kefs.run(programs.pagefmt, [...Runs.wordsOf(layout), "image", ...(specs.length > 0 ? specs : ["zero:0"])], [], files);
  if (status !== 0) throw new Error(errors);
  return files;
}

// What a module imports that kefs.js has not.
const imports = () => Object.fromEntries(NAMES.map((it) => [it, WebAssembly.Module.imports(programs[it]).map(({ name }) => name).filter((name) => !Kefs.NAMES.includes(name))]));

// Runs a trace: what is written, the exit status, the sums of image and swap, and the sums of the image's files by pagecat.
function run(request) {
  const files = imageOf(request), words = ["image", "swap", String(request.frames), String(request.slots), request.mode], input = text(request.lines);
  const done = Kefs.run(programs.pagelook, words, request.byLines ? Kefs.pieces(input) : [new TextEncoder().encode(input)], files);
  const image = files.get("image").bytes, swap = files.get("swap").bytes;
  const held = request.specs.map((_, n) => sum(Kefs.run(programs.pagecat, ["image", String(n)], [], new Map([["image", new Kefs.Disk(image.slice())]])).output));
  return { status: done.status, output: new TextDecoder().decode(done.output), errors: done.errors, image: sum(image), swap: sum(swap), held };
}

// An image as pagefmt makes it, or why it does not.
function make({ layout, specs, host }) {
  const files = new Map(Object.entries(host || {}).map(([name, content]) => [name, new Kefs.Disk(new TextEncoder().encode(content))])), { status, errors } = Kefs.run(programs.pagefmt, [...Runs.wordsOf(layout), "image", ...specs], [], files);
  return { status, errors, image: files.has("image") ? sum(files.get("image").bytes) : null };
}

// All stops of a trace, as pagestops prints them; the sync that is event `drop` syncs nothing.
function stops(request) {
  const files = imageOf(request), image = files.get("image"), base = image.bytes.slice(), names = Object.keys(Cuts.FILLINGS).slice(0, request.fillings || 5);
  image.events = [];
  const done = Kefs.run(programs.pagelook, ["image", "swap", "64", "16", "sv39"], Kefs.pieces(text(request.lines)), files), replies = new TextDecoder().decode(done.output).split("\n");
  const acknowledged = request.lines.map((it, n) => (/^msync .* sync$/.test(it) && replies[n] === "ok" ? n + 1 : 0)).filter((it) => it > 0);
  const trial = new Cuts.Trial(programs.pagecat, base, image.events, request.specs.length, acknowledged);
  let bad = 0;
  const lines = image.events.map(({ sector }, n) => {
    const judged = names.map((it) => trial.judged(n + 1, it, request.drop || 0)), said = judged.map(({ msyncs }) => (msyncs < 0 ? "-" : msyncs));
    bad += said.filter((it) => it === "-").length;
    return `stop ${n + 1} ${Cuts.partOf(base, sector)} acknowledged ${judged[0].acknowledged} left ${said.join(" ")}${said.includes("-") ? " BAD" : ""}`;
  });
  return [...lines, `stops ${image.events.length} recoveries ${names.length * image.events.length} bad ${bad}`];
}

const MASK = (1n << 128n) - 1n, WORD = (1n << 64n) - 1n;

// Random words, many of them extreme, from a seed.
function words(seed) {
  let state = BigInt(seed) | 1n;
  const next = () => {
    state = (state * 6364136223846793005n + 1442695040888963407n) & WORD;
    return state >> 33n;
  };
  return () => {
    const it = ((next() << 33n) | (next() << 2n) | (next() & 3n)) & WORD;
    return [it, it & 0xffffffffn, WORD, 0n, 1n, 1n << 63n, it >> 40n][Number(next() % 7n)];
  };
}

// How many of so many products and shifts of 128 bits by runtime.c are wrong. The modules export those that they have.
function wide({ name, count }) {
  const none = Object.fromEntries(Kefs.NAMES.map((it) => [it, () => 0])), { exports } = new WebAssembly.Instance(programs[name], { env: none }), next = words(1);
  const got = () => { const view = new DataView(exports.memory.buffer); return view.getBigUint64(1024, true) | (view.getBigUint64(1032, true) << 64n); };
  let wrong = 0;
  for (let n = 0; n < count; n += 1) {
    const [a, b, c, d] = [next(), next(), next(), next()], shift = Number(next() % 128n), whole = a | (b << 64n);
    const wanted = { __multi3: [[a, b, c, d], (whole * (c | (d << 64n))) & MASK], __lshrti3: [[a, b, shift], whole >> BigInt(shift)], __ashlti3: [[a, b, shift], (whole << BigInt(shift)) & MASK] };
    for (const [it, [given, right]] of Object.entries(wanted)) {
      if (!exports[it]) continue;
      exports[it](1024n, ...given);
      wrong += got() !== right;
    }
  }
  return { has: Boolean(exports.__multi3), wrong };
}

// The questions between lines, and what the steps of an output are; in some widths the pictures of all, which have to be drawn without a throw.
const asked = ({ lines }) => [...Trace.asked(lines)];
function drawn({ output, widths, frames }) {
  const { boot, steps } = Trace.stepsOf(output);
  for (const width of widths) {
    const grid = Draw.gridOf(steps, frames, width);
    steps.forEach((it, n) => Draw.pictureOf(it, steps[n - 1] || boot, grid));
  }
  return steps.map((it) => [it.command, it.replies.join(" / "), it.count, it.asides.map(({ question }) => question).filter(Boolean)]);
}
const advice = ({ lines }) => lines.map(Trace.advice);

// A file of the origin's private file system, over bytes; as a disk it keeps its events.
class Device {
  constructor(bytes = new Uint8Array(0)) { this.disk = new Kefs.Disk(bytes); }

  getSize() { return this.disk.bytes.length; }

  truncate(length) { this.disk.resize(length); }

  read(to, { at }) {
    const from = this.disk.read(at, to.length);
    to.set(from);
    return from.length;
  }

  write(bytes, { at }) {
    this.disk.write(at, bytes, 0);
    return bytes.length;
  }

  flush() { this.disk.sync(0); }

  close() {}
}

// Commits by kefs_file.js to two files: the image is left at `path`. Each event is cut, with so many fillings; the event `drop`, a sync, syncs nothing. How many cuts left files that are torn,
// or lost a commit that was acknowledged.
function commits({ path: to, count, fillings, drop }) {
  const lengths = [8192, 5000], famsync = moduleOf(folder, "famsync"), device = new Device();
  KefsFile.create(device, lengths, 1008);
  const base = device.disk.bytes.slice(), image = new KefsFile.Image(famsync, device), read = (it) => sum(Buffer.concat([[0, 0], [0, 1], [1, 0], [1, 1]].map(([file, page]) => it.read(file, page))));
  device.disk.events = [];
  const after = [read(image)], acknowledged = [0];
  for (let n = 1; n <= count; n += 1) {
    image.commit([{ file: 0, page: n % 2, bytes: new Uint8Array(4096).fill(n) }, { file: 1, page: 0, bytes: new Uint8Array(4096).fill(100 + n) }]);
    after.push(read(image));
    acknowledged.push(device.disk.events.length);
  }
  fs.writeFileSync(to, device.disk.bytes);
  const events = device.disk.events, told = { lengths: [image.length(0), image.length(1)], events: events.length, syncs: events.flatMap(({ sector }, n) => (sector < 0 ? [n + 1] : [])), torn: 0, lost: 0 };
  for (let stop = 1; stop <= events.length; stop += 1) {
    for (const filling of Object.keys(Cuts.FILLINGS).slice(0, fillings)) {
      const found = after.indexOf(opened(famsync, Cuts.left(base, events, stop, filling, drop).bytes, read));
      told.torn += found < 0;
      told.lost += found >= 0 && found < acknowledged.filter((it) => it > 0 && it < stop).length;
    }
  }
  return told;
}

// Commits of these numbers of pages, one after the other, to a file that is as long as the longest, on a new image, which is left at `path`. Of each the pages that are not found again when the
// image is opened anew.
function large({ path: to, counts, pool }) {
  const famsync = moduleOf(folder, "famsync"), device = new Device(), most = Math.max(...counts), held = Array(most).fill(0);
  KefsFile.create(device, [4096 * most], pool);
  const image = new KefsFile.Image(famsync, device);
  const lost = counts.map((count, n) => {
    const pages = Array.from({ length: count }, (_, page) => most - 1 - page);
    image.commit(pages.map((page) => ({ file: 0, page, bytes: new Uint8Array(4096).fill(n + 1) })));
    pages.forEach((page) => { held[page] = n + 1; });
    const anew = new KefsFile.Image(famsync, new Device(device.disk.bytes.slice()));
    return held.filter((it, page) => !anew.read(0, page).every((byte) => byte === it)).length;
  });
  fs.writeFileSync(to, device.disk.bytes);
  return lost;
}

// What is said of an image of a layout, empty as it was made.
function refusals({ marks }) {
  const made = new Device();
  KefsFile.create(made, [4096], 1008);
  return marks.map((mark) => {
    const bytes = made.disk.bytes.slice();
    bytes.set(new TextEncoder().encode(mark.repeat(128)));
    return opened(moduleOf(folder, "famsync"), bytes, () => "");
  });
}

// What a new image is, or why there is none.
function created({ lengths, pool }) {
  const device = new Device();
  try {
    KefsFile.create(device, lengths, pool);
    return sum(device.disk.bytes);
  } catch (why) {
    return why.message;
  }
}

// What is read of an image, or why it is refused.
function opened(famsync, bytes, read) {
  try {
    return read(new KefsFile.Image(famsync, new Device(bytes)));
  } catch (why) {
    return why.message;
  }
}

const VERBS = { imports, run, commits, large, refusals, created, make, stops, wide, asked, drawn, advice, forms: () => Trace.FORMS };

createInterface({ input: process.stdin }).on("line", (line) => {
  const request = JSON.parse(line);
  try {
    console.log(JSON.stringify({ result: VERBS[request.verb](request) }));
  } catch (why) {
    console.log(JSON.stringify({ error: String(why.stack || why) }));
  }
});
