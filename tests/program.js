// node program.js FOLDER NAME WORDS.. <INPUT: a program of web/prebuilt as if it were the native one: files of the host are read before the run, and written after it. FOLDER has NAME.wasm, or
// NAME.wasm.gz. LINES=1 gives the input line by line. tests/web and bench/soak run it.
"use strict";
const fs = require("fs"), path = require("path"), { gunzipSync } = require("zlib");
const Kefs = require("../web/kefs.js");

function moduleOf(folder, name) {
  const plain = path.join(folder, `${name}.wasm`);
  return new WebAssembly.Module(fs.existsSync(plain) ? fs.readFileSync(plain) : gunzipSync(fs.readFileSync(`${plain}.gz`)));
}

// The disks of those words that name a file of the host, and of a swap file that is to be made.
function disksOf(words) {
  const names = words.map((it) => it.replace(/^(rw|ro):/, "")).filter((it) => fs.existsSync(it) && fs.statSync(it).isFile());
  return new Map(names.map((it) => [it, new Kefs.Disk(new Uint8Array(fs.readFileSync(it)))]));
}

function main(folder, name, words) {
  const files = disksOf(words), before = new Map([...files].map(([at, disk]) => [at, disk.bytes.slice()])), input = new Uint8Array(fs.readFileSync(0));
  const done = Kefs.run(moduleOf(folder, name), words, process.env.LINES ? Kefs.pieces(new TextDecoder().decode(input)) : [input], files);
  for (const [at, disk] of files) if (!before.has(at) || Buffer.compare(before.get(at), disk.bytes) !== 0) fs.writeFileSync(at, disk.bytes);
  for (const at of before.keys()) if (!files.has(at)) fs.unlinkSync(at);
  process.stdout.write(done.output);
  process.stderr.write(done.errors);
  process.exitCode = done.status;
}

if (require.main === module) main(process.argv[2], process.argv[3], process.argv.slice(4));
module.exports = { moduleOf };
