// A trace: the questions that are put between its commands for pagelook, what the answers tell of each step, and what is wrong with a line in none of the forms.
"use strict";
const Trace = (() => {
  const FORMS = [
    "spawn", "fork P", "exit P", "mmap P ADDR LEN PROT anon", "mmap P ADDR LEN PROT common", "mmap P ADDR LEN PROT private F OFF", "mmap P ADDR LEN PROT shared F OFF",
    "munmap P ADDR LEN", "mprotect P ADDR LEN PROT", "dontneed P ADDR LEN", "msync P ADDR LEN sync", "msync P ADDR LEN async", "truncate F LEN",
    "load P ADDR W", "store P ADDR W VALUE", "fetch P ADDR", "faults",
  ];
  const KINDS = ["anon", "common", "private", "shared"];
  const NUMBER = /^(\d+|0x[0-9a-f]+)$/i, PERMISSION = /^[r-][w-][x-]$/;
  const MOST_PROCESSES = 8; // of so many a step shows the mappings

  // What each word of a form has to be, and what a wrong word is told.
  const WORDS = {
    P: [NUMBER, "a process, a number"], ADDR: [NUMBER, "an address, as 0x10000"], LEN: [NUMBER, "a length in bytes"], PROT: [PERMISSION, "a permission, as rw-"],
    F: [NUMBER, "a file, a number from 0 on"], OFF: [NUMBER, "an offset in the file, in bytes"], W: [/^(0x0*)?[1248]$|^0*[1248]$/i, "a width: 1, 2, 4 or 8 bytes"], VALUE: [NUMBER, "a number"],
  };

  const isQuestion = (line) => line.startsWith("?"), isComment = (line) => line.startsWith("#"), isCommand = (line) => !isQuestion(line) && !isComment(line);

  // Advice for a line that the program has refused as a bad line.
  function advice(line) {
    const words = line.split(" "), same = FORMS.filter((it) => it.split(" ")[0] === words[0]);
    if (line.trim() === "") return "an empty line is no command";
    if (words.includes("")) return "one space between two words, and none at the ends";
    if (same.length === 0) return `no command is named ${words[0]}; there are ${[...new Set(FORMS.map((it) => it.split(" ")[0]))].join(", ")}`;
    const form = (words[0] === "mmap" && same.find((it) => it.split(" ")[5] === words[5])) || (words[0] === "msync" && same.find((it) => it.split(" ")[4] === words[4])) || same[0];
    const wrong = form.split(" ").findIndex((it, n) => n > 0 && (words[n] === undefined || !(WORDS[it] ? WORDS[it][0].test(words[n]) : it === words[n])));
    if (wrong < 0) return words.length > form.split(" ").length ? `${words[0] === "mmap" ? "only fixed or noreplace may follow" : "nothing follows"} ${form}` : `a number is under 2^64: ${form}`;
    const wanted = form.split(" ")[wrong], said = WORDS[wanted] ? WORDS[wanted][1] : (words[0] === "mmap" ? KINDS.join(", ") : "sync or async");
    return `${words[wrong] === undefined ? "here follows" : `${words[wrong]} should be`} ${said}: ${form}`;
  }

  // The lines for pagelook. Each command stands below a comment that repeats it, and those from `first` to `last` above questions; the trace's own questions are marked and kept, but
  // for those that switch the watch.
  function* asked(lines, first = 0, last = Infinity) {
    let step = -1, processes = 0;
    yield* ["?watch on", "?frames", "?slots"];
    for (const line of lines) {
      const isShown = (step >= first || first === 0) && step <= last;
      if (isComment(line)) yield line.replace(/^#([>?])/, "# $1");
      else if (isQuestion(line)) yield* (isShown && !line.startsWith("?watch") ? ["#?", line] : []);
      else {
        step += 1;
        processes = Math.min(MOST_PROCESSES, processes + /^(spawn$|fork )/.test(line));
        yield* [`#> ${line}`, line];
        if (step >= first && step <= last) yield* ["?frames", "?slots", ...Array.from({ length: processes }, (_, n) => `?maps ${n + 1}`)];
      }
    }
  }

  const newStep = (command, notes) => ({ command, notes, said: [], asides: [], parts: { frames: [], slots: [] } });

  // The steps of what pagelook has written: the machine at its boot, a step for each command, and the comments below the last.
  function stepsOf(lines) {
    const boot = newStep("", []), steps = [];
    let now = boot, gap = [], part = now.said, isOwn = false;
    for (const line of lines) {
      if (line.startsWith("#> ")) {
        now = newStep(line.slice(3), between(now, gap));
        steps.push(now);
        part = now.said;
        gap = [];
      } else if (line.startsWith("#?")) isOwn = true;
      else if (isComment(line)) gap.push({ note: line.slice(1).trim() });
      else if (isQuestion(line)) {
        part = [];
        if (isOwn) gap.push({ question: line, answer: part });
        else now.parts[line.slice(1)] = part;
        isOwn = false;
      } else part.push(line);
    }
    const end = gap.map((it) => it.question !== undefined).lastIndexOf(true) + 1;
    between(now, gap.slice(0, end));
    return { boot: told(boot), steps: steps.map(told), closing: gap.slice(end).map((it) => it.note) };
  }

  // What stands between two commands belongs to the first where it has a question, whose answer the comments speak of; else it is the notes of the second, which are returned.
  function between(step, gap) {
    if (gap.every((it) => it.question === undefined)) return gap.map((it) => it.note);
    step.asides = gap;
    return [];
  }

  // A step with what its answers say.
  function told({ command, notes, said, asides, parts }) {
    const { places: frames, hand, free } = placesOf(parts.frames), { places: slots } = placesOf(parts.slots);
    const maps = Object.keys(parts).filter((it) => it.startsWith("maps ")).flatMap((it) => parts[it].map((line) => runOf(Number(it.slice(5)), line))).filter(Boolean);
    const used = [...frames.values()].filter((it) => it.kind !== "free").length;
    const inside = said.filter((it) => it.startsWith(" ")).map((it) => it.trim()), replies = said.filter((it) => !it.startsWith(" "));
    return { command, notes, replies, inside, asides, frames, slots, maps, hand, count: used + free, isDrawn: parts.frames.length > 0 };
  }

  // What an answer tells: frames or slots by their numbers, the one at the clock's hand, and how many are free.
  function placesOf(lines) {
    const places = new Map();
    let hand = null, free = 0;
    for (const line of lines) {
      const found = /^ {2}([> ]) (?:frame|slot) (\d+) {2}(.*)$/.exec(line), left = /^ {2}free (\d+)$/.exec(line);
      if (found) places.set(Number(found[2]), placeOf(found[3]));
      if (found && found[1] === ">") hand = Number(found[2]);
      if (left) free = Number(left[1]);
    }
    return { places, hand, free };
  }

  // A frame or a slot: its kind, what it holds in pagelook's words, and the pages that have it.
  function placeOf(text) {
    const [holds, ...owners] = text.split("  ");
    const pages = owners.map((it) => /^(\d+):0x([0-9a-f]+)(?: (\S+))?$/.exec(it)).filter(Boolean).map((it) => ({ pid: Number(it[1]), page: parseInt(it[2], 16), bits: it[3] || "" }));
    return { kind: kindOf(holds), holds, pages };
  }

  function kindOf(holds) {
    const starts = { free: "free", "the zero page": "zero", "the root": "table", "a table": "table", "own copy": "own" };
    return (Object.entries(starts).find(([start]) => holds.startsWith(start)) || ["", "cache"])[1];
  }

  // A run of pages that a process has mapped: from its first page to that behind its last, and how many of them are over the zero page.
  function runOf(pid, line) {
    const found = /^ {2}0x([0-9a-f]+)-0x([0-9a-f]+) (\S+) .* zero (\d+) /.exec(line);
    return found && { pid, first: parseInt(found[1], 16) / 4096, end: parseInt(found[2], 16) / 4096, permission: found[3], zeros: Number(found[4]) };
  }

  return { FORMS, advice, asked, stepsOf, isCommand, isQuestion, isComment };
})();
if (typeof module !== "undefined") module.exports = Trace;
