// What the page asks of the programs: an image, a run of a trace, the answer to a question, and power cuts. In the page's worker, or in the page itself where there is none.
"use strict";
const Runs = (() => {
  const PIECE = 500; // lines that a program gets at once, and after which progress is told
  const MOST_EVENTS = 240, MOST_BYTES = 16; // events that are cut, and bytes of a page that are shown
  const text = (lines) => lines.map((it) => `${it}\n`).join("");
  const acknowledges = (command, reply) => /^msync .* sync$/.test(command) && reply === "ok";

  // The words of pagefmt that make an image of layout 2 (new) or 4 (new4), this one with the smallest pool: each cut copies the image.
  const wordsOf = (layout) => (layout === "new4" ? [layout, "--pool", "1008"] : [layout]);

  // A machine's settings: the specs of its files, the image's layout (new or new4), frames, slots, mode, the host's files by name; and `start`, the image
  // that a cut has left, where it goes on from one, with its number `startedOn`.
  function imageOf(programs, { specs, layout, host, start }) {
    const files = new Map(Object.entries(host).map(([name, content]) => [name, new Kefs.Disk(new TextEncoder().encode(content))]));
    if (start) files.set("image", new Kefs.Disk(start.slice()));
    else {
      const made = Kefs.run(programs.pagefmt, [...wordsOf(layout), "image", ...(specs.length > 0 ? specs : ["zero:0"])], [], files);
      if (made.status !== 0) throw new Error(`${made.errors.trim()} (files: ${specs.join(" ")})`);
    }
    return files;
  }

  // Runs lines on an image, and returns what pagelook has written.
  function looked(programs, settings, files, pieces, onPiece = null) {
    const words = ["image", "swap", String(settings.frames), String(settings.slots), settings.mode];
    const done = Kefs.run(programs.pagelook, words, pieces, files, onPiece);
    if (done.status !== 0) throw new Error(`${done.errors.trim()} (frames ${settings.frames}, slots ${settings.slots})`);
    return new TextDecoder().decode(done.output).split("\n").slice(0, -1);
  }

  // Pieces of whole lines.
  function inPieces(lines) {
    const pieces = [];
    for (let at = 0; at < lines.length; at += PIECE) pieces.push(new TextEncoder().encode(text(lines.slice(at, at + PIECE))));
    return pieces;
  }

  let cuts = 0; // the number of the last request that cuts or runs: one that still cuts for an older one ends

  // Runs a trace: the replies to all its commands, and the steps from `first` to `last`, with the one before them.
  async function run(programs, { settings, lines, first, last }, tell) {
    cuts += 1;
    const pieces = inPieces([...Trace.asked(lines, first - 1, last)]), from = performance.now();
    const said = looked(programs, settings, imageOf(programs, settings), pieces, (count) => { if (count % 20 === 0) tell({ part: count / pieces.length }); });
    const { boot, steps, closing } = Trace.stepsOf(said), milliseconds = performance.now() - from;
    return { replies: steps.map((it) => it.replies), before: first > 0 ? steps[first - 1] : boot, steps: steps.slice(first, last + 1), first, closing, milliseconds };
  }

  // The answer to a question after a number of commands.
  async function ask(programs, { settings, lines, question }) {
    const said = looked(programs, settings, imageOf(programs, settings), inPieces([...lines.filter(Trace.isCommand), "# asked:", question]));
    return said.slice(said.lastIndexOf("# asked:") + 1);
  }

  // The last run that was cut, by what was asked for: each of its cells may be looked at.
  let kept = { asked: "", trial: null };

  function trialOf(programs, { settings, lines }) {
    const asked = JSON.stringify([{ ...settings, start: settings.startedOn }, lines]);
    if (kept.asked === asked) return kept;
    const commands = lines.filter(Trace.isCommand), files = imageOf(programs, settings), image = files.get("image"), base = image.bytes.slice();
    image.events = [];
    const replies = repliesOf(commands, looked(programs, settings, files, Kefs.pieces(text(commands.flatMap((it) => ["#", it])))));
    const events = image.events.map((it) => ({ ...it, line: Math.ceil(it.line / 2) })); // a command has two lines, the mark and itself
    const last = events.length > MOST_EVENTS ? events[MOST_EVENTS - 1].line : commands.length;
    const acknowledged = commands.map((it, n) => (acknowledges(it, replies[n]) ? n + 1 : 0)).filter((it) => it > 0 && it <= last);
    const count = settings.start ? settings.files : Math.max(1, settings.specs.length);
    kept = { asked, commands, trial: new Cuts.Trial(programs.pagecat, base, events, count, acknowledged) };
    return kept;
  }

  // The first line of the reply to each command, in what pagelook has written with a mark above each.
  function repliesOf(commands, said) {
    const replies = [];
    said.forEach((line, at) => { if (line === "#") replies.push(said[at + 1]); });
    return replies;
  }

  // Tells the events of a run, and then for each what every filling leaves.
  async function cut(programs, request, tell) {
    const mine = cuts + 1, { commands, trial } = trialOf(programs, request), shown = trial.events.slice(0, MOST_EVENTS);
    cuts = mine;
    const heads = shown.map(({ sector, line }) => ({ part: Cuts.partOf(trial.base, sector), command: line > 0 ? commands[line - 1] : "the start of the machine", line }));
    tell({ heads, count: trial.events.length, names: Object.keys(Cuts.FILLINGS) });
    for (let n = 0; n < shown.length && mine === cuts; n += 1) {
      tell({ column: n, cells: Object.keys(Cuts.FILLINGS).map((it) => trial.judged(n + 1, it, request.lie).msyncs) });
      await new Promise((then) => { setTimeout(then, 0); });
    }
    return { acknowledged: trial.acknowledged.length };
  }

  // All of one cut: what was cut, and the bytes of each page that recovery finds or that some msync left.
  async function look(programs, request) {
    const { commands, trial } = trialOf(programs, request), { sector, line } = trial.events[request.stop - 1];
    const result = trial.judged(request.stop, request.filling, request.lie), isRead = typeof result.found !== "string";
    const rows = !isRead ? [] : result.found.flatMap((bytes, file) => Array.from({ length: Math.ceil(bytes.length / 4096) }, (_, page) => {
      const shown = (files) => (typeof files === "string" ? "" : bytesOf(files[file].subarray(4096 * page, 4096 * page + 4096)));
      return { file, page, found: shown(result.found), after: Array.from({ length: trial.acknowledged.length + 1 }, (_, msyncs) => shown(trial.after(msyncs))) };
    })).filter((it) => [it.found, ...it.after].some((said) => said !== "zeros"));
    return { ...result, found: isRead ? "" : result.found, rows: rows.slice(0, 40), sector, part: Cuts.partOf(trial.base, sector), command: line > 0 ? commands[line - 1] : "", files: trial.files };
  }

  // The first bytes of a page that are not zeros.
  function bytesOf(page) {
    const first = page.findIndex((it) => it !== 0), end = page.length - [...page].reverse().findIndex((it) => it !== 0);
    if (first < 0) return "zeros";
    const shown = [...page.subarray(first, Math.min(end, first + MOST_BYTES))].map((it) => it.toString(16).padStart(2, "0")).join(" ");
    return `${first > 0 ? `at ${first}: ` : ""}${shown}${end > first + MOST_BYTES ? " .." : ""}`;
  }

  const VERBS = { run, ask, cut, look };

  // A program's module of its packed bytes.
  async function unpacked(packed) {
    const bytes = Uint8Array.from(atob(packed), (it) => it.charCodeAt(0)), stream = new Blob([bytes]).stream().pipeThrough(new DecompressionStream("gzip"));
    return WebAssembly.compile(await new Response(stream).arrayBuffer());
  }

  async function programsOf(modules) {
    const programs = {};
    for (const name of Object.keys(modules)) programs[name] = await unpacked(modules[name]);
    return programs;
  }

  // Answers requests, each { id, verb, .. }, by messages of its id: what is told meanwhile, and in the end a result or an error. The first is { modules }.
  function server(post) {
    let programs = null;
    return async (request) => {
      if (request.modules) programs = programsOf(request.modules);
      else {
        try {
          const result = await VERBS[request.verb](await programs, request, (told) => post({ id: request.id, told }));
          post({ id: request.id, result });
        } catch (why) {
          post({ id: request.id, error: String(why.message || why) });
        }
      }
    };
  }

  return { server, run, ask, wordsOf, VERBS };
})();
if (typeof module !== "undefined") module.exports = Runs;
if (typeof WorkerGlobalScope !== "undefined" && globalThis instanceof WorkerGlobalScope) {
  const serve = Runs.server((message) => postMessage(message));
  onmessage = (event) => serve(event.data);
}
