// The page: the trace and its machine, its steps, questions, power cuts, and the link that holds them. What runs the programs is in runs.js, mostly in a worker.
"use strict";
var Page = (() => { // of the window, where tests find its state
  const data = JSON.parse(document.getElementById("data").textContent);
  const WINDOW = 600; // steps that are looked at at once; of a longer trace the others have their replies only
  const WAIT = 250, SLOW = 400; // milliseconds from a key to the check, and until a run is said to go on
  const MOST_LINK = 30000; // letters of a trace in a link
  const CHIPS = ["?walk 1 0x10000", "?tables 1", "?maps 1", "?frames", "?slots", "?tlb", "?counts"];
  const part = (name) => document.getElementById(name);
  const { escape } = Steps;
  const count = (n, what) => `${n.toLocaleString("en")} ${what}${n === 1 ? "" : "s"}`;

  // What runs the programs: a worker, which can be stopped, or, where the browser has none, the page itself.
  class Engine {
    constructor() {
      this.next = 1;
      this.begin();
    }

    begin() {
      this.waiting = new Map();
      const take = (message) => this.take(message);
      try {
        this.worker = new Worker(URL.createObjectURL(new Blob([part("engine").textContent], { type: "text/javascript" })));
        this.worker.onmessage = (event) => take(event.data);
        this.worker.onerror = () => this.goAlone(take);
        this.post = (message) => this.worker.postMessage(message);
        this.post({ modules: data.modules });
      } catch (why) {
        this.goAlone(take);
      }
    }

    // Goes on without a worker, with what was asked of it.
    goAlone(take) {
      if (this.worker) this.worker.terminate();
      this.worker = null;
      this.post = Runs.server(take);
      this.post({ modules: data.modules });
      for (const { request } of this.waiting.values()) this.post(request);
    }

    take({ id, told, result, error }) {
      const it = this.waiting.get(id);
      if (!it) return;
      if (told !== undefined) it.tell(told);
      else {
        this.waiting.delete(id);
        if (error === undefined) it.resolve(result);
        else it.reject(new Error(error));
      }
    }

    ask(verb, words, tell = () => {}) {
      const request = { id: this.next, verb, ...words };
      this.next += 1;
      return new Promise((resolve, reject) => {
        this.waiting.set(request.id, { request, tell, resolve, reject });
        this.post(request);
      });
    }

    // Ends what goes on. Without a worker nothing can be ended.
    stop() {
      if (!this.worker) return;
      this.worker.terminate();
      const { waiting } = this;
      this.begin();
      for (const it of waiting.values()) it.reject(new Error("stopped"));
    }
  }

  const state = { name: "", lines: [], replies: [], window: null, closing: [], answers: [], at: 0, start: null, startedOn: 0, files: 1, question: "", isDirty: false, isRunning: false, cutting: null };
  let engine = null, view = null, typing = 0, remembering = 0, linked = "";

  function say(why) {
    part("alert").hidden = why === "";
    part("alert").textContent = why;
  }

  // Shows that something goes on, where it takes a while, with its part of the whole and a button that stops it.
  async function busy(doing, work) {
    const late = setTimeout(() => { part("busy").hidden = false; }, SLOW);
    part("doing").textContent = doing;
    part("part").removeAttribute("value");
    try {
      return await work(({ part: done }) => { if (done !== undefined) part("part").value = done; });
    } finally {
      clearTimeout(late);
      part("busy").hidden = true;
    }
  }

  const settings = () => ({
    specs: part("specs").value.split(/\s+/).filter(Boolean), frames: Number(part("frames").value), slots: Number(part("slots").value), mode: part("mode").value, layout: part("layout").value,
    host: data.files, start: state.start, startedOn: state.start ? state.startedOn : 0, files: state.files,
  });

  function linesOf(text) {
    const lines = text.split("\n");
    return lines[lines.length - 1] === "" ? lines.slice(0, -1) : lines;
  }

  // Runs the trace as it stands, and shows the step at which it was. A change meanwhile runs it again.
  async function check(at = state.at) {
    state.at = at;
    state.isDirty = true;
    if (state.isRunning) return;
    state.isRunning = true;
    while (state.isDirty) {
      state.isDirty = false;
      state.lines = linesOf(part("trace").value);
      try {
        await runAround(Math.max(0, state.at));
        say("");
      } catch (why) {
        say(why.message === "stopped" ? "The run was stopped." : why.message);
        shown({ replies: [], steps: [], before: null, first: 0, closing: [] }, 0);
      }
    }
    state.isRunning = false;
  }

  async function runAround(at) {
    const first = Math.max(0, Math.floor(at - WINDOW / 2)), last = first + WINDOW - 1, long = state.lines.length > 2000;
    const found = await busy(`${count(state.lines.length, "line")} are run`, (tell) => engine.ask("run", { settings: settings(), lines: state.lines, first, last }, tell));
    part("took").textContent = long || found.milliseconds > 300 ? `${count(found.replies.length, "command")}, ${(found.milliseconds / 1000).toFixed(1)} s` : count(found.replies.length, "command");
    shown(found, at);
  }

  function shown(found, at) {
    Object.assign(state, { replies: found.replies, window: found, closing: found.closing });
    forgetCuts();
    list();
    beside();
    show(Math.min(at, Math.max(0, found.replies.length - 1)));
  }

  // Shows a step. One outside of what was looked at is looked at first.
  function show(at) {
    const { first, steps, before } = state.window, step = steps[at - first];
    state.at = at;
    if (!step && state.replies.length > 0) return check(at);
    view.show(at, state.replies.length, step, at === first ? before : steps[at - first - 1], steps, at === state.replies.length - 1 ? closing() : "");
    for (const row of part("list").querySelectorAll(".at")) row.classList.remove("at");
    const row = part("list").querySelector(`[data-step="${at}"]`);
    if (row) {
      row.classList.add("at");
      reveal(row);
    }
    rememberSoon();
    return state.question ? ask() : undefined;
  }

  // Scrolls the list, and never the page, so that a row is seen.
  function reveal(row) {
    const box = part("list"), low = row.offsetTop, high = low + row.offsetHeight;
    if (low < box.scrollTop + 20 || high > box.scrollTop + box.clientHeight - 20) box.scrollTop = low - box.clientHeight / 3;
  }

  const kindOf = (reply = "") => (/^bad line/.test(reply) ? "bad" : /^(error|fault \d|stall|halted)/.test(reply) ? "refused" : "");

  const folded = (question, answer) => `<details class="answer"><summary><code>${escape(question)}</code></summary>${Steps.answered(question, answer).replace(/<code>.*?<\/code>/, "")}</details>`;

  // The trace to read: comments, commands with their replies, questions, whose answers are behind a click.
  function list() {
    const { first, steps, before } = state.window, total = state.replies.length;
    const rows = steps.map((step, n) => `${Steps.paragraphs(step.notes)}<div class="row" data-step="${first + n}"><code>${escape(step.command)} <span class="reply ${kindOf(step.replies[0])}">&rArr; ${escape(step.replies.join(" / "))}</span></code></div>${Steps.asides(step.asides, folded)}`);
    const above = first > 0 ? `<p class="more">${count(first, "command")} above</p>` : before ? Steps.asides(before.asides, folded) : "", rest = total - first - steps.length;
    part("list").innerHTML = above + rows.join("") + (rest > 0 ? `<p class="more">${count(rest, "command")} below: the slider goes there</p>` : closing());
  }

  // The comments below the last command. A lesson's questions have their answers behind a click.
  function closing() {
    const questions = state.closing.filter((it) => it.startsWith("Question: ")), rest = state.closing.filter((it) => !it.startsWith("Question: "));
    return Steps.paragraphs(rest) + questions.map((it, n) => `<details class="question"><summary>${escape(it)}</summary><p>${state.answers[n] || "This question has no answer here."}</p></details>`).join("");
  }

  // The reply beside each line of the editor, and what is wrong with bad lines.
  function beside() {
    if (part("editor").hidden) return;
    const wrong = [];
    let step = -1;
    const rows = state.lines.map((line, n) => {
      if (!Trace.isCommand(line)) return "";
      step += 1;
      const reply = (state.replies[step] || []).join(" / "), kind = kindOf(reply), here = step === state.at ? " here" : "";
      if (kind === "bad" && wrong.length < 4) wrong.push(`<p><span class="bad">line ${n + 1}</span>: ${escape(Trace.advice(line))}</p>`);
      return `<span class="${kind}${here}">${escape(reply)}</span>`;
    });
    part("beside").innerHTML = rows.join("\n");
    part("advice").innerHTML = wrong.join("");
  }

  // The question that stands, asked after this step.
  async function ask() {
    const question = state.question.replace(/^\??/, "?"), at = state.at;
    let seen = -1;
    const lines = state.lines.filter((line) => Trace.isCommand(line) && (seen += 1) <= at);
    try {
      const answer = await busy("the trace is run up to this step", (tell) => engine.ask("ask", { settings: settings(), lines, question }, tell));
      if (at === state.at) part("answer").innerHTML = Steps.answered(`${answer[0]}   after step ${at + 1}`, answer.slice(1));
    } catch (why) {
      part("answer").textContent = why.message;
    }
  }

  function askFor(question) {
    state.question = question.trim();
    part("question").value = state.question;
    part("answer").innerHTML = "";
    rememberSoon();
    return state.question ? ask() : undefined;
  }

  // Power cuts

  function forgetCuts() {
    state.cutting = null;
    for (const name of ["map", "found", "cutting"]) part(name).textContent = "";
    part("lie").innerHTML = '<option value="0">is honest';
  }

  async function cut() {
    const lie = Number(part("lie").value), request = { settings: settings(), lines: state.lines, lie }, mine = { request, torn: 0, done: 0 };
    state.cutting = mine;
    part("found").textContent = "";
    part("map").textContent = "";
    try {
      await busy("power is cut", (tell) => engine.ask("cut", request, (told) => {
        if (state.cutting !== mine) return;
        if (told.heads) cutHeads(told, lie);
        else cutColumn(told, mine, tell);
      }));
    } catch (why) {
      part("cutting").textContent += why.message === "stopped" ? " Stopped." : ` ${why.message}`;
    }
  }

  // Rows of the same as a head over its columns.
  function groups(heads, of) {
    const found = [];
    for (const it of heads.map(of)) {
      if (found.length > 0 && found[found.length - 1].said === it && it !== "sync") found[found.length - 1].wide += 1;
      else found.push({ said: it, wide: 1 });
    }
    return found;
  }

  function cutHeads({ heads, count: events, names }, lie) {
    const syncs = heads.map((it, n) => ({ ...it, stop: n + 1 })).filter((it) => it.part === "sync");
    part("lie").innerHTML = `<option value="0">is honest${syncs.map((it) => `<option value="${it.stop}"${it.stop === lie ? " selected" : ""}>lies about sync ${it.stop}, in ${escape(it.command)}`).join("")}`;
    const commands = groups(heads, (it) => `${it.line} ${it.command}`).map(({ said, wide }) => `<td class="group command" colspan="${wide}" title="${escape(said)}">${wide > 1 ? escape(said.replace(/^\d+ /, "")) : ""}</td>`);
    const parts = groups(heads, (it) => it.part).map(({ said, wide }) => `<td class="group" colspan="${wide}" title="${said}">${wide > 1 ? said.slice(0, 3 * wide) : said[0]}</td>`);
    const rows = names.map((name, row) => `<tr><th scope="row">${name}</th>${heads.map((_, n) => `<td data-row="${row}" data-stop="${n + 1}"></td>`).join("")}</tr>`);
    part("map").innerHTML = `<table><tr><th></th>${commands.join("")}</tr><tr><th></th>${parts.join("")}</tr>${rows.join("")}</table>`;
    Object.assign(state.cutting, { heads, events, names });
    if (heads.length < 4) part("cutting").textContent = "This trace makes nothing durable: the lesson msync and the example torn_msync do.";
  }

  function cutColumn({ column, cells }, mine, tell) {
    cells.forEach((msyncs, row) => {
      const cell = part("map").querySelector(`[data-row="${row}"][data-stop="${column + 1}"]`);
      cell.textContent = msyncs < 0 ? "-" : msyncs;
      cell.className = msyncs < 0 ? "torn" : `c${msyncs % 5}`;
      if (msyncs < 0 && mine.torn === 0) part("map").scrollLeft = cell.offsetLeft - part("map").clientWidth / 2; // the first that is torn is to be seen
      mine.torn += msyncs < 0;
      mine.done += 1;
    });
    tell({ part: (column + 1) / mine.heads.length });
    const rest = mine.events > mine.heads.length ? ` (the first ${mine.heads.length} of ${mine.events} events)` : "", lie = mine.request.lie > 0 ? " A drive that lies about a sync is outside of what is proved." : "";
    part("cutting").textContent = `${count(mine.done, "cut")}, each recovered by the proved pagecat: ${mine.torn === 0 ? "none is torn, and no acknowledged msync is lost" : `${mine.torn} torn (-)`}.${rest}${lie} Click a cell.`;
  }

  // Looks at one cell: what was cut, and what recovery finds.
  async function look(row, stop) {
    const { request, names } = state.cutting, result = await busy("the cut is looked at", () => engine.ask("look", { ...request, stop, filling: names[row] }));
    for (const cell of part("map").querySelectorAll(".picked")) cell.classList.remove("picked");
    part("map").querySelector(`[data-row="${row}"][data-stop="${stop}"]`).classList.add("picked");
    const what = result.part === "sync" ? "a sync" : `the write of sector ${result.sector}, of the ${result.part}`, during = result.command ? `during <code>${escape(result.command)}</code>` : "as the machine starts";
    const verdict = result.found ? escape(result.found) : result.msyncs < 0 ? "torn files" : `the files as they were after ${count(result.msyncs, "msync")}`;
    const heads = Array.from({ length: (result.rows[0] || { after: [] }).after.length }, (_, n) => `<th>after ${count(n, "msync")}</th>`).join("");
    const rows = result.rows.map((it) => `<tr><td>file ${it.file}, page ${it.page}</td><td>${it.found}</td>${it.after.map((said, n) => `<td${n === result.msyncs ? ' class="same"' : ""}>${said}</td>`).join("")}</tr>`).join("");
    part("found").innerHTML = `<p>Event ${stop}, ${what}, ${during}: the power fails. ${count(result.acknowledged, "msync")} had been acknowledged; ${count(result.unsynced, "sector")} not synced: ${names[row]}. <b>Recovery finds ${verdict}.</b></p>
      ${rows ? `<div class="scroll"><table><tr><th>bytes of</th><th>recovered</th>${heads}</tr>${rows}</table></div>` : ""}${result.found ? "" : '<p><button id="again">Start the machine on what is left</button></p>'}`;
    if (!result.found) part("again").onclick = () => startOn(result);
  }

  // Starts a machine on the image of a cut, with a trace that reads its files.
  function startOn({ bytes, files }) {
    Object.assign(state, { start: bytes, startedOn: state.startedOn + 1, files, name: "", answers: [] });
    const maps = Array.from({ length: files }, (_, n) => `mmap 1 0 4096 r-- shared ${n} 0\nload 1 0x${(0x10000 + 0x1000 * n).toString(16)} 8\n`).join("");
    part("trace").value = `# The machine is started on what the power cut left, and recovers it. What do its files hold?\nspawn\n${maps}`;
    part("left").hidden = false;
    part("example").value = "";
    check(0);
    part("left").scrollIntoView({ block: "center" });
  }

  // Links

  // What the address says: an example by its name, or a trace with its machine; the step, and the question.
  function remember() {
    const words = new URLSearchParams(), trace = part("trace").value;
    clearTimeout(remembering);
    if (state.start !== null || trace.length > MOST_LINK) return;
    if (state.name) words.set("lesson", state.name);
    else for (const name of ["specs", "frames", "slots", "mode", "layout", "trace"]) words.set(name, part(name).value);
    if (state.at > 0) words.set("step", state.at + 1);
    if (state.question) words.set("ask", state.question);
    linked = `#${words}`;
    if (location.hash !== linked) location.replace(linked);
  }

  // Browsers refuse an address that changes very often, as by a slider.
  function rememberSoon() {
    clearTimeout(remembering);
    remembering = setTimeout(remember, WAIT);
  }

  // Opens what an address says; false where it says nothing.
  function opened(hash) {
    const words = new URLSearchParams(hash.slice(1)), at = Math.max(0, (Number(words.get("step")) || 1) - 1);
    state.question = words.get("ask") || "";
    part("question").value = state.question;
    if (data.examples.some((it) => it.name === words.get("lesson"))) pick(words.get("lesson"), at);
    else if (words.has("trace")) {
      fresh();
      for (const name of ["specs", "frames", "slots", "mode", "layout", "trace"]) if (words.has(name)) part(name).value = words.get(name);
      if (part("layout").value === "") part("layout").value = "new"; // a link to a layout that no image is made of any more
      own();
      check(at);
    } else return false;
    return true;
  }

  async function copyLink() {
    remember();
    const isLong = part("trace").value.length > MOST_LINK || state.start !== null;
    try {
      if (!isLong) await navigator.clipboard.writeText(location.href);
      part("linked").textContent = isLong ? (state.start ? "what a cut left is in no link" : "the trace is too long for a link") : "copied: it holds the trace and its machine";
    } catch (why) {
      part("linked").textContent = "it stands in the address bar";
    }
  }

  // The trace and its machine

  // What was changed is no example any more.
  function own() {
    Object.assign(state, { name: "", answers: [] });
    part("example").value = "";
    summary();
  }

  function summary() {
    const { specs, frames, slots, mode, layout } = settings();
    part("summary").textContent = `${frames} frames, ${slots} slots, ${mode === "sv39" ? "Sv39" : "Sv48"}, ${specs.length === 0 ? "no file" : specs.join(" ")}, layout ${layout === "new" ? 2 : 4}`;
  }

  function fresh() {
    state.start = null;
    part("left").hidden = true;
  }

  function pick(name, at = 0) {
    const it = data.examples.find((example) => example.name === name);
    fresh();
    for (const field of ["specs", "layout", "frames", "slots", "mode"]) part(field).value = it[field];
    part("trace").value = it.text;
    part("example").value = name;
    Object.assign(state, { name, answers: it.answers });
    summary();
    return check(at);
  }

  // Read, or edit.
  function turn(isEdited) {
    part("editor").hidden = !isEdited;
    part("list").hidden = isEdited;
    part("reading").setAttribute("aria-selected", !isEdited);
    part("editing").setAttribute("aria-selected", isEdited);
    if (isEdited) beside();
  }

  // The step of the line in which the cursor stands.
  function atCursor() {
    const { value, selectionStart } = part("trace"), above = value.slice(0, selectionStart).split("\n").length;
    return linesOf(value).slice(0, above).filter(Trace.isCommand).length - 1;
  }

  function typed() {
    own();
    clearTimeout(typing);
    typing = setTimeout(() => check(Math.max(0, atCursor())), WAIT);
  }

  const guarded = (act) => (...words) => Promise.resolve().then(() => act(...words)).catch((why) => { if (why.message !== "stopped") say(why.message); });

  function listen() {
    part("example").onchange = guarded(() => { if (part("example").value) return askFor("") || pick(part("example").value); });
    part("trace").oninput = guarded(typed);
    part("trace").onscroll = () => { part("beside").scrollTop = part("trace").scrollTop; };
    part("trace").onclick = guarded(() => { if (!state.isRunning && state.window && atCursor() >= 0 && atCursor() < state.replies.length) { show(atCursor()); beside(); } });
    for (const name of ["specs", "frames", "slots", "mode", "layout"]) part(name).onchange = guarded(() => { fresh(); own(); return check(); });
    part("reading").onclick = () => turn(false);
    part("editing").onclick = () => turn(true);
    part("list").onclick = guarded((event) => { const row = event.target.closest("[data-step]"); if (row) show(Number(row.dataset.step)); });
    part("question").onchange = guarded(() => askFor(part("question").value));
    part("chips").onclick = guarded((event) => { if (event.target.dataset.ask) askFor(event.target.dataset.ask); });
    part("cut").onclick = guarded(cut);
    part("lie").onchange = guarded(cut);
    part("map").onclick = guarded((event) => { const cell = event.target.closest("[data-row]"); if (cell && cell.textContent) return look(Number(cell.dataset.row), Number(cell.dataset.stop)); });
    part("anew").onclick = guarded(() => { fresh(); return check(); });
    part("stop").onclick = () => engine.stop();
    part("link").onclick = guarded(copyLink);
    for (const [link, section] of [["trusting", "trust"], ["powering", "power"]]) part(link).onclick = (event) => { event.preventDefault(); part(section).scrollIntoView(); };
    window.onhashchange = () => { if (location.hash !== linked) opened(location.hash); };
  }

  // What the browser lacks, in a line; empty where it has all.
  function lacks() {
    if (typeof WebAssembly === "undefined") return "This browser does not run WebAssembly, which the programs of this page are. Chrome 85, Firefox 113 and Safari 16.4 or newer do.";
    if (typeof DecompressionStream === "undefined") return "This browser can't unpack the programs of this page (DecompressionStream). Chrome 85, Firefox 113 and Safari 16.4 or newer can.";
    return typeof BigInt64Array === "undefined" ? "This browser has no integers of 64 bits (BigInt), which the programs of this page use. Chrome 85, Firefox 113 and Safari 16.4 or newer have them." : "";
  }

  function start() {
    const isLesson = (it) => it.name.endsWith(".look"), option = (it) => `<option value="${it.name}">${it.name.replace(/\.\w+$/, "").replace(/_/g, " ")}: ${escape(it.shows)}</option>`;
    part("example").innerHTML = `<option value="" hidden>a trace of your own</option><optgroup label="Lessons, with questions">${data.examples.filter(isLesson).map(option).join("")}</optgroup><optgroup label="Examples">${data.examples.filter((it) => !isLesson(it)).map(option).join("")}</optgroup>`;
    part("questions").innerHTML = CHIPS.map((it) => `<option value="${it}">`).join("");
    part("chips").innerHTML = CHIPS.map((it) => `<button data-ask="${it}">${it}</button>`).join("");
    part("forms").textContent = Trace.FORMS.join("\n");
    part("proved").textContent = data.proved;
    const why = lacks();
    say(why);
    if (why) return;
    engine = new Engine();
    view = new Steps.View(part("steps"), guarded(show), guarded((walk) => askFor(`?walk ${walk}`)));
    listen();
    turn(false);
    if (!opened(location.hash)) guarded(pick)(data.examples[0].name);
  }

  return { start, state };
})();
Page.start();
