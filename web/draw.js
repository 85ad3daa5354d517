// The picture of one step of a trace: pages of processes, frames and slots, with what the command changed, the clock's hand, and whom it passed over.
"use strict";
const Draw = (() => {
  // Colors that the color-blind tell apart too; what they say stands in words beside them, and lines have dashes. A page's style may give the classes other ones.
  const INK = "#222222", PALE = "#999999", CHANGED = "#d02020";
  const LINES = ["#164a9c", "#a04a00", "#09805f", "#bf1994", "#787325", "#1c525d"], DASHES = ["", "8 3", "2 3", "9 3 2 3", "4 4", "1 5"]; // of processes, in turn
  const FILLS = { free: "#ffffff", zero: "#d8d8d8", table: "#c9e0fa", own: "#93dcae", cache: "#fce78f", slot: "#e8a9d9" };
  const SAID = { free: "free", zero: "zero page", table: "table", own: "own copy", cache: "page of a file or object", slot: "in a slot" };
  const NOTHING = { kind: "free", holds: "free", pages: [] };

  const EDGE = 8, TOP = 46, PAGE_HIGH = 26, HEAD_HIGH = 28, SLOT_HIGH = 32, LETTER = 7.2; // pixels; a letter is so wide on the average
  const NARROW = 640, ONE_COLUMN = 16; // in narrower pictures slots stand below; so many frames stand in one column, and no line crosses another frame
  const escape = (text) => text.replace(/&/g, "&amp;").replace(/</g, "&lt;").replace(/>/g, "&gt;");
  const hex = (number) => `0x${number.toString(16)}`;
  const key = (pid, page) => `${pid}:${page}`;

  // A picture in the making: words, cards, which are boxes with an edge, and lines.
  class Board {
    constructor(width, height) { Object.assign(this, { width, height, parts: [] }); }

    // Words of which so many pixels are shown; a pointer over them shows all.
    word(x, y, text, { anchor = "start", size = 12, color = INK, wide = Infinity, name = "ink" } = {}) {
      const most = Math.floor((wide * 12) / (size * LETTER)), shown = text.length <= most ? escape(text) : `<title>${escape(text)}</title>${escape(text.slice(0, Math.max(1, most - 2)))}..`;
      this.parts.push(`<text class="${name}" x="${x}" y="${y}" text-anchor="${anchor}" font-size="${size}" fill="${color}">${shown}</text>`);
    }

    card(x, y, width, height, kind, { isChanged = false, pid = 0, dashes = "" } = {}) {
      const [edge, thick] = isChanged ? [CHANGED, 3] : [pid ? colorOf(pid) : PALE, 1], dash = dashes ? ` stroke-dasharray="${dashes}"` : "", names = [kind, ...(isChanged ? ["changed"] : []), ...(pid ? [`p${number(pid)}`] : [])];
      this.parts.push(`<rect class="${names.join(" ")}" x="${x}" y="${y}" width="${width}" height="${height}" rx="3" fill="${FILLS[kind]}" stroke="${edge}" stroke-width="${thick}"${dash}/>`);
    }

    link(x, y, toX, toY, pid) {
      const half = (x + toX) / 2, dash = dashesOf(pid) ? ` stroke-dasharray="${dashesOf(pid)}"` : "";
      this.parts.push(`<path class="p${number(pid)}" d="M${x} ${y} C${half} ${y} ${half} ${toY} ${toX} ${toY}" fill="none" stroke="${colorOf(pid)}" stroke-width="1.6"${dash}/>`);
    }

    // What stands between the two is of one page, whose walk a click may ask for.
    open(walk) { this.parts.push(`<g data-walk="${walk}">`); }

    close() { this.parts.push("</g>"); }

    hand(x, y) { this.parts.push(`<path class="ink" d="M${x} ${y} l9 -7 v14 z" fill="${INK}"/>`); }

    text() {
      const head = `<svg xmlns="http://www.w3.org/2000/svg" width="${this.width}" height="${this.height}" viewBox="0 0 ${this.width} ${this.height}" font-family="sans-serif">`;
      return [head, `<rect class="paper" width="${this.width}" height="${this.height}" fill="white"/>`, ...this.parts, "</svg>", ""].join("\n");
    }
  }

  const number = (pid) => (pid - 1) % LINES.length;
  const colorOf = (pid) => LINES[number(pid)], dashesOf = (pid) => DASHES[number(pid)];

  // Where all stands in pictures of a width: the first so many frames, and as high as the highest step, so that nothing moves between two steps.
  function placesOf(width, shown) {
    const isNarrow = width < NARROW, isRow = shown <= ONE_COLUMN || isNarrow, pagesWide = isNarrow ? 150 : 206, slotsWide = isNarrow ? width - 2 * EDGE : 160;
    const link = isRow && shown <= ONE_COLUMN ? (isNarrow ? 30 : 84) : 14, hand = isNarrow ? 14 : 62;
    const left = EDGE + pagesWide + link, room = width - left - hand - EDGE - (isNarrow ? 0 : slotsWide);
    const columns = isRow ? 1 : Math.max(1, Math.floor((room + hand) / 214)), wide = isRow ? Math.min(room, 500) : Math.floor((room + hand) / columns) - 16;
    const high = isRow && wide >= 330 ? 26 : 42, gap = isRow ? 0 : 16, frames = { left, columns, wide, high, gap, hasLinks: isRow && shown <= ONE_COLUMN };
    return { width, shown, isNarrow, pagesWide, slotsWide, hand, frames, slotsLeft: isNarrow ? EDGE : left + columns * (wide + gap) + (isRow ? hand : 0), height: 0 };
  }

  const cornerOf = ({ left, columns, wide, high, gap }, n) => [left + (n % columns) * (wide + gap), TOP + Math.floor(n / columns) * (high + 6)];
  const bottomOf = (places) => TOP + Math.ceil(places.shown / places.frames.columns) * (places.frames.high + 6);

  // The frames up to the last one that is ever used, `most` at most.
  function gridOf(steps, most, width) {
    const last = steps.reduce((high, it) => Math.max(high, ...it.frames.keys()), 0), places = placesOf(width, Math.min(most, 1 + last));
    places.height = steps.reduce((high, it) => Math.max(high, heightOf(it, places)), 0);
    return places;
  }

  function heightOf(step, places) {
    const above = Math.max(spotsOf(step).low, bottomOf(places)), slots = SLOT_HIGH * (places.isNarrow ? Math.ceil(step.slots.size / 2) : step.slots.size);
    return places.isNarrow ? above + 34 + slots : Math.max(above, TOP + slots) + 14;
  }

  // The place and the bits of each page of the processes that has one, by the page.
  const owners = (places) => new Map([...places].flatMap(([n, it]) => it.pages.map(({ pid, page, bits }) => [key(pid, page), { pid, page, end: page + 1, number: n, bits }])));

  // What each page has that has a frame or a slot. None before the boot.
  function seats(step) {
    const said = new Map();
    if (!step) return said;
    for (const [at, it] of owners(step.slots)) said.set(at, { ...it, said: `slot ${it.number}`, kind: "slot" });
    for (const [at, it] of owners(step.frames)) said.set(at, { ...it, said: `${it.bits} frame ${it.number}`, kind: "free" });
    return said;
  }

  // Pages that are mapped and have no frame of their own and no slot, as rows: they were not touched, or are over the zero page, which no frame tells.
  function untouched(step) {
    const taken = seats(step), rows = [];
    for (const { pid, first, end, permission, zeros } of step.maps) {
      const pages = [...taken.values()].filter((it) => it.pid === pid && it.page >= first && it.page < end).map((it) => it.page).sort((a, b) => a - b), count = end - first - pages.length;
      const what = zeros === 0 ? "untouched" : zeros === count ? "zero page" : "untouched or zero";
      [...pages, end].reduce((from, page) => {
        if (page > from) rows.push({ pid, page: from, end: page, bits: permission, said: `${permission} ${what}`, zeros, kind: "none" });
        return page + 1;
      }, first);
    }
    return rows;
  }

  const inOrder = (a, b) => a.pid - b.pid || a.page - b.page;

  // How low each page or row of pages stands, and where the last one ends.
  function spotsOf(step) {
    const spots = [];
    let low = TOP - HEAD_HIGH, last = null;
    for (const it of [...seats(step).values(), ...untouched(step)].sort(inOrder)) {
      if (it.pid !== last) low += HEAD_HIGH;
      spots.push({ ...it, y: low });
      last = it.pid;
      low += PAGE_HIGH;
    }
    return { spots, low };
  }

  // Whether a page or a row of pages is another one than before.
  function hasMoved(it, before, old) {
    if (it.kind !== "none") return (old.get(key(it.pid, it.page)) || {}).said !== it.said;
    return !before.maps.some((was) => was.pid === it.pid && was.permission === it.bits && was.zeros > 0 === it.zeros > 0 && was.first <= it.page && was.end >= it.end);
  }

  const same = (a, b) => a.kind === b.kind && a.holds === b.holds && JSON.stringify(a.pages) === JSON.stringify(b.pages);
  const hasChanged = (n, places, before) => Boolean(before) && !same(places.get(n) || NOTHING, before.get(n) || NOTHING);
  const over = (place) => place.pages.map(({ pid, page }) => `${pid}:${hex(page)}`).join(" ");

  // What the clock did to a frame in this step: it gave it up, or passed over it and cleared its A.
  function clocked(n, step, before) {
    const gone = step.inside.filter((it) => /^frame \d+ was given up/.test(it)).map((it) => Number(it.split(" ")[1]));
    if (gone.includes(n)) return "given up";
    if (!before || gone.length === 0 || !before.frames.has(n) || !step.frames.has(n)) return "";
    const bits = new Map(step.frames.get(n).pages.map((it) => [key(it.pid, it.page), it.bits]));
    return before.frames.get(n).pages.some((it) => it.bits[6] === "A" && (bits.get(key(it.pid, it.page)) || "")[6] === "-") ? "spared" : "";
  }

  // The picture of a step, in the places that all steps of a trace have; what the step before it has otherwise gets a broad red edge.
  function pictureOf(step, before, places) {
    const shown = Math.min(places.shown, step.count), grid = { ...places, shown }, height = Math.max(places.height, heightOf(step, grid)), board = new Board(places.width, height);
    heads(board, step, grid);
    const { spots, low } = spotsOf(step);
    if (grid.frames.hasLinks) links(board, step, grid, spots);
    pages(board, step, before, grid, spots);
    for (let n = 0; n < shown; n += 1) frame(board, n, step, before, grid);
    slots(board, step, before, grid, Math.max(low, bottomOf(grid)));
    return board.text();
  }

  function heads(board, step, { shown, frames, slotsLeft, isNarrow }) {
    const rest = shown < step.count ? ` of ${step.count}` : "", hand = isNarrow ? "" : "; the triangle is the clock's hand";
    board.word(EDGE, 16, "pages", { size: 13 });
    board.word(frames.left, 16, step.count ? `frames: ${shown}${rest}${frames.wide * frames.columns > 300 ? hand : ""}` : "the machine has halted", { size: 13 });
    if (!isNarrow) board.word(slotsLeft, 16, `slots in use: ${step.slots.size}`, { size: 13 });
  }

  function links(board, step, { shown, frames, pagesWide }, spots) {
    for (const { pid, number: n, y, kind } of spots.filter((it) => it.kind === "free")) {
      const [x, frameY] = cornerOf(frames, n);
      if (n < shown && kind === "free") board.link(EDGE + pagesWide, y + PAGE_HIGH / 2 - 3, x, frameY + frames.high / 2, pid);
    }
  }

  function pages(board, step, before, { pagesWide, frames, isNarrow }, spots) {
    const old = seats(before), least = isNarrow && frames.hasLinks;
    let last = null;
    for (const it of spots) {
      const isNone = it.kind === "none", count = it.end - it.page, rest = count > 1 ? ` +${count - 1}` : "";
      if (it.pid !== last) board.word(EDGE, it.y - 7, `process ${it.pid}`, { size: 13, color: colorOf(it.pid), name: `p${number(it.pid)}` });
      last = it.pid;
      board.open(`${it.pid} ${hex(it.page * 4096)}`);
      board.card(EDGE, it.y, pagesWide, PAGE_HIGH - 5, !isNone ? it.kind : it.said.endsWith("zero page") ? "zero" : "free", { isChanged: Boolean(before) && hasMoved(it, before, old), pid: it.pid, dashes: isNone ? "2 3" : "" });
      const name = `${hex(it.page)}${rest}`, said = isNone ? it.said : it.kind === "slot" ? it.said : least ? it.bits : isNarrow ? `frame ${it.number}` : it.said, wide = pagesWide - 12 - LETTER * name.length;
      board.word(EDGE + 6, it.y + 15, name, { name: isNone ? "pale" : "ink", color: isNone ? "#777777" : INK });
      board.word(EDGE + pagesWide - 6, it.y + 15, isNone && wide < said.length * LETTER ? it.bits : said, { anchor: "end", wide, name: isNone ? "pale" : "ink", color: isNone ? "#777777" : INK });
      board.close();
    }
  }

  // A frame with its number, what it holds and the pages over it; beside it the hand, and what the clock did.
  function frame(board, n, step, before, { frames, isNarrow }) {
    const [x, y] = cornerOf(frames, n), { wide, high } = frames, it = step.frames.get(n) || NOTHING, said = clocked(n, step, before), isAlone = frames.columns === 1;
    board.card(x, y, wide, high, it.kind, { isChanged: hasChanged(n, step.frames, before && before.frames) });
    board.word(x + 8, y + 17, String(n), { size: 13 });
    if (n === step.hand) board.hand(x + wide + 2, y + high / 2);
    if (said && isAlone && !isNarrow) board.word(x + wide + 13, y + high / 2 + 4, said, { size: 11 });
    const shared = it.pages.length > 1 ? `, ${it.pages.length} share it` : "", beside = said && (!isAlone || isNarrow) ? said : "";
    if (high === 26) board.word(x + 36, y + 17, `${it.holds}${shared}${it.pages.length > 0 ? ": " : ""}${over(it)}`, { wide: wide - 42 });
    else {
      const [first, second] = brief(it.holds);
      board.word(x + 30, y + 17, first, { wide: wide - 34 });
      board.word(x + 8, y + 34, [second, over(it)].filter(Boolean).join(" "), { wide: wide - 14 - LETTER * beside.length });
      if (beside) board.word(x + wide - 6, y + 34, beside, { anchor: "end", size: 11 });
    }
  }

  // What a frame holds, in fewer words and two rows.
  function brief(holds) {
    const table = /^a table of process (\d+), (level \d+), (from page \S+) on$/.exec(holds), page = /^(page \d+ of \w+ \d+)(?:, (.*))?$/.exec(holds);
    if (table) return [`table of ${table[1]}, ${table[2]}`, table[3]];
    return page ? [page[1], page[2] || ""] : [holds.replace("own copy of page", "own copy,").replace(/^the (root|zero)/, "$1"), ""];
  }

  function slots(board, step, before, { slotsLeft, slotsWide, isNarrow, width }, low) {
    const wide = isNarrow ? (width - 2 * EDGE - 8) / 2 : slotsWide, top = isNarrow ? low + 28 : TOP;
    if (isNarrow) board.word(EDGE, low + 18, `slots in use: ${step.slots.size}`, { size: 13 });
    [...step.slots.keys()].sort((a, b) => a - b).forEach((n, at) => {
      const it = step.slots.get(n), [x, y] = isNarrow ? [EDGE + (at % 2) * (wide + 8), top + SLOT_HIGH * Math.floor(at / 2)] : [slotsLeft, top + SLOT_HIGH * at];
      board.card(x, y, wide, SLOT_HIGH - 6, "slot", { isChanged: hasChanged(n, step.slots, before && before.slots) });
      board.word(x + 8, y + 17, String(n), { size: 13 });
      board.word(x + 40, y + 17, over(it) || it.holds, { wide: wide - 46 });
    });
  }

  return { gridOf, pictureOf, FILLS, SAID, CHANGED };
})();
if (typeof module !== "undefined") module.exports = Draw;
