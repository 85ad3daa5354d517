// Steps through a trace in the page: buttons, a slider and keys, the command with what it did and the answers beside it, and its picture. tools/lookmap writes pages of this alone.
"use strict";
const Steps = (() => {
  const MOST_FRAMES = 64, MOST_WIDE = 1100; // that are drawn, and pixels
  const escape = (text) => text.replace(/&/g, "&amp;").replace(/</g, "&lt;").replace(/>/g, "&gt;");
  const BAR = '<p class="bar"><button class="back" title="key: left arrow">&#9664; Back</button> <button class="next" title="key: right arrow">Next &#9654;</button> <input class="slider" type="range" min="0" value="0" aria-label="step"> <span class="where"></span></p>';
  const LETTERS = "Letters of an entry: V valid; R, W, X may be read, written, run; U for programs; A accessed since the hand passed; D stored to. 1:0x10 is page 0x10 of process 1. <i>Spared</i>: the clock's hand passed over the frame and cleared its A.";

  const legend = () => `<p class="legend">${Object.entries(Draw.SAID).map(([kind, said]) => `<span class="kind ${kind}" style="background: ${Draw.FILLS[kind]}">${said}</span>`).join("")}<span class="kind was-changed">changed by the command</span> <span class="letters">${LETTERS}</span></p>`;

  // Comments as paragraphs: an empty one ends a paragraph, and one that ends a sentence ends a row of it.
  function paragraphs(notes) {
    const parts = [[]];
    for (const it of notes) {
      if (it === "") parts.push([]);
      else parts[parts.length - 1].push(`${escape(it)}${/[.?!:]$/.test(it) ? "<br>" : ""}`);
    }
    return parts.filter((rows) => rows.length > 0).map((rows) => `<p class="note">${rows.join(" ").replace(/<br>$/, "")}</p>`).join("");
  }

  const answered = (question, answer) => `<div class="answered"><code>${escape(question)}</code><pre>${escape(answer.join("\n"))}</pre></div>`;

  // What stands behind a command: comments, and questions with their answers as `shownAs` has them.
  function asides(list, shownAs = answered) {
    let notes = [], shown = "";
    for (const it of [...list, { note: null }]) {
      if (typeof it.note === "string") notes.push(it.note);
      else {
        shown += paragraphs(notes) + (it.question === undefined ? "" : shownAs(it.question, it.answer));
        notes = [];
      }
    }
    return shown;
  }

  const command = ({ command: line, replies }) => `<code><b>${escape(line)}</b> <span class="reply">&rArr; ${escape(replies.join(" / "))}</span></code>`;

  // The view of one step in `root`. `onMove` is told the number of a step that is wanted, from 0 on; whoever is told shows it, or gets it first. `onWalk` is told whose walk is asked for.
  class View {
    constructor(root, onMove, onWalk = null, frames = MOST_FRAMES) {
      root.innerHTML = `${BAR}<div class="said" aria-live="polite"></div><figure></figure><div class="behind"></div>${legend()}`;
      const part = (name) => root.querySelector(name);
      Object.assign(this, { onMove, frames, at: 0, total: 0, shown: null, grid: null, slider: part(".slider"), where: part(".where"), said: part(".said"), behind: part(".behind"), figure: part("figure"), back: part(".back"), next: part(".next") });
      this.back.onclick = () => this.move(this.at - 1);
      this.next.onclick = () => this.move(this.at + 1);
      this.slider.oninput = () => this.move(Number(this.slider.value));
      document.addEventListener("keydown", (event) => this.press(event));
      window.addEventListener("resize", () => this.draw());
      if (onWalk) this.figure.onclick = (event) => this.walk(event, onWalk);
    }

    walk(event, onWalk) {
      const page = event.target.closest("[data-walk]");
      if (page) onWalk(page.dataset.walk);
    }

    move(wanted) {
      const at = Math.max(0, Math.min(this.total - 1, wanted));
      if (this.total > 0) this.onMove(at);
    }

    press(event) {
      const wanted = { ArrowRight: this.at + 1, ArrowLeft: this.at - 1, Home: 0, End: this.total - 1 }[event.key];
      if (wanted === undefined || event.altKey || event.ctrlKey || event.metaKey || (event.target.closest && event.target.closest("textarea, input, select"))) return;
      event.preventDefault();
      this.move(wanted);
    }

    // Shows a step, with the one before it and what closes the trace; `all` are the steps whose pictures are to stand alike.
    show(at, total, step, before, all, closing = "") {
      Object.assign(this, { at, total, shown: { step, before, all } });
      this.slider.max = Math.max(0, total - 1);
      this.slider.value = at;
      this.where.textContent = total > 0 ? `step ${at + 1} of ${total}` : "no command";
      this.back.disabled = at === 0;
      this.next.disabled = at >= total - 1;
      this.said.innerHTML = step ? `${paragraphs(step.notes)}<p class="command">${command(step)}</p>${step.inside.length > 0 ? `<pre class="inside">${escape(step.inside.join("\n"))}</pre>` : ""}` : "";
      this.behind.innerHTML = step ? `${asides(step.asides)}${closing}` : "";
      this.draw();
    }

    // Draws the step as wide as there is room.
    draw() {
      const { step, before, all } = this.shown || {}, width = Math.min(MOST_WIDE, this.figure.clientWidth);
      if (!step || !step.isDrawn || width === 0) {
        this.figure.innerHTML = "";
        return;
      }
      if (!this.grid || this.grid.all !== all || this.grid.width !== width) this.grid = { all, width, places: Draw.gridOf(all, this.frames, width) };
      this.figure.innerHTML = Draw.pictureOf(step, before, this.grid.places);
    }
  }

  return { View, escape, paragraphs, answered, asides, command };
})();
