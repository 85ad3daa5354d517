// The note pad: two notes, and a button that saves both.
"use strict";
const Notes = (() => {
  const data = JSON.parse(document.getElementById("data").textContent), part = (name) => document.getElementById(name);
  const state = { saves: 0, waiting: new Map(), next: 1, worker: null };

  function ask(verb, words) {
    const id = state.next;
    state.next += 1;
    return new Promise((resolve, reject) => {
      state.waiting.set(id, { resolve, reject });
      state.worker.postMessage({ id, verb, ...words });
    });
  }

  function take({ id, result, error }) {
    const { resolve, reject } = state.waiting.get(id);
    state.waiting.delete(id);
    if (error === undefined) resolve(result);
    else reject(new Error(error));
  }

  function say(why) {
    part("alert").hidden = false;
    part("alert").textContent = why;
  }

  // Saves both notes; done when they are durable.
  async function save(left, right) {
    await ask("save", { notes: [left, right], saves: state.saves + 1 });
    state.saves += 1;
    part("saved").textContent = `save ${state.saves} is done`;
  }

  async function start() {
    part("proved").textContent = data.proved;
    if (!navigator.storage || !navigator.storage.getDirectory || location.protocol === "file:") {
      say("Here this page gets no files to keep notes in: browsers have such for pages from https or from localhost. In the folder of the repository: python3 -m http.server, and http://localhost:8000/docs/notes.html");
      return;
    }
    state.worker = new Worker(URL.createObjectURL(new Blob([part("engine").textContent], { type: "text/javascript" })));
    state.worker.onmessage = (event) => take(event.data);
    const { notes: [left, right] } = await ask("open", { famsync: data.famsync });
    if (left.saves !== right.saves) say(`the notes are of different saves, ${left.saves} and ${right.saves}: that must not be`);
    Object.assign(state, { saves: left.saves });
    part("left").value = left.text;
    part("right").value = right.text;
    part("saved").textContent = left.saves > 0 ? `as save ${left.saves} left them` : "nothing is saved yet";
    part("save").disabled = false;
    part("save").onclick = () => save(part("left").value, part("right").value).catch((why) => say(why.message));
  }

  start().catch((why) => say(why.message));
  return { state, save };
})();
