// A page of tools/lookmap: it steps through the answers that stand in it. What follows # in its address is the number of the step.
"use strict";
(() => {
  const { boot, steps, closing } = Trace.stepsOf(document.getElementById("answers").textContent.trim().split("\n"));
  const root = document.getElementById("steps"), view = new Steps.View(root, show, null, Number(root.dataset.frames));

  // Shows a step, the nearest there is, and puts its number into the address, which may be kept as a link.
  function show(wanted) {
    const at = Math.max(0, Math.min(steps.length - 1, wanted));
    view.show(at, steps.length, steps[at], at > 0 ? steps[at - 1] : boot, steps, at === steps.length - 1 ? Steps.paragraphs(closing) : "");
    location.replace(`#${at + 1}`);
  }

  // The step that the address names, or the first.
  function linked() {
    const number = parseInt(location.hash.slice(1), 10);
    return number > 0 ? number - 1 : 0;
  }

  window.onhashchange = () => { if (linked() !== view.at) show(linked()); };
  show(linked());
})();
