// node one_step.js N FRAMES <ANSWERS: writes the picture of step N as an SVG, from what pagelook has written; so many frames at most.
"use strict";
const { readFileSync } = require("fs");
const Trace = require("./trace.js"), Draw = require("./draw.js");

const WIDTH = 1000; // pixels
const at = Number(process.argv[2]) - 1, { boot, steps } = Trace.stepsOf(readFileSync(0, "utf8").split("\n").slice(0, -1));
process.stdout.write(Draw.pictureOf(steps[at], at > 0 ? steps[at - 1] : boot, Draw.gridOf(steps, Number(process.argv[3]), WIDTH)));
