"use strict";
// What stands at each place after the turn that is shown. A walk to another turn takes those in between one by one, or takes them back.
const run = JSON.parse(document.getElementById("run").textContent);
const steps = run.steps, element = id => document.getElementById(id);
const [TURN, CORE, ENTRIES, CHANGES, SAID, MOVED, HURTS] = [0, 1, 2, 3, 4, 5, 6];
const state = new Map(Object.entries(run.start));
const before = [];              // of each turn that was taken, what stood at its places before it
const walked = new Set();       // the places that the last walk changed
let now = -1;

// A list of what stands at a place, numbers and names; null where nothing does.
const at = place => state.get(place) ?? null;

function take() {
  const changes = steps[++now][CHANGES];
  before[now] ??= Object.fromEntries(Object.keys(changes).map(place => [place, state.get(place)]));
  for (const [place, value] of Object.entries(changes)) {
    state.set(place, value);
    walked.add(place);
  }
}

function takeBack() {
  for (const [place, value] of Object.entries(before[now--])) {
    if (value === undefined) state.delete(place);
    else state.set(place, value);
    walked.add(place);
  }
}

function walkTo(number) {
  walked.clear();
  while (now < number) take();
  while (now > number) takeBack();
}
