// The lanes: what each core ran, turn by turn from left to right, and a cursor at the turn that is shown.
const LANE = 22, BAR = 15, MARGIN = 52;
// So many pixels a box needs for its hatch and its name, and a turn for the signs of its rollback.
const LEAST_BOX = 8, LEAST_TURN = 2;
// The colours of the page's style, by their names there: others where the reader's system is dark.
const FILLS = { committed: "--commits", fault: "--commits", violated: "--lost" };
const FATES = { committed: "commits", fault: "faults", violated: "is rolled back", cancelled: "is cancelled", open: "is open at the end" };

const colour = name => getComputedStyle(document.documentElement).getPropertyValue(name).trim();

const across = number => MARGIN + number * (element("lanes").clientWidth - MARGIN) / Math.max(1, steps.length);

function hatch(pen, left, top, wide) {
  pen.save();
  pen.beginPath();
  pen.rect(left, top, wide, BAR);
  pen.clip();
  pen.strokeStyle = colour("--hatch");
  pen.beginPath();
  for (let x = left - BAR; x < left + wide; x += 6) {
    pen.moveTo(x, top + BAR);
    pen.lineTo(x + BAR, top);
  }
  pen.stroke();
  pen.restore();
}

// Words that can be read on a hatch too.
function write(pen, words, x, y) {
  pen.strokeStyle = colour("--paper");
  pen.lineWidth = 3;
  pen.strokeText(words, x, y);
  pen.lineWidth = 1;
  pen.fillStyle = colour("--ink");
  pen.fillText(words, x, y);
}

// A box from the first turn of an attempt to its end; that of one that was rolled back ends there, and a line leads on to where its core begins again.
function drawAttempt(pen, [core, epoch, number, first, end, fate, undone]) {
  const stop = fate === "violated" ? undone + 0.5 : end, left = across(Math.max(first, 0)), top = core * LANE + 3;
  const wide = Math.max(1, across(Math.min(stop, steps.length)) - left), name = number > 1 ? `e${epoch} #${number}` : `e${epoch}`;
  pen.fillStyle = colour(FILLS[fate] ?? "--other");
  pen.fillRect(left, top, wide, BAR);
  if (wide < LEAST_BOX) return;
  if (fate === "violated") hatch(pen, left, top, wide);
  pen.strokeStyle = colour("--edge");
  pen.setLineDash(fate in FILLS ? [] : [3, 2]);
  pen.strokeRect(left + 0.5, top + 0.5, wide - 1, BAR);
  pen.setLineDash([]);
  pen.beginPath();
  pen.moveTo(left + wide, top + BAR / 2);
  pen.lineTo(across(Math.min(end, steps.length)), top + BAR / 2);
  pen.stroke();
  if (pen.measureText(name).width + 6 < wide) write(pen, name, left + 3, top + 11);
}

// A line from the core that made it to the one that is rolled back; in a long run a tick below the lane of that one.
function drawRollback(pen, [number, by, victim]) {
  const x = across(number + 0.5), middle = core => core * LANE + 3 + BAR / 2;
  if (across(1) - across(0) < LEAST_TURN) {
    pen.fillStyle = colour("--ink");
    pen.fillRect(x, victim * LANE + 3 + BAR, 1, LANE - BAR - 3);
    return;
  }
  pen.strokeStyle = pen.fillStyle = colour("--ink");
  pen.beginPath();
  pen.moveTo(x, middle(by));
  pen.lineTo(x, middle(victim));
  pen.stroke();
  pen.beginPath();
  pen.arc(x, middle(by), 2.5, 0, 7);
  pen.fill();
  pen.font = "bold 14px sans-serif";
  write(pen, "!", x + 2, middle(victim) + 5);
  pen.font = "11px sans-serif";
}

function drawLanes() {
  const canvas = element("drawn"), sharp = devicePixelRatio || 1, wide = element("lanes").clientWidth, high = run.cores * LANE + 4;
  canvas.width = wide * sharp;
  canvas.height = high * sharp;
  canvas.style.height = `${high}px`;
  const pen = canvas.getContext("2d");
  pen.scale(sharp, sharp);
  pen.font = "11px sans-serif";
  for (const attempt of run.attempts) drawAttempt(pen, attempt);
  for (const one of run.rollbacks) drawRollback(pen, one);
}

function nameLanes() {
  element("cores-of-lanes").replaceChildren(...Array.from({ length: run.cores }, (_, core) => made("li", `core ${core}`)));
}

// The lanes as a table, which is made when a reader opens it.
function tellLanes() {
  const table = element("attempts");
  if (table.rows.length) return;
  table.append(headRow("core", "epoch", "attempt", "from turn", "to turn", "and then"));
  for (const [core, epoch, number, first, end, fate, undone] of run.attempts) {
    const last = Math.min(undone ?? end - 1, steps.length - 1), from = first < 0 ? "before" : steps[first][TURN];
    table.insertRow().append(headCell(`core ${core}`, "row"), ...[epoch, number, from, steps[Math.max(last, 0)][TURN], FATES[fate]].map(text => made("td", String(text))));
  }
}

function showCursor() {
  element("cursor").style.left = `${across(now)}px`;
  element("cursor").style.width = `${Math.max(2, across(now + 1) - across(now))}px`;
}
