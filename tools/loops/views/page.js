// The page: goes from turn to turn by buttons, keys, links and clicks.
const LINK_DELAY = 200;
let link;

function show(number) {
  walkTo(Math.max(0, Math.min(steps.length - 1, number)));
  const step = steps[now];
  element("turn").value = step[TURN];
  element("said").textContent = `Turn ${step[TURN]}, core ${step[CORE]}. ${step[SAID]}`;
  element("moved").textContent = step[MOVED];
  element("entries").textContent = step[ENTRIES].length ? `In the trace: ${step[ENTRIES].join(" \u00b7 ")}` : "Nothing in the trace.";
  element("cores").replaceChildren(...Array.from({ length: run.cores }, (_, core) => coreCard(core)));
  showMemory();
  showCode();
  showCursor();
  clearTimeout(link);
  link = setTimeout(() => history.replaceState(null, "", `#turn=${step[TURN]}`), LINK_DELAY);
}

const isRollback = step => step[HURTS] > 0;
const isWait = step => Boolean(step[CHANGES][`wait ${step[CORE]}`]);

function on(holds) {
  const found = steps.findIndex((step, number) => number > now && holds(step));
  if (found >= 0) show(found);
}

function back(holds) {
  const found = steps.findLastIndex((step, number) => number < now && holds(step));
  if (found >= 0) show(found);
}

const go = {
  first: () => show(0),
  back: () => show(now - 1),
  on: () => show(now + 1),
  last: () => show(steps.length - 1),
  "rollback-back": () => back(isRollback),
  "rollback-on": () => on(isRollback),
  "wait-back": () => back(isWait),
  "wait-on": () => on(isWait),
};
const keys = { Home: "first", ArrowLeft: "back", ArrowRight: "on", End: "last", R: "rollback-back", r: "rollback-on", W: "wait-back", w: "wait-on" };

function addCoreButtons(core) {
  const ofCore = step => step[CORE] === core, group = made("span", "", "group");
  for (const [id, text, turn, name] of [[`back-${core}`, "\u25c0", back, `turn before of core ${core}`], [`on-${core}`, "\u25b6", on, `next turn of core ${core}`]]) {
    const button = made("button", text);
    button.id = id;
    button.setAttribute("aria-label", name);
    go[id] = button.onclick = () => turn(ofCore);
    group.append(button);
  }
  group.firstChild.after(` core ${core} `);
  element("by-core").append(group);
}

// What is typed is gone to, and left: from there on digits are cores again.
function leaveTyped() {
  const typed = element("turn").valueAsNumber;
  element("turn").blur();
  if (Number.isFinite(typed) && typed !== steps[now][TURN]) toTurn(typed);
  else show(now);
}

// In the field of the turn digits are typed; all other keys do there what they do elsewhere.
function byKey(event) {
  if (event.ctrlKey || event.altKey || event.metaKey) return;
  const isTyped = event.target === element("turn"), digit = isTyped ? null : /^Digit(\d)$/.exec(event.code)?.[1] ?? /^\d$/.exec(event.key)?.[0];
  const name = keys[event.key] ?? (digit && `${event.shiftKey ? "back" : "on"}-${digit}`);
  if (isTyped && event.key === "Escape") element("turn").value = steps[now][TURN];
  if (isTyped && (name in go || event.key === "Enter" || event.key === "Escape")) leaveTyped();
  if (!(name in go)) return;
  go[name]();
  event.preventDefault();
}

function toTurn(turn) {
  const found = steps.findIndex(step => step[TURN] >= turn);
  show(found < 0 ? steps.length - 1 : found);
}

const fromLink = () => toTurn(Number(/turn=(\d+)/.exec(location.hash)?.[1] ?? steps[0][TURN]));

function begin() {
  element("of").textContent = `${run.epochs} epochs on ${run.cores} cores over ${run.over}, ${run.all.toLocaleString("en")} turns, ${run.rollbacks.length.toLocaleString("en")} rollbacks`;
  element("cut").textContent = run.cut ?? "";
  for (let core = 0; core < run.cores; core++) addCoreButtons(core);
  if (!steps.length) return;
  for (const id of Object.values(keys)) element(id).onclick = go[id];
  element("turn").max = steps[steps.length - 1][TURN];
  element("turn").onchange = event => Number.isFinite(event.target.valueAsNumber) ? toTurn(event.target.valueAsNumber) : show(now);
  element("drawn").onclick = event => show(Math.floor((event.offsetX - MARGIN) * steps.length / (element("lanes").clientWidth - MARGIN)));
  addEventListener("keydown", byKey);
  addEventListener("hashchange", fromLink);
  element("told-lanes").ontoggle = tellLanes;
  addEventListener("resize", () => { drawLanes(); showCursor(); });
  matchMedia("(prefers-color-scheme: dark)").addEventListener("change", drawLanes);
  nameLanes();
  walkTo(0);
  makeMemory();
  drawLanes();
  fromLink();
}

begin();
