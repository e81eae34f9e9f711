// The parts of the page that show places.
const MOST_CODE = 120, AROUND = 20;
// Of larger caches only the lines are shown that are marked or changed.
const MOST_LINES = 64;
const { line: LENGTH, sets: SETS, ways: WAYS, buffer: BUFFER } = run.machine;
const OWN = "its epoch has loaded from it or stored to it";
const STATES = {
  S: "shared: other cores may hold the line too",
  E: "exclusive: no other core holds the line",
  M: "modified: no other core holds the line, and memory may be stale",
  SpS: `speculative and shared: ${OWN}, and other cores may hold the line too`,
  SpE: `speculative and exclusive: ${OWN}, and no other core holds the line`,
};

const hex = (number, digits) => number.toString(16).padStart(digits, "0");
const word = number => hex(number, 8);

// `bins`, or `bins+4..19`, of the variables that a stretch of memory has.
function namesIn(address, length) {
  const told = [];
  for (const [name, first, bytes] of run.variables) {
    const from = Math.max(first, address), to = Math.min(first + bytes, address + length);
    if (from < to) told.push(to - from === bytes ? name : `${name}+${from - first}..${to - first - 1}`);
  }
  return told.join(", ");
}

// The same of the line at a place: behind memory it has a piece of the bytes that lie apart.
function namesOfLine(place) {
  const [first, length, piece, size] = run.apart;
  if (!(place >= size)) return namesIn(place, LENGTH);
  const from = first + (place - size) / LENGTH * piece;
  return namesIn(from, Math.min(piece, first + length - from));
}

function made(tag, text = "", kind = "") {
  const one = document.createElement(tag);
  one.textContent = text;
  if (kind) one.className = kind;
  return one;
}

function headCell(text, scope) {
  const cell = made("th", text);
  cell.scope = scope;
  return cell;
}

function headRow(...texts) {
  const row = made("tr");
  row.append(...texts.map(text => headCell(text, "col")));
  return row;
}

// In a word, how a way of a cache isn't as it was before the turn.
function wayWord(was, is) {
  const [address, kind] = was ?? [];
  if (!is) return `gone: was ${word(address)} ${kind}`;
  if (!was) return "new";
  if (address !== is[0]) return `new, in place of ${word(address)} ${kind}`;
  return kind === is[1] ? "changed" : `was ${kind}`;
}

// A part that shows a place; where its turn changed that, it says so.
function placed(tag, place, wordOf = () => "changed") {
  const part = made(tag), changes = steps[now][CHANGES];
  part.dataset.place = place;
  if (place in changes) {
    part.className = "changed";
    part.append(made("span", wordOf(before[now][place], at(place)), "word"), " ");
  }
  return part;
}

// A mask is hexadecimal digits, the bit of byte 0 the lowest.
const NONE = "0";
const isIn = (mask, place) => Boolean(parseInt(mask[mask.length - 1 - (place >> 2)] ?? "0", 16) >> place % 4 & 1);
const isSome = mask => /[^0]/.test(mask);

// Bytes in words of four: those of a mask are underlined, and those that are not as they were are framed. Where they are of the mask alone, no others are shown.
function bytesShown(bytes, mask, was, alone = false) {
  const all = made("span", "", "bytes");
  for (let place = 0; place < bytes.length; place++) {
    if (place && place % 4 === 0) all.append(place % 16 ? " " : made("br"));
    if (place % 4 === 0) all.append(made("span", "", "four"));
    const byte = bytes[place], isStored = isIn(mask, place), isNew = was !== undefined && was[place] !== byte;
    const kinds = [isStored ? "stored" : "", isNew ? "new" : ""].filter(Boolean).join(" "), shown = alone && !isStored ? "--" : hex(byte, 2);
    all.lastChild.append(kinds ? made("span", shown, kinds) : shown);
  }
  return all;
}

function stateShown(kind) {
  const shown = made("abbr", kind, kind.startsWith("Sp") ? "state speculative" : "state");
  shown.title = STATES[kind] ?? kind;
  return shown;
}

function wayCell(place) {
  const cell = placed("td", place, wayWord), copy = at(place);
  if (!copy) {
    cell.prepend(made("span", "empty", "none"), " ");
    return cell;
  }
  const [address, kind, loaded, stored, bytes] = copy, [oldAddress, , , , oldBytes] = before[now][place] ?? [];
  cell.append(made("span", word(address), "address"), " ", stateShown(kind));
  if (loaded) cell.append(" ", made("span", "loaded", "mark"));
  if (isSome(stored)) cell.append(" mask ", made("span", stored, "mask"));
  cell.append(made("br"), bytesShown(bytes, stored, oldAddress === address ? oldBytes : undefined));
  cell.append(made("br"), made("span", namesOfLine(address), "names"), " ", cell.querySelector(".word") ?? "");
  return cell;
}

// All sets and ways.
function addSets(table, core) {
  table.append(headRow("", ...Array.from({ length: WAYS }, (_, way) => `way ${way}`)));
  for (let set = 0; set < SETS; set++) {
    const row = table.insertRow();
    row.append(headCell(`set ${set}`, "row"), ...Array.from({ length: WAYS }, (_, way) => wayCell(`line ${core} ${set} ${way}`)));
  }
}

// Whether the epoch has marked the copy at a place, or the turn has changed it.
function isTold(place) {
  const [, kind, loaded, stored] = at(place) ?? [];
  return place in steps[now][CHANGES] || loaded || kind?.startsWith("Sp") || isSome(stored ?? NONE);
}

// Of larger caches what is marked or changed, a row each.
function addTold(table, core) {
  const told = [...state.keys()].filter(place => place.startsWith(`line ${core} `) && isTold(place)).map(place => place.split(" ").slice(2).map(Number));
  table.append(headRow("", `marked or changed, of ${(SETS * WAYS).toLocaleString("en")} lines`));
  for (const [set, way] of told.sort(([a, b], [c, d]) => a - c || b - d)) {
    const row = table.insertRow();
    row.append(headCell(`set ${set} way ${way}`, "row"), wayCell(`line ${core} ${set} ${way}`));
  }
}

function cacheTable(core) {
  const isSmall = SETS * WAYS <= MOST_LINES, table = made("table", "", isSmall ? "cache" : "large cache");
  table.setAttribute("aria-label", `Cache of core ${core}`);
  (isSmall ? addSets : addTold)(table, core);
  return table;
}

function bufferPart(core) {
  const part = placed("p", `orb ${core}`), lines = at(`orb ${core}`) ?? [];
  const told = lines.map(line => `${word(line)} ${namesOfLine(line)}`.trim());
  part.append(`buffer, ${lines.length} of ${BUFFER} lines${told.length ? ": " : ""}${told.join("; ")}`);
  return part;
}

// Over the plain store: the bytes that an epoch has read and stored.
function keptTable(core) {
  const table = made("table"), changes = steps[now][CHANGES];
  table.setAttribute("aria-label", `What core ${core} keeps`);
  table.append(headRow("keeps of", "read (mask)", "stored (mask)", "stored bytes"));
  for (const place of [...state.keys()].filter(one => one.startsWith(`kept ${core} `)).sort()) {
    const [address, read, stored, bytes] = at(place);
    if (!isSome(read) && !isSome(stored) && !(place in changes)) continue;
    const row = table.insertRow(), cell = placed("td", place);
    cell.append(made("span", `${word(address)} ${namesIn(address, 16)}`, "names"));
    row.append(cell, made("td", read, "mark"), made("td", stored, "mask"), made("td"));
    row.lastChild.append(bytesShown(bytes, stored, before[now][place]?.[3], true));
  }
  return table;
}

const attemptAt = core => run.attempts.findLast(([by, , , first, end]) => by === core && first <= now && now <= end);

function attemptPart(core) {
  const part = placed("h2", `attempt ${core}`), [epoch, mode] = at(`attempt ${core}`) ?? [], last = attemptAt(core);
  const undone = last && last[6] !== null && last[6] <= now;
  const idle = undone ? `epoch ${last[1]}, attempt ${last[2]}, was ${last[5] === "violated" ? "rolled back" : "cancelled"}` : "no epoch";
  part.append(`Core ${core}: ${epoch === undefined ? idle : `epoch ${epoch}, attempt ${last ? last[2] : 1}, ${mode}`}`);
  return part;
}

function hartPart(core) {
  const part = placed("p", `hart ${core}`), [pc, done] = at(`hart ${core}`) ?? [];
  if (pc === undefined) part.append("nothing in hand");
  else part.append(`${done} executed; next ${word(pc)} `, made("code", run.code[pc / 4] ?? ""), run.sources[pc] ? ` ${run.sources[pc]}` : "");
  if (pc !== undefined && !at(`attempt ${core}`)) part.append(" (given up)");
  return part;
}

function waitPart(core) {
  const place = `wait ${core}`, wait = at(place);
  if (!wait && !(place in steps[now][CHANGES])) return "";
  const part = placed("p", place);
  part.append(wait ? `waits (${wait}): ${run.causes[wait] ?? wait}` : "waits no more");
  return part;
}

// What the states mean that stand in a cache.
function statesPart(table) {
  const kinds = new Set([...table.querySelectorAll(".state")].map(one => one.textContent));
  return made("p", Object.keys(STATES).filter(kind => kinds.has(kind)).map(kind => `${kind} is ${STATES[kind]}.`).join(" "), "states");
}

function coreCard(core) {
  const card = made("div", "", steps[now][CORE] === core ? "core turns" : "core");
  card.id = `core-${core}`;
  card.append(attemptPart(core), hartPart(core), waitPart(core));
  const table = run.plain ? keptTable(core) : cacheTable(core);
  card.append(...(run.plain ? [table] : [bufferPart(core), table, statesPart(table)]));
  return card;
}

// ---- memory: a row each, made once; what a walk changed is shown anew

const memoryRows = new Map();

function memoryCell(place) {
  const cell = placed("td", place);
  cell.append(bytesShown(at(place)[1], NONE, before[now][place]?.[1]));
  return cell;
}

function makeMemory() {
  const rows = [...state.keys()].filter(place => place.startsWith("at ")).sort();
  element("memory").append(headRow("address", "variables", "bytes"));
  for (const place of rows) {
    const row = element("memory").insertRow(), [address] = at(place);
    row.append(headCell(word(address), "row"), made("td", namesIn(address, 16), "names"), memoryCell(place));
    memoryRows.set(place, row);
  }
}

function showMemory() {
  const marked = [...element("memory").querySelectorAll(".changed")].map(cell => cell.dataset.place);
  for (const place of new Set([...walked, ...marked, ...Object.keys(steps[now][CHANGES])]))
    if (memoryRows.has(place)) memoryRows.get(place).lastChild.replaceWith(memoryCell(place));
}

// ---- code: all of it, or what stands around the next instruction of the turn's core

function showCode() {
  const pcs = run.code.map((_, place) => 4 * place), cores = new Map(), hasSources = Object.keys(run.sources).length > 0;
  for (let core = 0; core < run.cores; core++) {
    const [pc] = at(`hart ${core}`) ?? [];
    cores.set(pc, [...cores.get(pc) ?? [], core]);
  }
  const middle = Math.max(0, pcs.indexOf(at(`hart ${steps[now][CORE]}`)?.[0]));
  const shown = pcs.length <= MOST_CODE ? pcs : pcs.slice(Math.max(0, middle - AROUND), middle + AROUND);
  element("code").replaceChildren(headRow("address", "instruction", ...(hasSources ? ["source"] : []), "next of"), ...shown.map(pc => {
    const row = made("tr", "", cores.has(pc) ? "here" : ""), next = cores.get(pc) ?? [];
    row.append(headCell(word(pc), "row"), made("td", run.code[pc / 4]));
    if (hasSources) row.append(made("td", run.sources[pc] ?? ""));
    row.append(made("td", next.length ? `\u25c0 core ${next.join(", ")}` : ""));
    return row;
  }));
}
