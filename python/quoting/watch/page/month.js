// The month: the grid of cells, the cell that is shown, failed cells and the fee.

import { $, figure, fillRows, headCell, make, named, percent, place, put, say, setSign, show, signFor } from "./elements.js";
import { shown } from "./sections.js";

const SERIES = [[1, 0], [1, 1], [1, 2], [2, 0], [2, 1], [2, 2]];
const DAYS = 31;

const month = { cells: new Map(), filled: new Map(), chosen: null, at: null, folded: new Set() };

function cellId(place) {
  return place.join(",");
}

function buildCell(day, at) {
  const [expiry, quantum] = SERIES[at], cell = make("button", "cell blank", signFor("blank"), make("span"));
  cell.type = "button";
  cell.tabIndex = -1;
  cell.setAttribute("role", "gridcell");
  cell.dataset.cell = cellId([day, expiry, quantum]);
  cell.style.setProperty("--d", day);
  cell.style.setProperty("--s", at + 1);
  month.cells.set(cell.dataset.cell, cell);
  return cell;
}

export function startGrid() {
  const heads = make("div", "row"), corner = make("span", "sr", "series");
  heads.setAttribute("role", "row");
  corner.setAttribute("role", "columnheader");
  heads.append(corner);
  for (let day = 1; day <= DAYS; day++) heads.append(gridHead("columnheader", "head", day, 0, String(day)));
  $("grid").append(heads);
  SERIES.forEach(([expiry, quantum], at) => {
    const row = make("div", "row"), name = gridHead("rowheader", "name head", 0, at + 1);
    row.setAttribute("role", "row");
    name.setAttribute("aria-label", `expiry ${expiry}, quantum ${quantum}`);
    name.append(make("span", "full", `expiry ${expiry},`, make("br"), `quantum ${quantum}`));
    name.append(make("span", "brief", `e${expiry}`, make("br"), `q${quantum}`));
    row.append(name);
    for (let day = 1; day <= DAYS; day++) row.append(buildCell(day, at));
    $("grid").append(row);
  });
  $("grid").addEventListener("click", event => choose(event.target.closest(".cell")));
  $("grid").addEventListener("keydown", moveInGrid);
  new ResizeObserver(settleStop).observe($("grid-room"));
}

// Whether days go down and series across, as page.css decides by the room that there is.
function isTurned() {
  return getComputedStyle($("grid")).getPropertyValue("--turned").trim() === "1";
}

function gridHead(role, className, day, series, text) {
  const head = make("div", className, ...(text ? [text] : []));
  head.setAttribute("role", role);
  head.style.setProperty("--d", day);
  head.style.setProperty("--s", series);
  return head;
}

export function paintMonth(section) {
  if (!section) return;
  show($("month"), true);
  month.filled = new Map(section.cells.map(cell => [cellId(cell.place), cell]));
  for (const [id, cell] of month.cells) paintCell(cell, id, month.filled.get(id));
  foldBlankDays();
  paintShownCell();
  paintFailed(section.failed);
  say(figure("fee"), section.fee.roubles);
  say(figure("fee-kopecks"), section.fee.kopecks);
  say(figure("fee-note"), section.fee.note);
}

function placeText(id) {
  const [day, expiry, quantum] = id.split(",");
  return `day ${day}, expiry ${expiry}, quantum ${quantum}`;
}

function paintCell(cell, id, filled) {
  const kind = filled?.kind ?? "blank";
  if (cell.dataset.kind !== kind) {
    cell.dataset.kind = kind;
    cell.className = `cell ${kind}`;
    setSign(cell.firstChild, kind);
  }
  // Without the comma five figures fit the cell; the label has it.
  say(cell.lastChild, kind === "met" ? filled.weight.replaceAll(",", "") : kind === "blank" ? "" : kind);
  put(cell, "aria-label", filled?.label ?? `${placeText(id)}: blank`);
  if (kind === "met") cell.style.setProperty("--deep", `${14 + Math.round(41 * filled.depth)}%`);
}

// Runs of days in which no cell is filled: [first, last].
function blankRuns() {
  const used = new Set([...month.filled.values()].map(cell => cell.place[0])), runs = [];
  for (let day = 1; day <= DAYS; day++) {
    if (used.has(day)) continue;
    if (runs.length && runs.at(-1)[1] === day - 1) runs.at(-1)[1] = day;
    else runs.push([day, day]);
  }
  return runs;
}

// In the turned grid a run of blank days is one line; each day's line is counted with that in mind.
function foldBlankDays() {
  const runs = blankRuns(), due = JSON.stringify(runs);
  if (month.runs === due) return;
  month.runs = due;
  month.folded = new Set(runs.flatMap(([first, last]) => Array.from({ length: last - first + 1 }, (_, k) => first + k)));
  const lines = new Map();
  for (let day = 1, line = 0; day <= DAYS; day++) lines.set(day, month.folded.has(day) && month.folded.has(day - 1) ? line : ++line);
  for (const element of $("grid").querySelectorAll(".cell, .head")) {
    const day = Number(element.style.getPropertyValue("--d"));
    if (!day) continue;
    element.style.setProperty("--n", lines.get(day));
    element.classList.toggle("folded", month.folded.has(day));
  }
  for (const old of $("grid").querySelectorAll(".fold")) old.remove();
  const texts = runs.map(([first, last]) => first === last ? String(first) : `${first} to ${last}`);
  runs.forEach(([first], at) => {
    const fold = make("div", "fold", `${texts[at]}: blank`);
    fold.setAttribute("aria-hidden", "true");   // the sentence before the grid says it
    fold.style.setProperty("--n", lines.get(first));
    $("grid").append(fold);
  });
  say($("blank-said"), texts.length ? `Blank days: ${texts.join(", ")}.` : "");
}

function paintShownCell() {
  const id = month.chosen ?? cellId(shown.month.picked ?? [1, 1, 0]), filled = month.filled.get(id);
  for (const [each, cell] of month.cells) put(cell, "aria-selected", each === id);
  say(figure("cell-head"), placeText(id).replace(/^d/, "D"));
  const rows = filled?.rows ?? [["verdict", "blank"]], kind = filled?.kind ?? "blank";
  const build = at => {
    const value = make("td", "num", signFor(kind), " ", named(make("span"), `cell-${at}`));
    return make("tr", "", named(headCell(), `cell-${at}-word`), value);
  };
  fillRows($("cell-rows"), rows, build, (row, [word, value], at) => {
    say(row.firstChild, word);
    say(row.lastChild.lastChild, value);
    setSign(row.lastChild.firstElementChild, kind);
    row.lastChild.firstElementChild.style.display = at ? "none" : "";
    row.lastChild.lastChild.style.fontWeight = at ? "" : "bold";
  });
  settleStop();
}

function paintFailed(failed) {
  say($("failed-h"), failed.length ? `Failed, against ${failed[0].of}` : "Failed");
  const build = at => {
    const bar = make("td", "share-of", make("span", "against", make("i")));
    return make("tr", "", headCell(), bar, named(make("td", "num"), `failed-${at}`));
  };
  fillRows($("failed"), failed, build, (row, item) => {
    say(row.firstChild, item.word);
    place(row.children[1].firstChild.firstChild, "width", percent(item.fraction));
    say(row.lastChild, `${item.count} of ${item.of}`);
  });
}

function isSeen(id) {
  return !isTurned() || !month.folded.has(Number(id.split(",")[0]));
}

// One stop for Tab: where the hand was last, else the cell that is shown, else the first one that is to be seen.
function settleStop() {
  const choices = [month.at, month.chosen, shown.month && cellId(shown.month.picked ?? []), ...month.cells.keys()];
  const stop = choices.find(id => id && month.cells.has(id) && isSeen(id));
  for (const [id, cell] of month.cells) {
    const due = id === stop ? 0 : -1;
    if (cell.tabIndex !== due) cell.tabIndex = due;
  }
}

function choose(cell) {
  if (!cell) return;
  month.chosen = month.at = cell.dataset.cell;
  paintShownCell();
  say($("cell-said"), [...$("cell-rows").children].map(row => row.textContent.replace(/\s+/g, " ")).join(", "));
}

// Where a key leads from a cell, as the places along the line and down the lines; arrows go by what is seen.
function ledTo(event, along, down, most) {
  const hasAll = event.ctrlKey;
  const moves = {
    ArrowRight: [along + 1, down], ArrowLeft: [along - 1, down], ArrowDown: [along, down + 1], ArrowUp: [along, down - 1],
    Home: [0, hasAll ? 0 : down], End: [most[0], hasAll ? most[1] : down],
  };
  return moves[event.key]?.map((at, k) => Math.min(most[k], Math.max(0, at)));
}

// In the turned grid days are below one another, and folded ones are skipped.
function moveInGrid(event) {
  const cell = event.target.closest(".cell");
  if (!cell || event.altKey || event.metaKey) return;
  const days = Array.from({ length: DAYS }, (_, at) => at + 1).filter(day => isSeen(String(day)));
  const [day, expiry, quantum] = cell.dataset.cell.split(",").map(Number);
  const series = SERIES.findIndex(([e, q]) => e === expiry && q === quantum);
  const places = [days.indexOf(day), series], most = [days.length - 1, SERIES.length - 1];
  const across = isTurned();
  if (across) [places, most].forEach(each => each.reverse());
  const led = ledTo(event, ...places, most);
  if (!led) return;
  event.preventDefault();
  if (across) led.reverse();
  month.at = cellId([days[led[0]], ...SERIES[led[1]]]);
  settleStop();
  month.cells.get(month.at).focus();
}
