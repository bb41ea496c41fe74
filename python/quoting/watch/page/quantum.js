// The open quantum: its bar, its figures, where the time went, its orders and stretches; and the feed's problems.

import {
  $, counted, drawn, figure, fillRows, headCell, make, named, percent, place, say, sayFine, setSign, show, signFor, stopIfScrolling, tell,
} from "./elements.js";
import { link, shown } from "./sections.js";
import { paintForm, sayAnswer } from "./asking.js";
import { plot } from "./chart.js";

const TILES = ["kept", "left", "lapses", "spread", "weight"];
const MOST_PIPS = 8;

export function paintOpen(open) {
  const isStale = Boolean(open?.stale) || link.away;
  show($("open"), Boolean(open));
  show($("orders-panel"), Boolean(open));
  show($("ask-panel"), Boolean(open));
  $("three").classList.toggle("alone", !open);
  $("open").classList.toggle("stale", isStale);
  $("orders-panel").classList.toggle("stale", isStale);
  if (!open) return forgetOpen();
  show($("three"), true);
  paintBar(open.bar);
  paintTiles(open);
  paintAccount(open);
  paintOrders(open);
  paintForm(open);
}

// No figure of a quantum that is closed is left, hidden or not.
function forgetOpen() {
  for (const id of ["tiles", "account", "ahead", "orders"]) $(id).replaceChildren();
  const names = ["account-gone", "share", "required", "required-time", "full", "full-time", "orders-note"];
  for (const name of names) figure(name).replaceChildren();
  for (const text of plot.texts.values()) say(text, "");
  sayAnswer(null);
}

function paintBar(bar) {
  say(figure("share"), bar.share);
  place($("b-have"), "width", percent(bar.kept));
  place($("b-may"), "left", percent(bar.kept));
  place($("b-may"), "width", percent(bar.reach - bar.kept));
  for (const name of ["required", "full"]) {
    place($(`b-${name}`), "left", percent(bar[name]));
    say(figure(name), bar.labels[name][0]);
    say(figure(`${name}-time`), bar.labels[name][1]);
  }
  say($("reach-said"), bar.outOfReach ? "Part of the time is out of reach." : "");
  const width = $("bar").clientWidth, ends = [bar.kept, bar.reach].map(end => Math.round(end * 500));
  const laid = JSON.stringify([width, bar.required, bar.full, bar.labels, ends, bar.outOfReach]);
  if ($("bar").laid === laid) return;   // labels are measured again only when one could touch another
  $("bar").laid = laid;
  layTopLabels(bar, width);
  layUnderLabels(bar, width);
}

const GAP = 8;   // between labels

// Wordings of the required share's label and of the full weight's, from the fullest to the barest.
const WORDINGS = [["", ""], ["brief", "brief"], ["brief", "bare"], ["bare", "bare"]];
const SIDES = [[true, false], [false, false], [true, true], [false, true]];   // whether each is before its mark

// The first wording, and the first sides for it, with which both fit and do not touch.
function layTopLabels(bar, width) {
  const marks = ["required", "full"].map(name => ({ at: bar[name], label: $(`l-${name}`) }));
  for (const wording of WORDINGS) {
    marks.forEach((mark, k) => { show(mark.label, true); mark.label.className = wording[k]; mark.width = mark.label.offsetWidth; });
    for (const sides of SIDES) {
      const spans = marks.map((mark, k) => [mark.at * width - (sides[k] ? mark.width : 0), mark.at * width + (sides[k] ? 0 : mark.width)]);
      if (spans.some(([from, to]) => from < 0 || to > width) || overlap(...spans)) continue;
      marks.forEach((mark, k) => { mark.label.classList.toggle("before", sides[k]); place(mark.label, "left", percent(mark.at)); });
      return;
    }
  }
  show(marks[1].label, false);   // the required share is the one that decides
  place(marks[0].label, "left", "0");
}

function overlap(a, b) {
  return a[0] < b[1] && b[0] < a[1];
}

function layUnderLabels(bar, width) {
  const kept = $("u-kept"), may = $("u-may"), out = $("u-out");
  for (const label of [kept, may, out]) show(label, true);
  const hasOut = bar.outOfReach && bar.reach * width < width - out.offsetWidth + 3 * GAP;
  const mayAt = Math.max(bar.kept * width, kept.offsetWidth + GAP), outAt = width - out.offsetWidth;
  const hasMay = bar.reach > bar.kept && mayAt + may.offsetWidth + GAP <= (hasOut ? outAt : width);
  show(out, hasOut);
  show(may, hasMay);
  show(kept, bar.kept > 0);
  place(out, "right", "0");
  place(may, "left", percent(mayAt / width));
}

function buildTile(name) {
  const value = make("dd", "v", named(make("span"), name), " ", named(make("small"), `${name}-unit`));
  return make("div", "", make("dt"), value, named(make("dd", "x"), `${name}-below`));
}

function paintTiles(open) {
  const list = $("tiles");
  if (!list.children.length) list.append(...TILES.map(buildTile));
  open.tiles.forEach((tile, at) => {
    const [name, value, below] = list.children[at].children, unit = value.lastElementChild;
    say(name, tile.name);
    sayFine(value.firstElementChild, tile.value, tile.fine);
    sayUnit(unit, tile.unit);
    if (TILES[at] !== "lapses" || !paintPips(below, open.lapses)) say(below, tile.below);
  });
}

// "to 20,000": the figure after the word is as big as the one before it.
function sayUnit(element, unit) {
  if (element.textContent === (unit ?? "")) return;
  const found = /^to ([\d,]+)$/.exec(unit ?? "");
  if (!found) return say(element, unit);
  const big = make("span", "", found[1]);
  big.className = "far";
  element.replaceChildren("to ", big);
}

// A dot for each lapse allowed; the words above them say the same.
function paintPips(below, lapses) {
  const { count, limit } = lapses;
  if (limit === null || limit > MOST_PIPS || limit === 0) return false;
  const due = `${count} ${limit}`;
  if (below.firstElementChild?.dataset.pips === due) return true;
  const pips = make("span", "pips");
  pips.dataset.pips = due;
  pips.setAttribute("aria-hidden", "true");
  const many = Math.min(Math.max(limit, count), MOST_PIPS + 4);
  for (let at = 0; at < many; at++) pips.append(make("i", at >= limit ? "over" : at < count ? "on" : ""));
  below.replaceChildren(pips);
  return true;
}

function chipFor(key) {
  return drawn("svg", { class: "chip", "aria-hidden": "true" }, drawn("rect", { width: "100%", height: "100%", fill: `url(#p-${key})` }));
}

function paintAccount(open) {
  const build = at => {
    const key = open.account[at].key;
    return make("tr", "", headCell(chipFor(key), signFor(key), " ", make("span")), named(make("td", "num"), `account-${key}`));
  };
  fillRows($("account"), open.account, build, (row, item) => {
    say(row.firstChild.lastChild, item.word);
    sayFine(row.lastChild, item.value, item.fine);
  });
  sayFine(figure("account-gone"), open.gone.value, open.gone.fine);
  const ahead = at => make("tr", "", named(headCell(), `ahead-${at}-word`), named(make("td", "num"), `ahead-${at}`));
  fillRows($("ahead"), open.ahead, ahead, (row, item) => {
    say(row.firstChild, item.word);
    sayFine(row.lastChild, item.value, item.fine);
  });
}

function paintOrders(open) {
  const build = () => make("tr", "", headCell(), make("td"), make("td", "num"), make("td", "num"));
  fillRows($("orders"), open.orders, build, (row, order) => {
    tell(row, "order", order.id);
    [order.id, order.side, order.price, order.volume].forEach((text, at) => say(row.children[at], String(text)));
  });
  say(figure("orders-note"), open.ordersNote);
  stopIfScrolling($("orders-scroll"), "Live orders");
}

export function paintStretches(stretches) {
  const build = () => make("tr", "", headCell(), make("td"), make("td", "num"), make("td", "after", signFor("kept"), " ", make("span")));
  fillRows($("stretches"), stretches?.rows ?? [], build, (row, item) => {
    tell(row, "key", item.key);
    [item.from, item.to, item.length].forEach((text, at) => say(row.children[at], text));
    setSign(row.lastChild.firstChild, item.key);
    say(row.lastChild.lastChild, item.word);
  });
  say(figure("stretches-earlier"), stretches?.earlier ? `${counted(stretches.earlier)} earlier ones are not listed.` : "");
  stopIfScrolling($("stretches-scroll"), "The stretches");
}

export function paintProblems(problems) {
  show($("three"), Boolean(problems) || Boolean(shown.open));
  const rows = problems?.rows ?? [];
  fillRows($("problems"), rows, () => make("tr", "", headCell(), make("td", "", make("div"), make("div"))), (row, item) => {
    say(row.firstChild, item.when);
    say(row.lastChild.firstChild, item.place);
    say(row.lastChild.lastChild, item.text);
  });
  const more = (problems?.count ?? 0) - rows.length;
  say(figure("problems-note"), !problems?.count ? "None so far." : more > 0 ? `${counted(more)} earlier ones are not listed.` : "");
  stopIfScrolling($("problems-scroll"), "The feed's problems");
}
