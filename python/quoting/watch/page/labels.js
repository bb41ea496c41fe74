// The marks and labels of the day's chart: no label touches another.

import { put, say } from "./elements.js";
import { box, plot, textFor, widthOf } from "./chart.js";

const LINE = 17;   // from one line of labels to the next

// A step of the price written in decimals; without one prices are whole numbers.
export function priceText(info, price) {
  const places = info.step?.split(".")[1]?.length ?? 0;
  return info.step ? (price * Number(info.step)).toFixed(places) : String(price);
}

function niceStep(range, most) {
  const rough = Math.max(range / most, 1), ten = 10 ** Math.floor(Math.log10(rough));
  return [1, 2, 5, 10].map(k => k * ten).find(step => step >= rough - 1e-9);
}

function priceMarks(g) {
  const step = niceStep(g.high - g.low, g.narrow ? 5 : 6), marks = [];
  for (let price = Math.ceil(g.low / step) * step; price <= g.high; price += step) marks.push(price);
  return marks;
}

export function paintMarks(info, g) {
  const { parts } = plot, now = g.x(info.now), latest = info.latest && g.x(info.latest.at);
  put(parts.rules, "d", priceMarks(g).map(price => `M${g.left} ${g.y(price).toFixed(1)}H${g.right}`).join(""));
  put(parts.ticks, "d", info.start.map(([at]) => `M${g.x(at * info.length).toFixed(1)} ${g.foot}v5`).join(""));
  put(parts.frame, "d", box(g.left, g.strip, g.right, g.foot));
  put(parts.now, "d", `M${now.toFixed(1)} ${g.top - 6}V${g.foot}`);
  put(parts.latest, "d", latest === null ? "" : `M${latest.toFixed(1)} ${g.top - 4}V${g.strip}${box(latest, g.strip, g.right, g.foot)}`);
}

// Each label with the places where it may be, the best first: [x, y, anchor, whether it may cross the line that it avoids]. The first
// labels have the first choice.
export function labelsOf(info, g) {
  const now = g.x(info.now), latest = info.latest && g.x(info.latest.at), half = widthOf(info.nowText, "strong") / 2, labels = [];
  const add = (name, kind, text, spots, avoid) => labels.push({ name, kind, text, spots, avoid });
  add("now", "strong", info.nowText, [[Math.min(Math.max(now, half), g.width - half), 12, "middle"]]);
  for (const side of ["ask", "bid"]) if (info[side]) add(side, side, info[side].text, quoteSpots(info, side, g), latest);
  if (latest !== null) {
    add("latest", "strong", info.latest.text, latestSpots(latest, g), now);
    const isWide = g.right - latest - 12 > widthOf("to be kept", "plain");
    if (isWide) add("due", "plain", "to be kept", [[(latest + g.right) / 2, g.strip + 18, "middle"]]);
  }
  for (const [name, sign, y] of [["above", "↑", g.top + 11], ["below", "↓", g.bottom - 3]]) {
    const cut = g[name], x = cut && g.x(cut.at);
    if (cut) add(name, "plain", `${sign} ${priceText(info, cut.price)}`, [[x - 6, y, "end"], [x + 6, y, "start"], [x, y, "middle"]]);
  }
  priceMarks(g).forEach((price, at) => add(`price-${at}`, "plain", priceText(info, price), [[g.left - 6, g.y(price) + 4, "end"]]));
  info.start.forEach(([at, text], k) => add(`hour-${k}`, "plain", text, hourSpots(g.x(at * info.length), text, g)));
  return labels;
}

function latestSpots(x, g) {
  const rows = [g.top + 8, g.bottom - 4, g.top + 26, g.bottom - 22], places = [[x + 6, "start"], [x - 6, "end"], [g.width, "end"]];
  return [false, true].flatMap(mayCross => rows.flatMap(y => places.map(([at, anchor]) => [at, y, anchor, mayCross])));
}

// The heights of both quotes' labels: at the ends of their lines, moved apart where they would touch, the higher price above.
function quoteHeights(info, g) {
  const sides = ["ask", "bid"].filter(side => info[side]).sort((a, b) => info[b].price - info[a].price);
  const heights = sides.map(side => clampY(g.y(info[side].price) + 5, g)), spare = LINE - (heights[1] - heights[0]);
  if (spare > 0) {
    const first = Math.min(Math.max(heights[0] - spare / 2, g.top + 12), g.bottom - 2 - LINE);
    heights.splice(0, 2, first, first + LINE);
  }
  return Object.fromEntries(sides.map((side, at) => [side, heights[at]]));
}

// Behind the end of its line; there it may cross the dashed line where nothing else is free. At the day's end, where there is no room
// after it, above the ask's line and below the bid's.
function quoteSpots(info, side, g) {
  const now = g.x(info.now), y = quoteHeights(info, g)[side], way = side === "ask" ? -1 : 1, spots = [];
  const room = Math.max(...["ask", "bid"].map(each => info[each] ? widthOf(info[each].text, each) : 0)) <= g.width - now - 6;
  const sides = room ? [[now + 6, y, "start", false], [now + 6, y, "start", true]] : [[now - 6, y + way * 14, "end", true]];
  for (const [x, first, anchor, mayCross] of sides) {
    for (let step = 0; step <= 36; step += 4) {
      for (const to of [way, -way]) spots.push([x, clampY(first + to * step, g), anchor, mayCross]);
    }
  }
  return spots;
}

function clampY(y, g) {
  return Math.min(Math.max(y, g.top + 12), g.bottom - 2);
}

function hourSpots(x, text, g) {
  const half = widthOf(text, "plain") / 2;
  return [[Math.min(x, g.width - half), g.foot + 20, "middle"]];
}

export function layLabels(labels, g) {
  const taken = [], laid = new Set();
  for (const label of labels) {
    const width = widthOf(label.text, label.kind);
    const spot = label.spots.find(each => isFree(boxOf(each, width), taken, each[3] ? null : label.avoid, g));
    if (!spot) continue;   // a label that would touch another is left out
    taken.push(boxOf(spot, width));
    laid.add(label.name);
    const text = textFor(label.name);
    put(text, "class", label.kind);
    put(text, "x", spot[0].toFixed(1));
    put(text, "y", spot[1].toFixed(1));
    put(text, "text-anchor", spot[2]);
    say(text, label.text);
  }
  for (const [name, text] of plot.texts) if (!laid.has(name)) say(text, "");
}

function boxOf([x, y, anchor], width) {
  const from = anchor === "start" ? x : anchor === "end" ? x - width : x - width / 2;
  return { from, to: from + width, top: y - 12, bottom: y + 4 };
}

function isFree(it, taken, line, g) {
  if (it.from < 0 || it.to > g.width) return false;
  if (typeof line === "number" && it.from - 2 < line && line < it.to + 2) return false;
  return taken.every(other => it.to + 3 <= other.from || other.to + 3 <= it.from || it.bottom <= other.top || other.bottom <= it.top);
}
