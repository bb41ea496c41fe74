// The day: best bid and ask over the time, as columns of what has come, drawn as a chart.

import { $, put, say } from "./elements.js";
import { course, link } from "./sections.js";
import { KEYS, plot } from "./chart.js";
import { paintStrip, piecesOf } from "./strip.js";
import { labelsOf, layLabels, paintMarks, priceText } from "./labels.js";

const RARE = .05, MOST_CUT = 3;   // the share of the time that may be cut off, if it is so many times as far away as the rest is wide

// Where everything is: x by the time, y by the price.
function geometry(info, columns, width) {
  const narrow = width < 500, height = narrow ? 330 : 430, strip = height - 62, scale = priceScale(columns, info);
  const left = Math.max(44, 12 + 7.3 * Math.max(...[scale.low, scale.high].map(price => priceText(info, Math.round(price)).length)));
  const g = { ...scale, width, height, narrow, left, right: width - (narrow ? 12 : 20), top: 22, bottom: height - 72, strip };
  g.foot = strip + 26;
  g.x = t => left + (g.right - left) * Math.min(1, Math.max(0, t / info.length));
  g.y = price => g.bottom - (g.bottom - g.top) * Math.min(1, Math.max(0, (price - g.low) / (g.high - g.low)));
  return g;
}

// The prices that the chart spans. A quote far away for a short while would press all others into one line: then it is cut at the edge,
// and a label there says how far it went.
function priceScale(columns, info) {
  const quotes = columns.filter(Boolean).flatMap(column => [column.bid, column.ask].map(quote => ({ ...quote, at: column.from })));
  const seen = quotes.filter(quote => quote.low !== null);
  if (!seen.length) return { low: 0, high: 1 };
  const lows = seen.map(quote => quote.low).sort((a, b) => a - b), highs = seen.map(quote => quote.high).sort((a, b) => a - b);
  const [least, most] = [lows[0], highs.at(-1)], rare = Math.floor(seen.length * RARE);
  let [low, high] = [lows[rare], highs.at(-1 - rare)];
  const usual = Math.max(high - low, 10), now = [info.bid, info.ask].filter(Boolean).map(quote => quote.price);
  low = low - least > MOST_CUT * usual ? Math.min(low - usual / 2, ...now) : least;
  high = most - high > MOST_CUT * usual ? Math.max(high + usual / 2, ...now) : most;
  const spare = Math.max(2, (high - low) * .06), scale = { low: low - spare, high: high + spare };
  if (most > high) scale.above = { price: most, at: seen.find(quote => quote.high === most).at };
  if (least < low) scale.below = { price: least, at: seen.find(quote => quote.low === least).at };
  return scale;
}

// One column for each pixel, or for each bucket where a bucket is wider than a pixel.
function columnsOf(info, buckets, pixels) {
  const byBucket = Math.ceil(info.length / info.width) <= pixels, span = byBucket ? info.width : info.length / pixels;
  const columns = new Array(Math.ceil(info.length / span - 1e-9)).fill(null);
  for (const bucket of buckets) {
    if (!bucket) continue;
    const column = columnAt(columns, Math.floor((bucket[0] + .5) * info.width / span), span);
    see(column.bid, bucket[1], bucket[2], bucket[3]);
    see(column.ask, bucket[4], bucket[5], bucket[6]);
    for (let state = 0; state < KEYS.length; state++) column.times[state] += bucket[7 + state];
  }
  if (info.running) addRunning(columns, info, span);
  return columns;
}

function columnAt(columns, at, span) {
  const k = Math.min(columns.length - 1, Math.max(0, at));
  return columns[k] ??= { from: k * span, to: (k + 1) * span, times: [0, 0, 0, 0, 0, 0], bid: unseen(), ask: unseen() };
}

function unseen() {
  return { low: null, high: null, end: null };
}

function see(quote, low, high, end) {
  if (low !== null) {
    quote.low = quote.low === null ? low : Math.min(quote.low, low);
    quote.high = quote.high === null ? high : Math.max(quote.high, high);
  }
  quote.end = end;
}

// The state from the last event on goes up to now.
function addRunning(columns, info, span) {
  const state = KEYS.indexOf(info.running.key);
  const first = Math.floor(info.running.from / span), last = Math.ceil(info.now / span) - 1;
  for (let k = first; k <= last && k < columns.length; k++) {
    const column = columnAt(columns, k, span);
    column.times[state] += Math.max(0, Math.min(info.now, column.to) - Math.max(info.running.from, column.from));
    for (const side of ["bid", "ask"]) see(column[side], info[side]?.price ?? null, info[side]?.price ?? null, info[side]?.price ?? null);
  }
}

function linePath(columns, side, info, g) {
  let path = "", price = null;
  for (const column of columns) {
    const quote = column?.[side];
    if (!quote || (quote.low === null && price === null)) continue;
    const x = g.x(column.from).toFixed(1);
    if (quote.low === null) {
      path += `H${x}`;
    } else if (price === null) {
      path += `M${x} ${g.y(quote.low).toFixed(1)}${stepTo(quote, g)}`;
    } else if (quote.low !== price || quote.high !== price || quote.end !== price) {
      path += `H${x}${stepTo(quote, g)}`;
    }
    if (quote.low !== null && quote.end === null) path += `H${g.x(Math.min(column.to, info.now)).toFixed(1)}`;
    price = quote.end;
  }
  return price === null ? path : `${path}H${g.x(info.now).toFixed(1)}`;
}

// All that the quote went through within a column, ending where it ended.
function stepTo(quote, g) {
  const [high, low, end] = [quote.high, quote.low, quote.end ?? quote.low].map(price => g.y(price).toFixed(1));
  return high === low ? `V${end}` : `V${high}V${low}V${end}`;
}

export function paintDay() {
  const svg = $("chart"), width = svg.clientWidth;
  if (!course.info || !width) return;
  const info = link.away ? { ...course.info, nowText: course.info.nowText.replace(/^now/, "last") } : course.info;
  const columns = columnsOf(info, course.buckets, Math.max(1, Math.floor(width - 64))), g = geometry(info, columns, width);
  put(svg, "viewBox", `0 0 ${width} ${g.height}`);
  put(svg, "height", g.height);
  paintStrip(piecesOf(columns), info, g);
  for (const side of ["ask", "bid"]) put(plot.parts[side], "d", linePath(columns, side, info, g));
  paintMarks(info, g);
  layLabels(labelsOf(info, g), g);
  const quotes = ["bid", "ask"].map(side => info[side]?.text ?? `${side} absent`).join(", ");
  say($("chart-said"), `Best bid and ask over the day, from ${info.start[0]?.[1] ?? "its start"} to ${info.nowText}: ${quotes}.`
    + `${info.latest ? ` ${info.latest.text}.` : ""} The stretches of each state are in the table below.`);
}
