/* The live page. It computes no figure of the meter: it places the texts that the server sends, and draws.

Every figure is in an element of its own, found by document.querySelector('[data-figure="NAME"]'):
  name, what, clock                          the line above everything
  band-head, band-sub, band-why              the answer; #hero has its kind as a class (rest keep hold lost none broken reading stop)
                                             and as data-kind, where a lost connection is "away"
  state, since                               the state now; data-key of `state` is its key
  readings, readings-text, feed              both readings and the feed; data-kind of #readings and #feed is their kind
  alert, alert-text                          the newest problem
  omitted, omitted-text                      what the exchange answered and the figures leave out
  share, required, required-time, full, full-time                        the bar
  kept, left, lapses, spread, weight         the five figures, each with NAME-unit and NAME-below; kept and left with thousandths
  bid, ask                                   best quotes now, as the chart is labelled; empty where absent
  account-KEY (kept no-bid no-ask neither crossed wide), account-gone      where the time went
  ahead-0, ahead-1, ..                       what is ahead; ahead-N-word is its word
  orders-note, stretches-earlier, problems-note, ask-why
  answer, answer-0, answer-1, ..             the answer to an ask and its further lines; #answer has its kind as data-kind, n as data-n
  cell-head, cell-0, cell-1, ..              the cell that is shown; cell-N-word is the word
  failed-0 .. failed-5                       failed cells of each series
  fee, fee-kopecks, fee-note
  stop-after, stop-text                      how the readings differ; rows of #stop-rows have data-same
Rows: #orders tr[data-order=ID], #stretches tr[data-key], #problems tr. Cells of the grid: [data-cell="DAY,EXPIRY,QUANTUM"] with data-kind.
The form is #ask with the fields t, id, price, volume. */

import { $ } from "./elements.js";
import { drawWith, mark } from "./sections.js";
import { paintAlert, paintBand, paintDiffers, paintFeed, paintHead, paintOmitted, paintReadings, paintState } from "./band.js";
import { paintOpen, paintProblems, paintStretches } from "./quantum.js";
import { paintAnswer, startForm } from "./asking.js";
import { startChart } from "./chart.js";
import { paintDay } from "./day.js";
import { paintMonth, startGrid } from "./month.js";
import { connect, seenOrHidden } from "./connection.js";

const PAINTERS = [
  ["differs", paintDiffers], ["head", paintHead], ["band", paintBand], ["state", paintState], ["readings", paintReadings],
  ["feed", paintFeed], ["alert", paintAlert], ["omitted", paintOmitted], ["open", paintOpen], ["stretches", paintStretches], ["day", paintDay],
  ["problems", paintProblems], ["month", paintMonth], ["answer", paintAnswer],
];

function start() {
  const theme = new URLSearchParams(location.search).get("theme");
  if (["light", "dark"].includes(theme)) document.documentElement.dataset.theme = theme;
  drawWith(PAINTERS);
  startForm();
  startChart();
  startGrid();
  const sized = new ResizeObserver(() => { mark("band"); mark("day"); mark("stretches"); });
  for (const id of ["hero", "chart", "bar", "stretches-scroll"]) sized.observe($(id));
  document.addEventListener("visibilitychange", seenOrHidden);
  connect();
}

start();
