// The elements of the day's chart, what its texts measure, and the shape of a box.

import { $, drawn, named, put, say } from "./elements.js";

export const KEYS = ["kept", "no-bid", "no-ask", "neither", "crossed", "wide"];
export const plot = { parts: null, texts: new Map(), widths: new Map() };

export function startChart() {
  const svg = $("chart"), parts = { tints: {}, strip: {} };
  for (const key of KEYS) svg.append(parts.tints[key] = drawn("path", { class: `tint f-${key}` }));
  svg.append(parts.rules = drawn("path", { class: "rule" }));
  for (const key of KEYS) svg.append(parts.strip[key] = drawn("path", { fill: `url(#p-${key})` }));
  svg.append(parts.badges = drawn("g", { class: "badge" }));
  for (const side of ["ask", "bid"]) svg.append(parts[side] = drawn("path", { class: side }));
  const lines = { ticks: "tick", latest: "dashed", now: "heavy", frame: "tick" };
  for (const [name, kind] of Object.entries(lines)) svg.append(parts[name] = drawn("path", { class: kind }));
  svg.append(parts.labels = drawn("g", {}));
  plot.parts = parts;
  for (const side of ["bid", "ask"]) named(textFor(side), side);   // empty where there is none
}

export function textFor(name) {
  if (!plot.texts.has(name)) {
    const text = drawn("text", {});
    plot.texts.set(name, text);
    plot.parts.labels.append(text);
  }
  return plot.texts.get(name);
}

// Measured once for each wording; digits are all of one width, so that a time that goes on needs no new measure.
export function widthOf(text, kind) {
  const wording = `${kind} ${text.replace(/\d/g, "0")}`;
  if (!plot.widths.has(wording)) {
    const probe = textFor("probe");
    put(probe, "class", kind);
    say(probe, text);
    plot.widths.set(wording, probe.getComputedTextLength());
    probe.textContent = "";
    if (plot.widths.size > 500) plot.widths.clear();
  }
  return plot.widths.get(wording) ?? 0;
}

export function box(x0, y0, x1, y1) {
  return `M${x0.toFixed(1)} ${y0.toFixed(1)}H${x1.toFixed(1)}V${y1.toFixed(1)}H${x0.toFixed(1)}Z`;
}
