// What has come: the newest of each section, and which of them are to be drawn again.

export const shown = {};   // the newest of each section
const changed = new Set();   // sections to be drawn
export const course = { info: null, buckets: [] };   // of the day, which is added to
export const link = { away: false, since: "", last: "" };   // the connection
const painters = [];   // [section, what draws it], in the order in which they are drawn
let frame = 0;

export function drawWith(all) {
  painters.push(...all);
}

export function take(message) {
  for (const [name, section] of Object.entries(message)) {
    if (name === "day") takeDay(section);
    shown[name] = section;
    mark(name);
  }
  if ("band" in message || "differs" in message) sayTitle();
}

function takeDay(section) {
  if (!section || section.fresh) course.buckets = [];
  course.info = section;
  for (const bucket of section ? section.buckets : []) course.buckets[bucket[0]] = bucket;
}

// Sections that draw on another one are drawn with it.
const ALONG = { differs: ["band"], band: ["open", "state"], open: ["day"], link: ["band", "state", "open", "readings", "feed", "head"] };

export function mark(name) {
  if (changed.has(name)) return;
  changed.add(name);
  for (const other of ALONG[name] ?? []) mark(other);
  drawSoon();
}

// A hidden page is not drawn; what has come is drawn when it is shown.
export function drawSoon() {
  if (!frame && !document.hidden) frame = requestAnimationFrame(draw);
}

function draw() {
  frame = 0;
  const due = new Set(changed);
  changed.clear();
  for (const [name, paint] of painters) if (due.has(name)) paint(shown[name]);
}

// The title is seen while the page is hidden, so it is not left to the drawing.
export function sayTitle() {
  const title = link.away ? `${link.title} | ${shown.head?.name ?? "quoting watch"}`
    : shown.differs ? shown.differs.head.replace(/^Stop/, "STOP") : shown.band?.title;
  if (title && document.title !== title) document.title = title;
}
