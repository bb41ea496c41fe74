/* The wall. It computes no figure of the meter: it places the texts that the server sends.

Every figure is in an element of its own, found by document.querySelector('[data-figure="NAME"]'):
  desk, what, clock, zone                    the line above everything
  band-head, band-then                       the worst contract; #band has its loudness as a class and as data-loud (tape yellow unknown stop)
  month-head, fee, month-note, refused-head, refused-note
Tiles: #tiles li[data-key=KEY] with data-kind; in it [data-part=word number what sentence more share lapses D missing last].
Checks: #checks span with data-kind; the readings' one has data-readings. Alarms: #alarms tr[data-number]. */

import { $, drawn as drawnSvg, figure, say } from "./elements.js";

const MUTE_MINUTES = 30, MUTE_ALL_MINUTES = 5;
const FIRST_WAIT = 500, LAST_WAIT = 5_000, LONGEST_SILENCE = 5_000;

const shown = {};            // the newest sections
const drawn = new Map();     // by a tile's key: the text that it was drawn from
let socket = null, wait = FIRST_WAIT, heardAt = 0, isAway = false;
let sound = null, lastAlarm = -1, isUtc = false;

// ---------------------------------------------------------------- elements

function element(tag, attributes = {}, ...children) {
  const made = document.createElement(tag);
  for (const [name, value] of Object.entries(attributes)) if (value !== null) made.setAttribute(name, value);
  made.append(...children.filter(child => child !== null));
  return made;
}

// The signs that the band of a contract's page has too.
const LARGE = { rest: "h-rest", risk: "h-keep", hold: "h-hold", over: "h-lost", none: "h-none", unknown: "h-broken" };

function signLink(name) {
  return `#${LARGE[name] ?? `s-${name}`}`;
}

function sign(name, kind = "sign") {
  return drawnSvg("svg", { class: kind, "aria-hidden": "true" }, drawnSvg("use", { href: signLink(name) }));
}

// Parts between two * are bold.
function bold(text) {
  return text.split("*").map((part, at) => at % 2 ? element("b", {}, part) : part);
}

function put(node, ...children) {
  node.replaceChildren(...children);
}

// ---------------------------------------------------------------- tiles

function bar() {
  return element("div", { class: "bar", role: "img" }, element("i", { class: "have" }), element("i", { class: "may" }), element("i", { class: "need" }));
}

function drawBar(node, share) {
  const [have, may, need] = node.children;
  node.setAttribute("aria-label", `kept ${share.kept}, required ${share.required}`);
  have.style.width = `${share.have}%`;
  may.style.left = `${share.have}%`;
  may.style.width = `${share.may}%`;
  need.style.left = `${share.need}%`;
}

function muteButton(tile) {
  if (["ended", "due"].includes(tile.kind)) return null;
  const made = tile.muted
    ? element("button", { "aria-pressed": "true", "data-mute": "0" }, sign("muted"), " ", element("span", { class: "long" }, "muted to "), tile.muted)
    : element("button", { "aria-pressed": "false", "aria-label": `Mute ${tile.symbol} for ${MUTE_MINUTES} minutes`, "data-mute": String(MUTE_MINUTES) }, sign("bell"));
  made.addEventListener("click", () => send({ mute: { key: tile.key, minutes: Number(made.dataset.mute) } }));
  return made;
}

function classesOf(tile) {
  const found = ["tile", tile.kind, tile.is_small ? "small" : "tall"];
  if (tile.kind === "alarm") found.push("tape");
  if (["risk", "hold"].includes(tile.kind)) found.push("yellow");
  if (["alarm", "risk", "lost"].includes(tile.kind)) found.push("away", `p-${tile.state}`);
  if (tile.is_failed) found.push("no");
  return found.join(" ");
}

const BRIEF = { "Cannot be met": "can't be met" };
const PARTS = { "lapses": "lapses", "D": "D", "missing at best": "missing" };

function figures(tile) {
  return tile.figures.map(each => element("div", {}, element("dt", {}, each.name),
    element("dd", { class: each.bad ? "bad" : null, "data-part": PARTS[each.name] }, element("span", { class: "value" }, each.value), ...(each.unit ? [" ", element("small", {}, each.unit)] : []))));
}

function contents(tile) {
  const link = element("a", { href: `contract/${encodeURIComponent(tile.key)}/${location.search}` }, tile.symbol);
  const word = element("p", { class: `word${tile.word.length > 11 ? " long" : ""}` },
    element("span", { class: "brief", "aria-hidden": "true" }, BRIEF[tile.word] ?? tile.word.toLowerCase()), element("span", { "data-part": "word" }, tile.word));
  const number = element("p", { class: "n" }, element("span", { "data-part": "number" }), ...(tile.what ? [element("small", { "data-part": "what" }, tile.what)] : []));
  const share = element("div", { class: "share" }, element("span", {}, "kept"), " ", element("b", { "data-part": "share" }), bar(),
    element("span", {}, "of ", element("b", {}, tile.share.required)));
  return element("div", { class: "in" },
    element("div", { class: "who" }, element("h3", {}, link), element("span", { class: "soft" }, tile.who), muteButton(tile)),
    element("div", { class: "say" }, sign(tile.sign, "mark"), element("div", {}, word, number)),
    element("p", { class: "do" }, element("i", { "data-part": "sentence" }), " ", element("span", { "data-part": "more" })),
    element("div", { class: "foot" }, share, element("dl", {}, ...figures(tile)), element("p", { class: "last", "data-part": "last" })));
}

// What a tile is made of. As long as it stays, only texts change, so that a click or the focus is not lost on the way.
function shapeOf(tile) {
  const figures = tile.figures.map(each => [each.name, each.unit, each.bad]);
  return JSON.stringify([tile.kind, tile.state, tile.sign, tile.word, tile.what, tile.who, tile.muted, tile.is_small, tile.is_failed, tile.share.required, figures]);
}

function fillTile(node, tile) {
  const part = name => node.querySelector(`[data-part="${name}"]`);
  for (const name of ["number", "more", "last"]) say(part(name), tile[name]);
  say(part("share"), tile.share.kept);
  const sentence = part("sentence");
  if (sentence.dataset.text !== tile.sentence) put(sentence, ...bold(tile.sentence));
  sentence.dataset.text = tile.sentence;
  tile.figures.forEach(each => say(part(PARTS[each.name]).querySelector(".value"), each.value));
  drawBar(node.querySelector(".bar"), tile.share);
}

function drawTile(node, tile) {
  const shape = shapeOf(tile);
  if (node.dataset.shape !== shape) buildTile(node, tile);
  node.dataset.shape = shape;
  fillTile(node, tile);
}

function buildTile(node, tile) {
  const focused = node.contains(document.activeElement) ? document.activeElement.tagName : "";
  node.className = classesOf(tile);
  node.dataset.key = tile.key;
  node.dataset.kind = tile.kind;
  if (tile.kind === "lost") node.style.setProperty("--state", `var(--${tile.state})`);
  else node.style.removeProperty("--state");
  put(node, contents(tile));
  if (focused) node.querySelector(focused.toLowerCase())?.focus({ preventScroll: true });
}

function drawTiles() {
  const list = $("tiles"), nodes = new Map([...list.children].map(node => [node.dataset.key, node]));
  for (const [key, node] of nodes) if (!shown.order.includes(key)) { node.remove(); drawn.delete(key); }
  shown.order.forEach((key, at) => {
    const tile = shown[`tile ${key}`], text = JSON.stringify(tile), node = nodes.get(key) ?? element("li");
    if (drawn.get(key) !== text) drawTile(node, tile);
    drawn.set(key, text);
    if (list.children[at] !== node) list.insertBefore(node, list.children[at] ?? null);
  });
}

// ---------------------------------------------------------------- the rest

function drawHead() {
  const head = shown.head;
  say(figure("desk"), head.desk);
  say(figure("what"), head.what);
  say(figure("clock"), isUtc ? head.utc : head.clock);
  say(figure("zone"), isUtc ? `UTC; below ${head.zone}, now ${head.clock}` : head.zone);
  $("page").classList.toggle("dense", head.is_dense);
}

function drawBand() {
  const band = isAway ? { loud: "unknown", sign: "unknown", head: "The page has lost the meter", then: "Keep quoting: nothing here is current.", counts: [], spoken: "The page has lost the meter" } : shown.band;
  if (!band) return;
  $("band").className = `band ${band.loud}`;
  $("band").dataset.loud = band.loud;
  $("band").querySelector("use").setAttribute("href", signLink(band.sign));
  say(figure("band-head"), band.head);
  say(figure("band-then"), band.then);
  say($("spoken"), band.spoken);
  document.title = band.head;
  put($("counts"), ...band.counts.map(each => element("li", {}, sign(each.sign), " ", element("b", {}, String(each.count)), ` ${each.text}`)));
}

function drawChecks() {
  put($("checks"), ...shown.checks.map(each => element("span", { class: each.kind === "warn" ? "bad" : null, "data-kind": each.kind, "data-readings": each.readings ?? null }, sign(each.kind), " ", ...bold(each.text))));
}

function monthRow(row) {
  const against = element("i");
  against.style.width = `${Math.min(100, 100 * row.most / row.allowed)}%`;
  const few = row.left < 4 ? [" ", sign("warn"), " ", element("b", {}, row.left < 0 ? "no fee" : `${row.left} more`)] : [];
  return element("tr", { "data-instrument": row.name }, element("th", { scope: "row" }, row.name), element("td", { class: "num phoneless" }, String(row.met)),
    element("td", { class: "num phoneless" }, String(row.failed)), element("td", { class: "phoneless" }, element("span", { class: "against" }, against)),
    element("td", { class: "nb" }, element("b", {}, String(row.most)), ` of ${row.allowed}`, ...few),
    element("td", { class: "phoneless nb soft" }, row.series), element("td", { class: "num" }, element("b", {}, row.fee)));
}

function drawMonth() {
  say(figure("month-head"), shown.month.head);
  say(figure("fee"), shown.month.sum);
  say(figure("month-note"), shown.month.note);
  put($("months"), ...shown.month.rows.map(monthRow));
}

function drawRefused() {
  say(figure("refused-head"), shown.refused.head);
  say(figure("refused-note"), shown.refused.note);
  put($("refused"), ...shown.refused.rows.map(row => element("tr", {}, element("td", {}, row[0]), element("td", {}, element("b", {}, row[1])), element("td", {}, row[2]))));
}

function drawAlarms() {
  const rows = shown.alarms.map(each => element("tr", { "data-number": String(each.number), "data-kind": each.kind, class: each.is_silent ? "mutely" : null },
    element("td", {}, each.time), element("td", {}, element("b", {}, each.key)), element("td", {}, each.text)));
  put($("alarms"), ...rows);
  const fresh = shown.alarms.filter(each => each.number > lastAlarm);
  if (lastAlarm >= 0) fresh.filter(each => !each.is_silent).reverse().forEach(alarm);
  lastAlarm = Math.max(0, lastAlarm, ...fresh.map(each => each.number));
}

// ---------------------------------------------------------------- alarms

const QUIET = ["regained", "known", "ended"];

function tone(frequency, at, length) {
  const oscillator = sound.createOscillator(), gain = sound.createGain();
  oscillator.frequency.value = frequency;
  gain.gain.setValueAtTime(0.25, sound.currentTime + at);
  gain.gain.exponentialRampToValueAtTime(0.001, sound.currentTime + at + length);
  oscillator.connect(gain).connect(sound.destination);
  oscillator.start(sound.currentTime + at);
  oscillator.stop(sound.currentTime + at + length);
}

// A loss falls, a return rises.
function alarm(each) {
  if (!sound) return;
  const [first, second] = QUIET.includes(each.kind) ? [520, 780] : [880, 587];
  tone(first, 0, 0.25);
  tone(second, 0.28, 0.35);
  document.documentElement.dataset.sounded = String(each.number);
  if (window.Notification?.permission === "granted") new Notification(`${each.key || "Desk"}: ${each.text}`, { tag: `${each.key} ${each.kind}` });
}

function startSound() {
  if (sound) {
    sound.close();
    sound = null;
  } else {
    sound = new AudioContext();
    tone(660, 0, 0.12);
    window.Notification?.requestPermission();
  }
  $("sound").setAttribute("aria-pressed", String(Boolean(sound)));
  $("sound").querySelector("use").setAttribute("href", sound ? "#s-bell" : "#s-muted");
  $("sound").querySelector("span").textContent = sound ? "Sound on" : "Sound off";
}

// ---------------------------------------------------------------- the connection

function send(message) {
  if (socket?.readyState === WebSocket.OPEN) socket.send(JSON.stringify(message));
}

function heard(message) {
  wait = FIRST_WAIT;
  heardAt = Date.now();
  isAway = false;
  Object.assign(shown, message);
  drawHead();
  drawBand();
  if (message.checks) drawChecks();
  drawTiles();
  if (message.month) drawMonth();
  if (message.refused) drawRefused();
  if (message.alarms) drawAlarms();
}

function lost() {
  socket?.close();
  socket = null;
  isAway = true;
  drawBand();
  setTimeout(connect, wait);
  wait = Math.min(LAST_WAIT, wait * 2);
}

function connect() {
  if (socket) return;
  const scheme = location.protocol === "https:" ? "wss://" : "ws://";
  const mine = socket = new WebSocket(scheme + location.host + location.pathname.replace(/[^/]*$/, "") + `live${location.search}`);
  heardAt = Date.now();
  mine.addEventListener("message", event => { if (socket === mine) heard(JSON.parse(event.data)); });
  mine.addEventListener("close", () => { if (socket === mine) lost(); });
}

// The clock alone changes every second, so silence means that the connection is dead.
function minding() {
  if (socket && Date.now() - heardAt > LONGEST_SILENCE) lost();
}

function start() {
  const theme = new URLSearchParams(location.search).get("theme");
  if (["light", "dark"].includes(theme)) document.documentElement.dataset.theme = theme;
  $("sound").addEventListener("click", startSound);
  $("mute-all").addEventListener("click", () => send({ mute: { key: "", minutes: MUTE_ALL_MINUTES } }));
  $("utc").addEventListener("click", () => {
    isUtc = !isUtc;
    $("utc").setAttribute("aria-pressed", String(isUtc));
    drawHead();
  });
  setInterval(minding, 1_000);
  connect();
}

start();
