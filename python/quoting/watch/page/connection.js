// The connection: tried again when it is lost, and given up while the page is hidden.

import { drawSoon, link, mark, sayTitle, shown, take } from "./sections.js";

const HIDDEN_FOR = 30_000;            // how long a hidden page stays connected
const FIRST_WAIT = 500, LAST_WAIT = 5_000;   // before a lost connection is tried again
const LONGEST_SILENCE = 5_000;        // of a server that follows an open quantum

export const connection = { socket: null };   // null: none is open or being opened
let wait = FIRST_WAIT, retry = 0, asleep = 0, heardAt = 0, silence = 0;

function localTime() {
  return new Date().toLocaleTimeString("en-GB");
}

function lose(head, title) {
  if (!link.away) Object.assign(link, { away: true, since: localTime() });
  Object.assign(link, { head, title });
  mark("link");
  sayTitle();
}

export function connect() {
  clearTimeout(retry);
  if (connection.socket) return;
  const base = (location.protocol === "https:" ? "wss://" : "ws://") + location.host + location.pathname.replace(/[^/]*$/, "");
  const mine = connection.socket = new WebSocket(`${base}live${location.search}`);
  heardAt = Date.now();
  silence = setInterval(minding, 1_000);
  mine.addEventListener("message", event => {
    if (connection.socket === mine) heard(JSON.parse(event.data));
  });
  mine.addEventListener("close", () => {
    if (connection.socket === mine) lost();
  });
}

// The first message of a connection has the whole state, so the page is up to date again with it.
function heard(message) {
  wait = FIRST_WAIT;
  heardAt = Date.now();
  if (link.away) {
    link.away = false;
    mark("link");
  }
  take(message);
}

function disconnect() {
  const old = connection.socket;
  connection.socket = null;
  clearTimeout(retry);
  clearInterval(silence);
  if (old) old.close();
}

function lost() {
  disconnect();
  lose("The page has lost the meter", "Meter lost");
  if (document.hidden) return;   // tried again when it is shown
  retry = setTimeout(connect, wait);
  wait = Math.min(LAST_WAIT, wait * 2);
}

// A connection can die without a word. While an open quantum is followed the server has something new every second (how long ago the last
// call came); an old answer must not stay there as if it were current.
function minding() {
  const isDue = link.away || (shown.open && shown.feed?.kind === "following");
  if (isDue && Date.now() - heardAt > LONGEST_SILENCE) lost();
}

function sleep() {
  disconnect();
  lose("Not followed while hidden", "Not followed while hidden");
}

export function seenOrHidden() {
  clearTimeout(asleep);
  if (document.hidden) {
    asleep = setTimeout(sleep, HIDDEN_FOR);
    return;
  }
  wait = FIRST_WAIT;
  connect();
  drawSoon();
}
