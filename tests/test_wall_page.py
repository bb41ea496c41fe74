"""The page of `quoting desk watch` in a real browser: its tiles, an alarm by title, band, sound, notification and hook, and the figures for
programs. It runs with the other tests of live pages, in one process; pictures to be looked at go to target/wall."""

import json
import re
import signal
import stat
import time
import urllib.error
import urllib.request

import pytest
from prometheus_client.parser import text_string_to_metric_families

from quoting.wall.state import Wall
from tests.browser import PATIENCE, Browser, Served
from tests.live_desk import LiveDesk
from tests.paths import TARGET

pytestmark = [pytest.mark.usefixtures("library"), pytest.mark.xdist_group("watch"), pytest.mark.long]
SHOTS = TARGET / "wall"
SEEN = """
const part = (node, name) => node.querySelector(`[data-part="${name}"]`)?.textContent ?? "";
const tiles = [...document.querySelectorAll("#tiles li")].map(node => ({key: node.dataset.key, kind: node.dataset.kind, word: part(node, "word"),
  number: part(node, "number"), sentence: part(node, "sentence"), share: part(node, "share"), lapses: part(node, "lapses"), d: part(node, "D"),
  missing: part(node, "missing"), last: part(node, "last"), mute: node.querySelector("button")?.textContent.trim() ?? ""}));
const readings = document.querySelector("[data-readings]");
return {title: document.title, loud: document.getElementById("band").dataset.loud, spoken: document.getElementById("spoken").textContent, tiles,
  head: document.querySelector("[data-figure=band-head]").textContent, zone: document.querySelector("[data-figure=zone]").textContent,
  clock: document.querySelector("[data-figure=clock]").textContent, readings: readings?.dataset.readings ?? "", readingsText: readings?.textContent ?? "",
  checks: [...document.querySelectorAll("#checks span")].map(node => node.textContent.trim()), sounded: document.documentElement.dataset.sounded ?? "",
  alarms: [...document.querySelectorAll("#alarms tr")].map(row => row.textContent), noted: window.noted ?? [], asked: window.asked ?? false};
"""
NOTIFICATION = """
window.noted = [];
window.Notification = class { constructor(text) { window.noted.push(text); } static requestPermission() { window.asked = true; } static get permission() { return "granted"; } };
"""


@pytest.fixture(scope="module")
def browser(library):
    with Browser() as found:
        yield found.driver


@pytest.fixture
def chromium(browser):
    """The browser, on an empty page before and after, with an empty console."""
    browser.get("about:blank")
    browser.get_log("browser")
    yield browser
    browser.get("about:blank")


@pytest.fixture
def desk(tmp_path):
    """Two contracts that have been quoted since long before now."""
    made = LiveDesk(tmp_path / "desk", ["BR-1.27", "GD-12.26"], lapses=5)
    start = made.moment("6:00:00")
    made.quote("BR-1.27", 10, start + 3_600)
    made.quote("GD-12.26", 20, start + 1_800)
    return made


def served(desk, *words):
    return Served(desk.path, "--silence", "0", *words, command=("desk", "watch"))


def until(driver, what, holds):
    end = time.monotonic() + PATIENCE
    while time.monotonic() < end:
        seen = driver.execute_script(SEEN)
        if holds(seen):
            return seen
        time.sleep(0.05)
    raise AssertionError((what, seen))


def visit(driver, link):
    driver.get(link)
    return until(driver, "there are tiles", lambda seen: seen["tiles"] and seen["tiles"][0]["word"])


def fetched(link, **headers):
    request = urllib.request.Request(link, headers=headers)
    try:
        with urllib.request.urlopen(request, timeout=PATIENCE) as answer:
            return answer.status, answer.read().decode()
    except urllib.error.HTTPError as error:
        return error.code, error.read().decode()


def tile_of(seen, key):
    return next(tile for tile in seen["tiles"] if tile["key"] == key)


# ---------------------------------------------------------------- tiles and alarms


def test_an_alarm_when_a_quote_is_lost(chromium, desk, tmp_path):
    calls, hook = tmp_path / "calls", tmp_path / "hook"
    hook.write_text(f"#!/bin/sh\ncat >> {calls}\n")
    hook.chmod(hook.stat().st_mode | stat.S_IXUSR)
    with served(desk, "--alarm", "1s", "--hook", hook) as run:
        seen = visit(chromium, run.link)
        assert (seen["title"], seen["loud"]) == ("All quiet", "")
        assert [tile["kind"] for tile in seen["tiles"]] == ["kept", "kept"] and seen["zone"].startswith("UTC")
        seen = until(chromium, "both readings agree", lambda seen: seen["readings"] == "agree")
        assert "Both readings agree on the counting of 6 of 6 calls" in seen["readingsText"]
        chromium.execute_script(NOTIFICATION)
        chromium.find_element("id", "sound").click()
        desk.cancel("BR-1.27", 10)
        seen = until(chromium, "the title says it", lambda seen: seen["title"].startswith("NO BID 0:00:0"))
        assert seen["title"].endswith(" · BR-1.27") and seen["loud"] == "tape" and seen["spoken"] == "NO BID: BR-1.27"
        first = seen["tiles"][0]
        assert (first["key"], first["kind"], first["word"], first["missing"], first["lapses"]) == ("BR-1.27", "alarm", "NO BID", "bid 100", "2 of 5")
        seen = until(chromium, "it sounds, and is noted", lambda seen: seen["sounded"] and seen["noted"])
        assert seen["asked"] and "BR-1.27: no bid for 0:00:01" in seen["noted"][0]
        until(chromium, "the hook is called", lambda seen: any("hook done" in row for row in seen["alarms"]))
        called = json.loads(calls.read_text().splitlines()[0])
        assert (called["event"], called["contract"], called["state"], called["desk"]) == ("lost", "BR-1.27", "no-bid", "Client 07")
        desk.new("BR-1.27", 30, 1, "84.50", 100)
        seen = until(chromium, "it is kept again", lambda seen: seen["title"] == "All quiet" and any("kept again" in row for row in seen["alarms"]))
        assert tile_of(seen, "BR-1.27")["kind"] == "kept" and seen["loud"] == ""
        assert chromium.get_log("browser") == []


def test_the_figures_are_those_of_the_state(chromium, desk):
    """The page against a wall of the same logs, at the page's time."""
    desk.fill("GD-12.26", 20, 40)
    with served(desk) as run:
        visit(chromium, run.link)
        wall = Wall.load(desk.path)
        wall.catch_up()
        seen = until(chromium, "it has a tile of each", lambda seen: len(seen["tiles"]) == 2)
        for tile in wall.tiles():
            found = tile_of(seen, tile.key)
            assert (found["kind"], found["word"]) == (tile.kind, {"alarm": "NO BID", "kept": "Kept"}[tile.kind])
            assert found["lapses"].split()[0] == str(tile.now.lapses)
        assert tile_of(seen, "GD-12.26")["missing"] == "bid 40" and "1 fill" in tile_of(seen, "GD-12.26")["last"]
        status, text = fetched(f"{run.link}status.json")
        told = {each["contract"]: each for each in json.loads(text)["contracts"]}
        assert status == 200 and told["BR-1.27"]["kept"] + told["BR-1.27"]["need"] == told["BR-1.27"]["required"]


def test_a_muted_contract_is_shown_and_stays_silent(chromium, desk):
    with served(desk, "--alarm", "500ms") as run:
        visit(chromium, run.link)
        chromium.execute_script(NOTIFICATION)
        chromium.find_element("id", "sound").click()
        chromium.find_element("css selector", '[data-key="BR-1.27"] button').click()
        until(chromium, "it is muted", lambda seen: "muted to" in tile_of(seen, "BR-1.27")["mute"])
        desk.cancel("BR-1.27", 10)
        desk.cancel("GD-12.26", 20)
        seen = until(chromium, "both are lost", lambda seen: sum("no bid for" in row for row in seen["alarms"]) == 2)
        assert any("BR-1.27" in row and "muted" in row for row in seen["alarms"])
        seen = until(chromium, "one is noted", lambda seen: seen["noted"])
        assert all("BR-1.27" not in text for text in seen["noted"])


def test_a_tile_leads_to_the_contracts_page_and_back(chromium, desk):
    with served(desk) as run:
        visit(chromium, run.link)
        chromium.find_element("css selector", '[data-key="BR-1.27"] h3 a').click()
        end = time.monotonic() + PATIENCE
        while not chromium.execute_script("return document.querySelector('[data-figure=band-head]')?.textContent.startsWith('Keep')"):
            assert time.monotonic() < end
            time.sleep(0.05)
        assert chromium.execute_script("return document.querySelector('[data-figure=name]').textContent") == "BR-1.27"
        assert chromium.execute_script("return document.querySelectorAll('#orders tr').length") == 2
        chromium.find_element("link text", "All contracts").click()
        until(chromium, "the wall is back", lambda seen: len(seen["tiles"]) == 2)
        assert chromium.get_log("browser") == []


def test_keyboard_reaches_everything(chromium, desk):
    with served(desk) as run:
        visit(chromium, run.link)
        reached = []
        for _ in range(9):
            chromium.switch_to.active_element.send_keys("\ue004")
            reached.append(chromium.execute_script("const at = document.activeElement; return at.getAttribute('aria-label') ?? at.textContent.trim()"))
        text = " | ".join(reached)
        assert all(each in text for each in ("Sound off", "Mute all", "UTC", "BR-1.27", "Mute BR-1.27 for 30 minutes", "GD-12.26"))


def test_each_of_many_contracts_can_be_muted_by_keyboard(chromium, tmp_path):
    """From 24 contracts on a quiet tile has no room for its button: it comes with the focus, and the mute's end stays. The clock in UTC
    has the exchange's time beside it, since the tiles' times are the exchange's."""
    symbols = [f"K{number:02}" for number in range(24)]
    made = LiveDesk(tmp_path / "many", symbols)
    for number, symbol in enumerate(symbols):
        made.quote(symbol, 100 * number + 10, made.moment("6:00:00") + 60 + number)
    with served(made) as run:
        visit(chromium, run.link)
        chromium.execute_script("document.querySelector('[data-key=K07] h3 a').focus()")
        chromium.switch_to.active_element.send_keys("\ue004")
        assert chromium.execute_script("return document.activeElement.getAttribute('aria-label')") == "Mute K07 for 30 minutes"
        chromium.switch_to.active_element.send_keys("\ue007")
        until(chromium, "it is muted", lambda seen: "muted to" in tile_of(seen, "K07")["mute"])
        assert chromium.find_element("css selector", "[data-key=K07] button").is_displayed()
        chromium.find_element("id", "utc").click()
        seen = until(chromium, "the clock is UTC", lambda seen: seen["zone"].startswith("UTC; below "))
        assert re.fullmatch(r"UTC; below UTC[+-][0-9]+, now [0-9]+:[0-9]{2}:[0-9]{2}|UTC; below UTC, now .*", seen["zone"])


def test_pictures_fit_their_widths(chromium, desk):
    """No width makes the page scroll sideways. The pictures are to be looked at."""
    SHOTS.mkdir(parents=True, exist_ok=True)
    with served(desk) as run:
        for width in (390, 1280, 1920):
            for theme in ("light", "dark"):
                chromium.execute_cdp_cmd("Emulation.setDeviceMetricsOverride", {"width": width, "height": 1080, "deviceScaleFactor": 1, "mobile": False})
                visit(chromium, f"{run.link}?theme={theme}")
                assert chromium.execute_script("return document.scrollingElement.scrollWidth") <= width
                chromium.save_screenshot(str(SHOTS / f"wall-{width}-{theme}.png"))
    chromium.execute_cdp_cmd("Emulation.clearDeviceMetricsOverride", {})


# ---------------------------------------------------------------- logs and restarts


def test_a_truncated_log_is_on_the_tiles_and_in_healthz(chromium, desk):
    with served(desk) as run:
        visit(chromium, run.link)
        assert fetched(f"{run.link}healthz") == (200, "well\n")
        data = desk.log.read_bytes()
        desk.log.write_bytes(data[: len(data) // 2])
        seen = until(chromium, "it is not known", lambda seen: {tile["kind"] for tile in seen["tiles"]} == {"unknown"})
        assert "logs/day.log was truncated at" in seen["tiles"][0]["sentence"] and seen["title"].startswith("Not known")
        status, text = fetched(f"{run.link}healthz")
        assert status == 503 and "was truncated" in text
        desk.log.write_bytes(data)
        until(chromium, "it is whole again", lambda seen: {tile["kind"] for tile in seen["tiles"]} == {"kept"})


def test_a_rotated_log_goes_on_and_a_killed_wall_shows_the_same(chromium, desk):
    with served(desk) as run:
        visit(chromium, run.link)
        desk.log = desk.folder / "logs" / "day2.log"  # the pattern finds it
        desk.cancel("GD-12.26", 20)
        desk.cancel("GD-12.26", 21)
        seen = until(chromium, "the new file is read", lambda seen: tile_of(seen, "GD-12.26")["word"] == "NO QUOTE")
        run.process.send_signal(signal.SIGKILL)
        run.process.wait()
    with served(desk) as run:
        again = until(chromium, "it comes back", lambda _: True) and visit(chromium, run.link)
        for key in ("BR-1.27", "GD-12.26"):
            for part in ("word", "lapses", "last", "missing"):
                assert tile_of(again, key)[part] == tile_of(seen, key)[part]


# ---------------------------------------------------------------- for programs


def test_metrics_status_and_access(desk):
    with served(desk, "--listen", "127.0.0.1") as run:
        base, token = run.link.split("?")
        for path in ("", "metrics", "status.json", "healthz", "wall.js", "contract/BR-1.27/"):
            assert fetched(f"{base}{path}")[0] == 403, path
            assert fetched(f"{base}{path}?{token}")[0] == 200, path
            assert fetched(f"{base}{path}?{token}", Host="example.org")[0] == 421, path
        families = {each.name: each for each in text_string_to_metric_families(fetched(f"{base}metrics?{token}")[1])}
        kept = {sample.labels["contract"]: sample.value for sample in families["quoting_kept_seconds"].samples}
        assert set(kept) == {"BR-1.27", "GD-12.26"} and all(value > 3_600 for value in kept.values())
        kinds = {sample.labels["contract"]: sample.labels["kind"] for sample in families["quoting_tile"].samples if sample.value}
        assert kinds == {"BR-1.27": "kept", "GD-12.26": "kept"}
        assert {"quoting_required_seconds", "quoting_state", "quoting_lapses", "quoting_spread_steps", "quoting_feed_age_seconds", "quoting_recount_lag_calls"} <= set(families)
