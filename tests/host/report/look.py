#!/usr/bin/env python3
"""look.py FOLDER: looks at the pages of FOLDER in a browser, and compares them with the listings and the explanations beside them; then at wrong pages,
each of which must be found. The last line is `N passed, M failed`."""

import json
import re
import sys
import tempfile
import traceback
from pathlib import Path

from browser import Browser, BrowserError
from facts import ROOT, Facts
from faults import FAULTS, planted

ANSWERS = ["alert", "blocked", "refused", "quiet"]
LONG = 100_000
LONGEST_OPENING = 10  # seconds, on a machine under load
FOCUS = "document.activeElement"


def equal(found, wanted, what):
    """Fails with what is different."""
    if found != wanted:
        raise AssertionError(f"{what}\n  found  {str(found)[:600]}\n  wanted {str(wanted)[:600]}")


def rows(browser):
    """The cells of all rows, drawn or not: the list is scrolled through."""
    return [tuple(row) for row in browser.run("""(async () => {
        const area = document.getElementById("list"), found = new Map();
        for (area.scrollTop = 0;;) {
            await new Promise(done => requestAnimationFrame(() => setTimeout(done)));
            for (const row of document.querySelectorAll("#rows tr:not(.gap)"))
                found.set(row.rowIndex && +row.getAttribute("aria-rowindex"), [...row.cells].map(cell => cell.textContent));
            const before = area.scrollTop;
            area.scrollTop += area.clientHeight - 40;
            if (area.scrollTop === before) break;
        }
        return [...found].sort((one, other) => one[0] - other[0]).map(pair => pair[1]);
    })()""")]


def choose_answers(browser, wanted):
    """Ticks exactly these answers."""
    for answer in ANSWERS:
        if browser.run(f"document.querySelector('[name=answer][value={answer}]').checked") != (answer in wanted):
            browser.click(f"[name=answer][value={answer}]")


def choose_option(browser, selector, text):
    """Takes the option that begins with a text, as a hand would."""
    browser.run(f"(() => {{ const list = document.querySelector({json.dumps(selector)}); const words = {json.dumps(text)};"
                " list.value = [...list.options].find(option => option.text.startsWith(words)).value;"
                " list.dispatchEvent(new Event('input', {bubbles: true})); list.dispatchEvent(new Event('change', {bubbles: true})); })()")
    browser.settle()


def shown(cells):
    """A row of the list as the facts have it: of a refusal the number alone."""
    step, answer, access, receiver, holds = cells
    holds = re.sub(r"^(refused \d+): .*", r"\1", holds)
    return int(step), answer.split(" ")[1], access, receiver, holds


def check_listing(browser, page, facts):
    """Every record is listed, in words and as its line, and the counts are those of the total."""
    browser.open(page)
    records, alerts, refused = map(int, facts.total)
    blocked = sum(row[1] == "blocked" for row in facts.rows)
    count = lambda number, word: f"{number} {word}{'' if number == 1 else 's'}"
    equal(browser.run("document.getElementById('summary').textContent"),
          f"{count(records, 'record')} of 1 trace: {count(alerts, 'alert')}, {blocked} blocked, {refused} refused.", "the summary")
    loud = [row for row in facts.rows if row[1] != "quiet"]
    if loud:
        equal([shown(row) for row in rows(browser)], loud, "what is listed at first")
    choose_answers(browser, ANSWERS)
    equal([shown(row) for row in rows(browser)], facts.rows, "all rows")
    lines = browser.run("""(async () => {
        const lines = [], area = document.getElementById("list"), count = +document.getElementById("list-table").getAttribute("aria-rowcount") - 1;
        const button = index => document.querySelector(`#rows tr[aria-rowindex="${index + 2}"] button`);
        for (let index = 0; index < count; index++) {
            if (!button(index)) {
                area.scrollTop = index * 32;
                await new Promise(done => requestAnimationFrame(() => setTimeout(done)));
            }
            button(index).click();
            lines.push(document.querySelector("#details .line").textContent);
        }
        return lines;
    })()""")
    equal(lines, facts.lines, "the lines of the listing")


def check_explanations(browser, page, facts):
    """Each explanation has the stored words, and each chain its boxes and arrows."""
    browser.open(page)
    words, chains = [], facts.chains()
    for step in [row[0] for row in facts.rows if row[1] in ("alert", "blocked")]:
        browser.click(f"#rows button[aria-label='Details of step {step}']")
        equal(browser.run("document.getElementById('details-heading').textContent"), f"Details of step {step}", "the heading")
        words.append(browser.run("document.querySelector('#details .words').textContent"))
        drawn = browser.run("""[...document.querySelectorAll("#details svg")].map(svg => [[...svg.querySelectorAll("g > title")].map(one => one.textContent),
            [...svg.querySelectorAll(".label")].map(one => one.textContent), svg.querySelectorAll(".arrow").length])""")
        equal(drawn, [[boxes, arrows, len(arrows)] for boxes, arrows in chains[step]], f"the pictures of step {step}")
        listed = browser.run("[...document.querySelectorAll('#details ol.chain')].map(list => [...list.children].map(item => item.textContent))")
        equal(listed, [[f"{boxes[0]} (there from the start)"] + [f"{box} (step {arrow.replace(' ', ', ', 1)})" for box, arrow in zip(boxes[1:], arrows)]
                       for boxes, arrows in chains[step]], f"the chains of step {step} as lists")
    equal("\n".join(words) + "\n", facts.explained, "the words of the explanations")


def check_filters(browser, page, facts):
    """The filters let through what they say, alone and together, and the count says how many."""
    browser.open(page)

    def let_through(what, test, quiet=True):
        wanted = [row for row in facts.rows if (quiet or row[1] != "quiet") and test(row)]
        equal([shown(row) for row in rows(browser)], wanted, what)
        equal(browser.run("document.getElementById('count').textContent"), f"{len(wanted)} of {len(facts.rows)} records", f"the count: {what}")
        assert wanted, f"{what} lets something through"

    choose_answers(browser, ["blocked"])
    let_through("blocked alone", lambda row: row[1] == "blocked")
    choose_answers(browser, ANSWERS)
    browser.click("#filter-text")
    browser.write("SOUTH-desk")
    let_through("a text", lambda row: "south-desk" in " ".join(map(str, row)))
    browser.click("#filters [type=reset]")
    let_through("the filters cleared", lambda row: True, quiet=False)
    choose_answers(browser, ANSWERS)
    choose_option(browser, "#filter-container", "south.statement (8)")
    let_through("a container", lambda row: "south.statement" in row[2])
    choose_option(browser, "#filter-source", "desk (running)")
    let_through("a container and a source", lambda row: "south.statement" in row[2] and "desk (running)" in row[4])
    choose_option(browser, "#filter-container", "any")
    choose_option(browser, "#filter-source", "north")
    let_through("a source", lambda row: row[1] != "refused" and "north" in re.split(", |would hold ", row[4]))


def check_order(browser, page, facts):
    """The heads of the columns sort, and say how."""
    browser.open(page)
    choose_answers(browser, ANSWERS)
    for column, place in [("step", 0), ("access", 2), ("receiver", 3)]:
        browser.click(f"#head-{column} button")
        wanted = sorted(facts.rows, key=lambda row: row[place])
        if column == "step":  # the list was in this order: now it is in the other
            wanted.reverse()
        equal([shown(row)[0] for row in rows(browser)], [row[0] for row in wanted], f"by {column}")
        equal(browser.run(f"document.getElementById('head-{column}').getAttribute('aria-sort')"), "descending" if column == "step" else "ascending", column)


def check_keyboard(browser, page, facts):
    """Without a mouse: from the top to the rows, along them, to the details, to the lanes."""
    browser.open(page)
    loud = [row[0] for row in facts.rows if row[1] != "quiet"]
    browser.press("Tab")
    equal(browser.run(f"{FOCUS}.className"), "skip", "the first stop is the link to the answers")
    equal(browser.run(f"getComputedStyle({FOCUS}).outlineStyle"), "solid", "the focus is seen")
    for _ in range(40):
        browser.press("Tab")
        if browser.run(f"!!{FOCUS}.closest('#rows')"):
            break
    equal(browser.run(f"{FOCUS}.textContent"), str(loud[0]), "the first row")
    browser.press("ArrowDown")
    browser.press("Enter")
    equal(browser.run("document.getElementById('details-heading').textContent"), f"Details of step {loud[1]}", "Enter shows the second row")
    browser.press("End")
    equal(browser.run(f"{FOCUS}.textContent"), str(loud[-1]), "End goes to the last row")
    browser.press("Home")
    browser.press(" ")
    equal(browser.run("document.getElementById('details-heading').textContent"), f"Details of step {loud[0]}", "Home and the space bar")
    for _ in range(20):
        browser.press("Tab")
        if browser.run(f"{FOCUS}.id") == "lane-scroll":
            break
    browser.press("+")
    count = len(facts.rows)
    equal(browser.run("document.getElementById('lane-range').textContent") != f"steps 1 to {count}", True, "plus comes closer")
    browser.press("-")
    equal(browser.run("document.getElementById('lane-range').textContent"), f"steps 1 to {count}", "minus goes wider again")


def check_lanes(browser, page, facts):
    """The lanes have what each container held from when to when, and the table what all held behind a step."""
    browser.open(page)
    titles = browser.run("""(async () => {
        const area = document.getElementById("lane-scroll"), found = new Set();
        for (area.scrollTop = 0;;) {
            await new Promise(done => requestAnimationFrame(() => setTimeout(done)));
            for (const title of document.querySelectorAll(".lane g > title")) found.add(title.textContent);
            const before = area.scrollTop;
            area.scrollTop += 200;
            if (area.scrollTop === before) break;
        }
        return [...found];
    })()""")
    equal(sorted(titles), sorted(set(facts.spans())), "the spans of the lanes")
    for step in [0, len(facts.rows) // 3, len(facts.rows)]:
        browser.run(f"document.getElementById('state-step').value = {step}; document.getElementById('state-step').dispatchEvent(new Event('input'))")
        found = browser.run("[...document.querySelectorAll('#state-rows tr')].map(row => [...row.cells].map(cell => cell.textContent))")
        equal(sorted(map(tuple, found)), sorted(facts.state(step)), f"what is held behind step {step}")


def check_readable(browser, page, facts):
    """Names for those who hear the page, contrast for those who see it, and no line wider than a small window."""
    browser.open(page)
    tree = [node for node in browser.ask("Accessibility.getFullAXTree")["nodes"] if not node["ignored"]]
    named = lambda role: [node["name"]["value"] for node in tree if node["role"]["value"] == role]
    for role in ["button", "textbox", "searchbox", "combobox", "checkbox", "spinbutton", "image", "link"]:
        assert all(named(role)), f"a {role} without a name: {named(role)}"
    first = next(row[0] for row in facts.rows if row[1] != "quiet")
    for role, name in [("button", f"Details of step {first}"), ("navigation", "Sections"), ("heading", "Policy: who may hold what"), ("searchbox", "Text"),
                       ("combobox", "Source"), ("group", "Answers"), ("columnheader", "Holds")]:
        assert name in named(role), f"no {role} {name}: {named(role)}"
    assert any(name.startswith("Records and their answers") for name in named("table")), named("table")
    assert any(name.startswith("Chain of ") for name in named("image")), named("image")
    equal(browser.run("document.getElementById('count').getAttribute('aria-live')"), "polite", "the count is read out")
    for scheme in ["light", "dark"]:
        browser.media(scheme=scheme)
        check_contrast(browser, scheme)
    browser.media()
    for width in [360, 800]:
        browser.size(width, 800)
        equal(browser.run("document.documentElement.scrollWidth"), width, f"the width in a window of {width}")


def luminance(colour):
    """How light a colour is, by the guidelines for web content."""
    parts = [int(part) / 255 for part in re.findall(r"\d+", colour)[:3]]
    red, green, blue = (part / 12.92 if part <= 0.03928 else ((part + 0.055) / 1.055) ** 2.4 for part in parts)
    return 0.2126 * red + 0.7152 * green + 0.0722 * blue


def check_contrast(browser, scheme):
    """Each kind of text stands out from what it stands on by 4.5 to 1 at least."""
    colours = browser.run("""["--text", "--soft", "--accent", "--alert", "--blocked", "--refused", "--paper", "--panel", "--box"].map(name => {
        const one = document.body.appendChild(document.createElement("i"));
        one.style.color = `var(${name})`;
        const colour = getComputedStyle(one).color;
        one.remove();
        return colour;
    })""")
    for text in colours[:6]:
        for ground in colours[6:]:
            light, dark = sorted([luminance(text), luminance(ground)], reverse=True)
            assert (light + 0.05) / (dark + 0.05) >= 4.5, f"{scheme}: {text} on {ground}"
    body = browser.run("getComputedStyle(document.body).backgroundColor")
    equal(body, colours[6], f"{scheme}: the ground")
    assert (luminance(body) < 0.2) == (scheme == "dark"), f"{scheme}: {body}"


def check_paper(browser, page, facts):
    """On paper there are all rows and explanations, and nothing to press."""
    browser.open(page)
    browser.media(media="print")
    loud = [row for row in facts.rows if row[1] != "quiet"]
    printed = browser.run("[...document.querySelectorAll('#print > table tbody tr')].map(row => [...row.cells].map(cell => cell.textContent))")
    equal([(int(row[0]), row[1], row[2], row[3], re.sub(r"^(refused \d+): .*", r"\1", row[4])) for row in printed], loud, "the printed rows")
    equal("\n".join(browser.run("[...document.querySelectorAll('#print .words')].map(one => one.textContent)")) + "\n", facts.explained, "the printed explanations")
    equal(browser.run("[...document.querySelectorAll('button, input, select')].filter(one => one.offsetParent).length"), 0, "what is to be pressed")
    equal(browser.run("getComputedStyle(document.body).backgroundColor"), "rgb(255, 255, 255)", "white paper")
    assert len(browser.ask("Page.printToPDF")["data"]) > 10_000, "a printed page"
    browser.media()
    equal(browser.run("document.getElementById('print').childNodes.length"), 0, "nothing of the paper stays")


def check_month(browser, page, facts):
    """The figures are those that the month program prints, and each trace can be looked at."""
    browser.open(page)
    found = browser.run("[...document.querySelectorAll('#figures-table tbody tr')].map(row => [...row.cells].map(cell => cell.textContent))")
    names = {"0": "file-0", "3": "file-3", "4": "file-4"}
    wanted = []
    for name, *fields in map(str.split, facts):
        accepted, alerts, refused, blocked, *more = fields
        rate, pairs = ("none", more[1:]) if more[0] == "none" else (f"{more[0]} {more[1]}/{accepted} ({alerts} of {accepted})", more[2:])
        by = ", ".join(f"{names.get(number, 'number ' + number)} {count}" for number, count in zip(pairs[::2], pairs[1::2])) or "none"
        wanted.append([name, accepted, alerts, refused, blocked, rate, by])
    equal(found, wanted, "the figures")
    bars = browser.run("[...document.querySelectorAll('#charts figure:first-child g > title')].map(one => one.textContent)")
    equal(bars, [f"{row[0]}: {row[2]}" for row in wanted[:-1]], "the bars")
    choose_option(browser, "#trace", "03.bin")
    equal([shown(row)[:2] for row in rows(browser)], [(2, "alert"), (4, "alert"), (5, "alert")], "the alerts of 03.bin")


def check_hostile(browser, page, facts):
    """Names that try to be markup or script are text, whole, and what has no sign of its own is spelled."""
    browser.open(page)
    text = browser.run("document.body.innerText + [...document.querySelectorAll('title, [title]')].map(one => one.getAttribute('title') ?? one.textContent).join('\\n')")
    for name in facts:
        assert name in text, f"the name {name[:60]} is not there"
    found = browser.run("""[document.scripts.length, document.images.length, document.querySelectorAll("iframe, object, embed, b").length, typeof window.taken,
        /[\\u200e\\u200f\\u202a-\\u202e\\u2066-\\u2069]/.test(document.body.innerText)]""")
    equal(found, [2, 0, 0, "undefined", False], "scripts, images, others, what a script would leave, marks of direction")
    browser.size(360, 800)
    equal(browser.run("document.documentElement.scrollWidth"), 360, "the width, with a name of 1,000 letters")


def check_long(browser, page, _):
    """A long trace opens soon, all its rows can be reached, and only those that are seen are drawn."""
    seconds = browser.open(page)
    print(f"opened {LONG:,} records in {seconds:.2f} s, {page.stat().st_size:,} bytes")
    assert seconds < LONGEST_OPENING, f"{seconds:.1f} s"
    choose_answers(browser, ANSWERS)
    equal(browser.run("document.getElementById('count').textContent"), f"{LONG:,} of {LONG:,} records", "the count")
    browser.run("document.querySelector('#rows button').focus()")
    browser.press("End")
    equal(browser.run(f"{FOCUS}.textContent"), str(LONG), "the last row")
    drawn = browser.run("[document.querySelectorAll('#rows tr').length, document.querySelectorAll('.lane').length, document.querySelectorAll('*').length]")
    assert drawn[0] < 80 and drawn[1] < 60 and drawn[2] < 6000, f"what is drawn: {drawn}"
    browser.click("#filter-text")
    browser.write("job 249 reads")
    equal([shown(row)[0] for row in rows(browser)], [1496, 1497, 1498, 1499], "what one job reads")


CHECKS = {check.__name__.removeprefix("check_"): check for check in
          [check_listing, check_explanations, check_filters, check_order, check_keyboard, check_lanes, check_readable, check_paper, check_month, check_hostile, check_long]}
EACH = ["listing", "explanations", "lanes", "readable", "paper"]
PAGES = {"demo": [*EACH, "filters", "order", "keyboard"], "night": EACH, "month": ["month"], "hostile": ["hostile"], "long": ["long"]}


def checked(browser, name, page, facts):
    """Runs a check; what is wrong, if something is."""
    browser.size(1280, 900)
    browser.media()
    try:
        CHECKS[name](browser, page, facts)
        complaints = browser.complaints()
        return f"the browser complains: {complaints}" if complaints else None
    except (AssertionError, BrowserError) as error:
        return str(error) or traceback.format_exc()


def facts_of(folder, page):
    """What a page must say."""
    if page == "month":
        return (folder / "month.lines").read_text().splitlines()
    if page == "hostile":
        return json.loads((folder / "hostile.json").read_text())
    if page == "long":
        return None
    explained = {"demo": ROOT / "demo" / "why.txt", "night": ROOT / "demo" / "night" / "why.txt"}[page].read_text()
    return Facts(folder / page, (folder / f"{page}.listing").read_text(), explained)


def look(browser, folder, note):
    """Looks at each page, then at the wrong ones."""
    facts = {page: facts_of(folder, page) for page in PAGES}
    for page, names in PAGES.items():
        for name in names:
            wrong = checked(browser, name, folder / f"{page}.html", facts[page])
            note(wrong is None, f"{page}: {CHECKS[name].__doc__}" + (f"\n{wrong}" if wrong else ""))
    for fault in FAULTS:
        path = folder / "wrong.html"
        path.write_text(planted(fault, (folder / f"{fault.page}.html").read_text()))
        found = checked(browser, fault.check, path, facts[fault.page])
        note(found is not None, f"a wrong page is found: {fault.what}" + (f" ({found.splitlines()[0][:100]})" if found else ""))


def main():
    folder, counts = Path(sys.argv[1]), [0, 0]

    def note(good, text):
        print("ok" if good else "FAILED", text)
        counts[not good] += 1

    with tempfile.TemporaryDirectory() as work:
        try:
            browser = Browser(work)
        except (BrowserError, OSError) as error:
            note(False, f"the browser starts: {error}\n{Path(work, 'chromium.log').read_text(errors='replace')[-600:]}")
        else:
            try:
                look(browser, folder, note)
            finally:
                browser.close()
    print(f"{counts[0]} passed, {counts[1]} failed")
    return counts[1] > 0


if __name__ == "__main__":
    sys.exit(main())
