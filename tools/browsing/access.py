"""Names, roles, contrast, reach by keyboard, and calm."""
import time

import repository
from browsing.browser import LAPTOP, PHONE, SIZES
from browsing.opened import TIGHT
from browsing.pages import DRAWN, TOP, Trial, page_of, press_try, save
from browsing.pictures import SHOWN_EXAMPLE, SHOWN_REQUEST

# What a reader who can't see needs, and who sees little: rules of this project's own.
NAMES = """(() => {
  const faults = [];
  const seen = new Set();
  const isShown = (it) => it.getClientRects().length > 0 && it.checkVisibility();
  const nameOf = (it) => {
    const by = it.getAttribute('aria-labelledby');
    if (by) return by.split(' ').map((id) => document.getElementById(id)?.textContent ?? '').join(' ');
    if (it.caption) return it.caption.textContent;
    const label = it.labels?.length ? it.labels[0].textContent : '';
    return it.getAttribute('aria-label') || label || it.innerText || it.title || '';
  };
  for (const it of document.querySelectorAll('[id]')) {
    if (seen.has(it.id)) faults.push(`two of ${it.id}`);
    seen.add(it.id);
  }
  for (const name of ['aria-labelledby', 'aria-controls', 'aria-activedescendant', 'list']) {
    for (const it of document.querySelectorAll(`[${name}]`)) {
      for (const id of it.getAttribute(name).split(' ')) {
        if (!document.getElementById(id)) faults.push(`${name}: there is no ${id}`);
      }
    }
  }
  const controls = 'button, input, select, textarea, a, summary, [tabindex], ol, ul, table, section, nav';
  for (const it of document.querySelectorAll(controls)) {
    if (!isShown(it) || it.closest('li a')) continue;
    const isList = it.matches('ol, ul');
    if (nameOf(it).trim() === '') faults.push(`no name: ${it.outerHTML.slice(0, 80)}`);
    if (isList && Array.from(it.children).some((child) => child.localName !== 'li')) {
      faults.push(`a list has other children: ${it.id}`);
    }
    if (it.tabIndex > 0) faults.push(`an order of its own: ${it.id}`);
    const box = it.getBoundingClientRect();
    if (it.matches('button, input, select') && (box.width < 24 || box.height < 24)
      && it.type !== 'checkbox') faults.push(`too small: ${it.id} ${box.width} ${box.height}`);
  }
  return faults;
})()"""

# The order of headings, roles and what belongs to them, and what the document says of itself.
ROLES = """(() => {
  const faults = [];
  const isShown = (it) => it.getClientRects().length > 0 && it.checkVisibility();
  const all = (what) => Array.from(document.querySelectorAll(what));
  const expect = (holds, fault) => { if (!holds) faults.push(fault); };
  expect(document.documentElement.lang === 'en', 'the language');
  expect(document.title !== '', 'no title');
  expect(!/maximum-scale|user-scalable/.test(document.querySelector('[name=viewport]').content), 'no zoom');
  expect(all('main').length === 1 && all('h1').filter(isShown).length === 1, 'main and h1 are one each');
  let level = 0;
  const dialog = document.querySelector('dialog[open]');
  for (const it of (dialog ?? document).querySelectorAll('h1, h2, h3')) {
    if (!isShown(it) || (!dialog && it.closest('dialog'))) continue;
    const next = Number(it.localName[1]);
    if (!dialog || level > 0) expect(next <= level + 1, `a heading of level ${next}: ${it.textContent}`);
    level = next;
  }
  const needs = { combobox: ['aria-expanded', 'aria-controls', 'aria-autocomplete'], img: ['aria-label'],
    option: ['aria-selected'], listbox: ['aria-label'], group: ['aria-label'], status: [] };
  for (const it of all('[role]')) {
    const role = it.getAttribute('role');
    expect(role in needs, `the role ${role}`);
    for (const name of needs[role] ?? []) expect(it.hasAttribute(name) || it.hasAttribute(`${name}ledby`), `${role} ${it.id}: no ${name}`);
    if (role === 'option') expect(it.parentElement.role === 'listbox', `an option in ${it.parentElement.id}`);
    if (role === 'listbox') expect(Array.from(it.children).every((one) => one.role === 'option'), it.id);
  }
  const known = /^aria-(label|labelledby|hidden|live|expanded|controls|autocomplete|selected|pressed|current|valuetext|activedescendant)$/;
  for (const it of all('*')) for (const name of it.getAttributeNames()) {
    if (name.startsWith('aria-')) expect(known.test(name), `${it.localName} ${it.id}: ${name}`);
    if (/^(aria-(hidden|expanded|selected|pressed|current))$/.test(name)) {
      expect(/^(true|false)$/.test(it.getAttribute(name)), `${it.id}: ${name}`);
    }
  }
  const reached = 'button, input, select, textarea, a[href], summary, [tabindex]';
  for (const it of all('[aria-hidden=true]')) expect(!it.querySelector(reached), `hidden, and reached: ${it.id}`);
  for (const it of all('th')) expect(it.scope === 'col', `a heading of a table: ${it.textContent}`);
  for (const it of all('table')) if (isShown(it)) expect(it.caption, `no caption: ${it.id}`);
  for (const it of all('a')) if (isShown(it)) expect(it.hasAttribute('href'), `a link without address`);
  for (const it of all('[aria-live]')) expect(/^(polite|off)$/.test(it.getAttribute('aria-live')), it.id);
  if (dialog) expect(dialog.contains(document.activeElement), 'the focus is outside the dialog');
  return faults;
})()"""

# The contrast of each text with what it stands on, as the standard for web contents computes it.
CONTRAST = """(() => {
  const numbers = (text) => text.match(/[0-9.]+/g).map(Number);
  const light = ([r, g, b]) => [r, g, b].map((it) => it / 255)
    .map((it) => (it <= 0.03928 ? it / 12.92 : ((it + 0.055) / 1.055) ** 2.4))
    .reduce((sum, it, k) => sum + it * [0.2126, 0.7152, 0.0722][k], 0);
  const ground = (it) => {
    for (let at = it; at; at = at.parentElement) {
      const found = numbers(getComputedStyle(at).backgroundColor);
      if (found.length < 4 || found[3] > 0) return found;
    }
    return [255, 255, 255];
  };
  const faults = [];
  const against = (one, other) => (Math.max(one, other) + 0.05) / (Math.min(one, other) + 0.05);
  for (const it of document.querySelectorAll('button, input:not([type=range]), select, textarea')) {
    if (it.getClientRects().length === 0 || it.disabled || it.type === 'checkbox') continue;
    // (a quiet button is its text)
    if (/, 0\)$/.test(getComputedStyle(it).borderTopColor) || getComputedStyle(it).borderTopWidth === '0px') continue;
    const [edge, below] = [getComputedStyle(it).borderTopColor, ground(it.parentElement)];
    const contrast = against(light(numbers(edge)), light(below));
    if (contrast < 3) faults.push(`an edge, ${contrast.toFixed(1)}: ${it.id} ${it.textContent.slice(0, 30)}`);
  }
  for (const it of document.querySelectorAll('body *')) {
    const text = Array.from(it.childNodes).some((one) => one.nodeType === 3 && one.data.trim() !== '');
    if (!text || it.getClientRects().length === 0 || it.disabled || it.closest('[disabled]')) continue;
    if (it.closest('.hidden, script, style, option')) continue;
    const [one, other] = [light(numbers(getComputedStyle(it).color)), light(ground(it))];
    const contrast = against(one, other);
    if (contrast < 4.5) faults.push(`${contrast.toFixed(1)}: ${it.textContent.slice(0, 30)}`);
  }
  return faults;
})()"""

# How thick the line is around what has the focus, and whether that stands in the window.
OUTLINE = """(() => {
  const it = document.activeElement;
  const box = it.getBoundingClientRect();
  if (it === document.body) return 'fine';
  const style = getComputedStyle(it);
  const isSeen = box.bottom > 0 && box.top < innerHeight && box.right > 0 && box.left < innerWidth;
  return isSeen && style.outlineStyle !== 'none' && parseFloat(style.outlineWidth) >= 2 ? 'fine'
    : `${it.id} ${it.textContent.slice(0, 20)}: ${style.outlineStyle} ${style.outlineWidth} ${isSeen}`;
})()"""


def names(browser, folder):
    """Rules of accessibility: each control, list and table has a name, names that are cited are there,
    roles have what belongs to them, headings skip no level, text and edges have their contrast in
    light and dark, no control is too small, and the tabulator reaches each control in the order of
    the page, with a line around it."""
    trial = Trial("names")
    with open(f"{TOP}/examples/{SHOWN_EXAMPLE}.toml", encoding="utf-8") as file:
        path = save(folder, "names", page_of(file.read()))
    for size in SIZES:
        browser.width(*size)
        for scheme in "light", "dark":
            browser.scheme(scheme)
            browser.show(path, SHOWN_REQUEST)
            for opened in "", "open", "examples", "save", "help":
                if opened:
                    browser.click(opened)
                    browser.value(DRAWN, True)
                told = f"{opened or 'the page'}, {size[0]} points, {scheme}"
                for fault in browser.value(NAMES) + browser.value(ROLES) + browser.value(CONTRAST):
                    trial.expect(f"{told}: {fault}", False)
                wide = browser.shown()["wide"]
                trial.expect(f"{told}: {wide} points wide", wide <= size[0])
                if opened:
                    browser.press("Escape")
    timed = save(folder, "names-timed", page_of(TIGHT))
    for size in PHONE, LAPTOP:
        browser.width(*size)
        for scheme in "dark", "light":
            browser.scheme(scheme)
            browser.show(timed)
            press_try(browser, "To the first alarm")
            press_try(browser, "With eight core sets?")
            for fault in browser.value(NAMES) + browser.value(ROLES) + browser.value(CONTRAST):
                trial.expect(f"a scenario, {size[0]} points, {scheme}: {fault}", False)
            for mark in "#exercise-6", "#exercise-9":
                browser.show(path, mark)
                for pressed in "", "show-answer", "last", "next", "change-exercise":
                    if pressed:
                        browser.click(pressed)
                    for fault in browser.value(NAMES) + browser.value(ROLES) + browser.value(CONTRAST):
                        trial.expect(f"{mark}, {pressed}, {size[0]} points, {scheme}: {fault}", False)
        for page, mark in (path, SHOWN_REQUEST), (timed, "#3413"), (path, "#exercise-9"):
            browser.show(page, mark)
            reach(browser, trial, f"{size[0]} points")
    return trial.faults


# The controls of the page, in its order, and which of them has the focus.
CONTROLS = """Array.from(document.querySelectorAll('button, input, select, summary, a[href]')).filter((it) => it.tabIndex >= 0)
  .filter((it) => !it.disabled && it.getClientRects().length > 0 && it.checkVisibility())"""


def reach(browser, trial, told):
    """The tabulator reaches each control, in the order of the page, and the focus is seen."""
    count, reached = browser.value(f"{CONTROLS}.length"), []
    for _ in range(count + 14):
        browser.press("Tab")
        reached.append(browser.value(f"{CONTROLS}.indexOf(document.activeElement)"))
        trial.same(f"{told}: the focus isn't seen", browser.value(OUTLINE), "fine")
    trial.same(f"{told}: the tabulator goes", [it for it in dict.fromkeys(reached) if it >= 0], list(range(count)))


# Goes through rows of a page, those around each alarm and some others: what stands elsewhere than in the
# first of them, of headings, controls and boxes.
STEPPED = """(() => {
  const places = () => Array.from(document.querySelectorAll(
    'h2, button[id], input, .boxes, .boxes li, canvas, #told, #hint')).map((it) => {
    if (it.closest('#try, #told, dialog, .print-only, .sliders')) return '';
    const box = it.getBoundingClientRect();
    // (on a phone the story is as high as its text, and what is below it moves)
    if (innerWidth < 600 && box.top >= document.getElementById('story').getBoundingClientRect().bottom) return '';
    // (a free place is half as high, within its row)
    return [it.id || it.parentElement.id, box.left, box.top + scrollY, it.matches('.boxes li') ? 0 : box.height].map((one) =>
      (typeof one === 'number' ? Math.round(one) : one)).join(' ');
  });
  const slider = document.getElementById('slider');
  const go = (row) => { slider.value = row; slider.dispatchEvent(new Event('input')); };
  go(1);
  const first = places();
  for (const row of [ROWS]) {
    go(row);
    const found = places();
    const k = found.findIndex((it, n) => it !== first[n]);
    if (k >= 0) return `request ${row}: ${first[k]} to ${found[k]}`;
  }
  return '';
})()"""


def calm(browser, folder):
    """Nothing jumps: as one goes through examples, at four widths, headings, controls and boxes stay where
    they are, also at an alarm; on a phone those above the story. Where less motion is wished, nothing moves by itself, and a running clock
    is drawn at most four times a second."""
    trial = Trial("calm")
    for name, rows in ((SHOWN_EXAMPLE, "2, 10, 19, 20, 21"), ("waitlist-full", "2, 9, 12, 13"),
                       ("no-vac-area", "3, 5, 6, 7"), ("tight", "2, 3412, 3413, 3414")):
        text = TIGHT if name == "tight" else repository.text_of(f"{TOP}/examples/{name}.toml")
        path = save(folder, f"calm-{name}", page_of(text))
        for size in SIZES:
            browser.width(*size)
            browser.show(path)
            trial.same(f"{name}, {size[0]} points: moved", browser.value(STEPPED.replace("ROWS", rows)), "")
    browser.width(*LAPTOP)
    browser.scheme("light", is_calm=True)
    browser.show(save(folder, "calm", page_of(TIGHT)))
    trial.expect("something moves by itself", browser.value(
        "document.getAnimations().length === 0 && Array.from(document.querySelectorAll('*')).every((it) =>"
        " parseFloat(getComputedStyle(it).transitionDuration) === 0)"))
    browser.value("window.drawn = 0; new MutationObserver(() => { window.drawn += 1; })"
                  ".observe(document.getElementById('sentence'), { childList: true, characterData: true, subtree: true })")
    begun = time.monotonic()
    browser.click("run")
    time.sleep(1)
    browser.wait("window.drawn > 0")
    browser.click("run")
    drawn, took = browser.value("window.drawn"), time.monotonic() - begun
    trial.expect(f"the clock is drawn {drawn} times in {took:.1f} s", 1 <= drawn <= 4 * took + 2)
    browser.scheme("light")
    return trial.faults
