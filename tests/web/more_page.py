"""Tries the page: what it knows compared with `fmtcanon-explain`, and the page itself in Chromium and in Firefox.

It needs what `make page` makes, node, chromium, chromedriver and firefox-esr. Pictures of the page go to the folder
that FMTCANON_SHOTS names, if it names one.
"""

import json
import math
import os
import sys
from itertools import zip_longest
from pathlib import Path

from tests.frame.cases import tests_of
from tests.frame.fixtures import built
from tests.frame.harness import VERSION
from tests.web import browsers, samples, test_page
from tests.web.more_module import HERE, module, node, output

# How many random formats and pairs are explained, and how long the page may take for a format of 20 directives.
FORMATS, PAIRS = 50_000, 50_000
DIRECTIVES, MILLISECONDS, ROUNDS = 20, 20, 20
WIDTHS = {"desktop": 1100, "tablet": 700, "phone": 360}
# What is typed: two formats, a part of what is said first, and parts of what is below.
TYPED = [
    (
        "%-05d of %5zu%%",
        "",
        "accepted: it takes 2 arguments, and it prints 15 to 36 bytes",
        ["size_t", "-2147483648", "Canonical text in LP64%-5d of %5lu%%", "It prints 42    of    42%"],
    ),
    ("%05d", "%.5d", "different (in all data models)", ["-0001", "-00001", "First format: canonical text%05d"]),
    (
        "size %zu",
        "size %u",
        "types differ at argument 1 (LP64 and LLP64: types differ at argument 1; ILP32: same)",
        ["Argument 1", "Write the second as size %zu"],
    ),
    ("%5c", "    %c", "same (in all data models)", ["Canonical text of both    %c"]),
    ("%.3s", "%3s", "different (in all data models)", ["First format nothing", "Second format    "]),
    ("%.0s", "", "accepted: it takes 1 argument, and it prints 0 bytes", ["It prints nothing"]),
    ("%d and %#d", "", "refused 13 AltUndefined at byte 9", ["%d and %#d"]),
    ("\\n%#d", "", "refused 13 AltUndefined at byte 4", []),
    ("100%", "", "refused 2 Truncated at byte 4", ["100%end"]),
    ("100% done", "", "accepted: it takes 1 argument", ["For a percent sign, write %%."]),
    ("%-08.6lf|%*d", "", "accepted: it takes 3 arguments", ["argument 2", "refused 9 Float"]),
    ("%1$s %2$d", "%2$d %1$s", "same types: each takes the arguments of the other", ["refused 6 Numbered at byte 2"]),
    ("%1$s", "%1$d", "types differ at argument 1: one doesn't", ["prints an address as a number"]),
    (
        "%d files in %s",
        "In %s sind %d Dateien",
        "types differ at argument 1",
        ["string", "mostly crashes", "Write the second as In %2$s sind %1$d Dateien: "],
    ),
    ("%s\\q", "", "literal 3 BadEscape at byte 2", ["%s\\q"]),
    ('a"b\\q', "", "literal 3 BadEscape at byte 3", []),
    ("%d", "a\\q", "Second format: literal 3 BadEscape at byte 1", []),
    ('"Total:\\t%i" "\\n"', "", "accepted: it takes 1 argument, and it prints 9 to 19 bytes", ["Total:\\t%d\\n"]),
    (
        'printf("%lu bytes\\n", strlen(name));',
        "",
        "accepted: it takes 1 argument, and it prints 8 to 27 bytes",
        ["read as %lu bytes\\n"],
    ),
    ('n = f(stderr, _("%d" "%#d"), (x)) < 0', "", "refused 13 AltUndefined at byte 24", ["read as %d%#d"]),
    ('"%d\\n", x);', "", "accepted: it takes 1 argument, and it prints 2 to 12 bytes", ["read as %d\\n"]),
    ('"%" PRIu64 "|%#" PRId64', "", "refused 13 AltUndefined at byte 17", []),
    (
        '"%" PRIu64',
        "%llu",
        "types differ at argument 1 (LP64: types differ at argument 1; ILP32 and LLP64: same)",
        ["PRIu64 is lu"],
    ),
    ('open("%s", %d) = %d', "", "accepted: it takes 3 arguments", ['open(\\"%s\\", %d) = %d']),
    ('open("%s") failed', "", "accepted: it takes 1 argument, and it prints at least 15 bytes", []),
    ("", "", "Type a format", []),
    ("%s \u00fcber %d", "", "accepted: it takes 2 arguments, and it prints at least 8 bytes", ["\u00fcber"]),
    ("%d%m", "", "accepted: it takes 1 argument", ["takes no argument"]),
]
# What is typed for the argument of a format, and a part of what is said then.
CHOSEN = [
    ("%05d", "-7", "It prints -0007"),
    ("%c|", "'A'", "It prints A|"),
    ("%x", "0xff", "It prints ff"),
    ("%5.2s|", "a\\tb", "It prints    a\\t|"),
    ("%d", "2147483648", "from -2147483648 to 2147483647"),
    ("%d", "seven", "a number, as -7"),
]


def page():
    return built("FMTCANON_PAGE", "out/web/fmtcanon.html").as_uri()


def test_explain(node, module, program, folder, work, trials):
    """explain.js knows of formats and pairs what `fmtcanon-explain --output json` prints."""
    asked = [[at % 3, it] for at, it in enumerate(samples.formats(FORMATS))]
    asked += [[at % 3, *it] for at, it in enumerate(samples.pairs(PAIRS))]
    (work / "asked").write_text("".join(json.dumps(it) + "\n" for it in asked), encoding="utf-8")
    environment = {
        **os.environ,
        "FMTCANON_LIBRARY": str(next(folder.glob("libfmtcanon.so.?"))),
        "PYTHONDONTWRITEBYTECODE": "1",
    }
    with (work / "asked").open() as lines:
        python = output([sys.executable, HERE / "explain.py"], stdin=lines, env=environment).splitlines()
    with (work / "asked").open() as lines:
        javascript = output([*node, HERE / "explain.mjs", module, test_page.build().TABLE], stdin=lines).splitlines()
    unlike = [
        (question, one, two)
        for question, one, two in zip_longest(asked, python, javascript)
        if one is None or two is None or json.loads(one) != json.loads(two)
    ]
    for question, one, two in unlike[:5]:
        trials.expect(f"what the page knows of {question}", two, one)
    trials.expect(f"differences of {len(asked)} answers", len(unlike), 0)
    print(f"explained alike: {len(asked)} formats and pairs", flush=True)


def typed(browser, first, second):
    browser.type("first", first)
    browser.type("second", second)
    return browser.text("summary"), browser.text("result") + browser.text("answer")


def try_choosing(browser, trials):
    """Arguments can be typed, and the address has them."""
    for format, value, wanted in CHOSEN:
        typed(browser, format, "")
        browser.type("value1", value)
        trials.expect(f"{format!r} with {value!r}: {wanted}", wanted in browser.text("values"), True)
    typed(browser, "%05d", "%.5d")
    browser.type("value1", "7")
    trials.expect("arguments without a difference", "Both print 00007" in browser.text("values"), True)
    browsers.until(lambda: browser.script("return location.hash") == "#f=%2505d&g=%25.5d&a1=7", "the address")


# Types into the first box as soon as it is there, before the script of the page runs.
EARLY = """
document.addEventListener("readystatechange", () => {
  const box = document.readyState === "interactive" && document.getElementById("first");
  if (box) box.value = "%s early";
});
"""


def try_early(browser, page, trials):
    """What is typed while the page loads stays."""
    script = browser.developer("Page.addScriptToEvaluateOnNewDocument", source=EARLY)["identifier"]
    browser.open(page)
    trials.expect("what is typed early", browser.script("return document.getElementById('first').value"), "%s early")
    trials.expect("the answer to it", browser.text("summary").startswith("accepted: it takes 1 argument"), True)
    browser.developer("Page.removeScriptToEvaluateOnNewDocument", identifier=script)


# How far down the verdict ends, in windows of these sizes: above the keyboard of a phone.
VERDICT = {(1280, 900): 300, (390, 844): 380}


def try_verdict(browser, page, trials):
    """The verdict is on the screen while one types, above the examples."""
    for (width, height), most in VERDICT.items():
        window = {"width": width, "height": height, "deviceScaleFactor": 1, "mobile": width < 600}
        browser.developer("Emulation.setDeviceMetricsOverride", **window)
        browser.open(page + "#f=%2505d&g=%25.5d")
        found = browser.script("return document.getElementById('summary').getBoundingClientRect().bottom")
        trials.expect(f"where the verdict ends at {width}x{height}: {found:.0f}", found <= most, True)


def try_typing(browser, trials):
    """Each answer can be read from the page, and the address has what is typed."""
    for first, second, wanted, inner in TYPED:
        summary, answer = typed(browser, first, second)
        missing = [it for it in [wanted] if it not in summary] + [it for it in inner if it not in answer]
        trials.expect(f"{browser.version}: {first!r} and {second!r}: {summary!r}", missing, [])
    typed(browser, "%05d", "%.5d")
    browsers.until(lambda: browser.script("return location.hash") == "#f=%2505d&g=%25.5d", "the address")


def try_address(browser, page, trials):
    """The address alone brings all back."""
    browser.open(page + "#f=%25zu&g=%25lu&m=ilp32&raw=1")
    trials.expect("the summary of an address", browser.text("summary").split(" (")[0], "types differ at argument 1")
    chosen = browser.script(
        "return [document.querySelector('input[name=model]:checked').value, document.getElementById('literal').checked]"
    )
    trials.expect("what an address chooses", chosen, ["ilp32", False])
    browser.script("location.hash = '#f=%25i'")
    browsers.until(lambda: browser.text("summary").startswith("accepted"), "another address")


CLICKED = """
return [...document.querySelectorAll("#tries button")].map((it) => {
  it.click();
  return [it.innerText, document.getElementById("summary").innerText];
});
"""


def try_examples(browser, page, trials):
    """Each example can be clicked, and says something."""
    browser.open(page)
    found = browser.script(CLICKED)
    trials.expect("examples that say nothing", [it for it in found if not all(it)], [])
    trials.expect("how many examples", len(found) > 5, True)


def try_keyboard(browser, page, trials):
    """The tab key reaches the pages, the boxes, the choices, the buttons and the arguments in this order."""
    browser.open(page)
    order = []
    for _ in range(12):
        for kind in ("rawKeyDown", "keyUp"):
            browser.developer("Input.dispatchKeyEvent", type=kind, key="Tab", code="Tab", windowsVirtualKeyCode=9)
        order.append(browser.script("const it = document.activeElement; return it.id || it.name || it.tagName"))
    wanted = ["A"] * 4 + ["first", "second", "model", "literal", "link", "BUTTON", "value1", "value2"]
    trials.expect("the order of the tab key", order, wanted)


def try_names(browser, trials):
    """Each box, button and choice has a name that a screen reader can say."""
    nodes = browser.developer("Accessibility.getFullAXTree")["nodes"]
    roles = [
        (it.get("role", {}).get("value"), it.get("name", {}).get("value")) for it in nodes if not it.get("ignored")
    ]
    asked = [
        (role, name) for role, name in roles if role in ("textbox", "radio", "checkbox", "button", "heading", "group")
    ]
    trials.expect("names of controls", [it for it in asked if not it[1]], [])
    # Two formats, and the two arguments of the first example.
    trials.expect("controls", len([it for it in asked if it[0] == "textbox"]), 4)


TIMED = """
document.getElementById("first").value = arguments[0];
document.getElementById("second").value = "";
const form = document.getElementById("form"), times = [];
for (let at = 0; at < 20; at++) {
  const begin = performance.now();
  form.dispatchEvent(new Event("input"));
  document.body.offsetHeight;
  times.push(performance.now() - begin);
}
// Other programs may run at the same time.
return Math.min(...times);
"""


def try_speed(browser, trials):
    """A format of 20 directives takes at most 20 ms, with its layout; on a busy machine, at some time."""
    taken = math.inf
    for _ in range(ROUNDS):
        taken = min(taken, browser.script(TIMED, "%d %-5s %05lu %zu " * (DIRECTIVES // 4)))
        if taken <= MILLISECONDS:
            break
    print(f"{browser.version}: {taken:.0f} ms for {DIRECTIVES} directives", flush=True)
    trials.expect(f"milliseconds for {DIRECTIVES} directives", taken <= MILLISECONDS, True)


def try_long(browser, trials):
    """A long format is answered, with all of its directives if one asks for them."""
    browser.script("document.getElementById('first').value = '%d, '.repeat(5000)")
    browser.script("document.getElementById('form').dispatchEvent(new Event('input'))")
    browsers.until(lambda: browser.text("summary").startswith("accepted: it takes 5000 arguments"), "a long format")
    shown = "return document.querySelectorAll('ol.cards > li').length"
    few = browser.script(shown)
    browser.script(
        "[...document.querySelectorAll('#answer button')].find((it) => it.innerText.startsWith('Show')).click()"
    )
    trials.expect("cards", (few < 100, browser.script(shown)), (True, 5000))


def put_picture(name, picture, trials):
    trials.expect(f"the picture {name}", picture[:4], b"\x89PNG")
    if os.environ.get("FMTCANON_SHOTS"):
        Path(os.environ["FMTCANON_SHOTS"], f"{name}.png").write_bytes(picture)


def try_screens(browser, page, trials):
    """In three widths, light and dark, nothing is wider than the screen."""
    for name, fragment in {
        "one": "#f=%25-05d+of+%255zu%25%25",
        "two": "#f=%2505d&g=%25.5d",
        "refused": "#f=%25d+and+%25%23d",
    }.items():
        for screen, width in WIDTHS.items():
            browser.screen(width, is_dark=screen == "tablet")
            browser.open(page + fragment)
            wide = browser.script("return document.documentElement.scrollWidth")
            trials.expect(f"the width of {name} on a {screen}", wide <= width, True)
            put_picture(f"{name}-{screen}", browser.screenshot(), trials)


def try_log(browser, trials):
    """The page asked for nothing, and nothing went wrong in it."""
    sent = [json.loads(it)["message"] for it in browser.log("performance") if '"Network.requestWillBeSent"' in it]
    addresses = {it["params"]["request"]["url"].split(":")[0] for it in sent}
    trials.expect("what the page asks for", addresses - {"file", "about"}, set())
    trials.expect("messages of the page", browser.log("browser"), [])


def test_chromium(page, tools, trials):
    """The page works in Chromium."""
    tools.need("chromium", "chromium")
    tools.need("chromedriver", "chromium-driver")
    with browsers.chromium() as browser:
        browser.open(page)
        trials.expect("its version", f"fmtcanon {VERSION}." in browser.script("return document.body.innerText"), True)
        try_typing(browser, trials)
        try_choosing(browser, trials)
        try_address(browser, page, trials)
        try_early(browser, page, trials)
        try_examples(browser, page, trials)
        try_keyboard(browser, page, trials)
        try_names(browser, trials)
        try_speed(browser, trials)
        try_long(browser, trials)
        try_screens(browser, page, trials)
        try_verdict(browser, page, trials)
        try_log(browser, trials)
        print(f"the page in Chromium {browser.version}", flush=True)


def test_firefox(page, tools, trials):
    """The page works in Firefox."""
    tools.need("firefox-esr", "firefox-esr")
    with browsers.firefox() as browser:
        browser.open(page)
        try_typing(browser, trials)
        try_choosing(browser, trials)
        try_address(browser, page, trials)
        try_examples(browser, page, trials)
        try_speed(browser, trials)
        put_picture("firefox", browser.screenshot(), trials)
        print(f"the page in Firefox {browser.version}", flush=True)


Tests = tests_of(globals())
