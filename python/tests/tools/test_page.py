"""The cases of fshell page: what stands in the page, and what a browser shows of it."""

import html
import json
import math
import os
import re
import shlex
import subprocess
from collections.abc import Iterator, Sequence
from typing import Any

from tests.tools import SECONDS, Case, captured, example, put, run
from tests.tools.test_explain import MADE, NEVER
from tests.tools.test_progress import many

PAGE, BROWSER = ("graph", "jinja2"), ("graph", "jinja2", "chromium")
QUERY = "cover @CONDITIONEDGE"
DATA = 'id="data">(.*?)</script>'
HOSTILE = NEVER + "/* <script>document.title = 'taken'</script> </script> <b>&amp; */\n"
MEASURED = """goals 4 inputs 1
input 1 returned 0
goal 1 missed e0@never.c:2
goal 2 covered 1 e1@never.c:2
goal 3 missed e2@never.c:2
goal 4 missed e3@never.c:2
suite 1
covered 1 of 4
"""
WORDS = ["page", "made", "-o", "page.html", "--source", "never.c"]
CHECK = "fshell check f 'cover @CONDITIONEDGE' 3 3.cert never.c --turns 4 --frames 8 --answers 16 --ends any"


def refused(name: str, words: list[str], files: dict[str, str], line: str) -> Case:
    """A case of words that are refused, with the line."""
    return Case(f"page: {name}", words, files, 2, "", f"page: {line}\n", needs=PAGE)


CASES = [
    refused("no source", ["page", "made", "-o", "new"], {"made": MADE}, "the sources of a report are named by --source"),
    refused("no report", ["page", "never.c", "-o", "new", "--source", "never.c"], {"never.c": NEVER}, "never.c: it is no report: int f(int x) {"),
    refused("a list of goals", ["page", "made", "-o", "new", "--source", "never.c"], {"never.c": NEVER, "made": "goals 0\n"},
            "made: it is an answer of goals; the page shows those of measure and generate"),
    refused("a report of other sources", WORDS, {"never.c": NEVER, "made": MADE.replace("never.c", "other.c")},
            "made: goal 1 isn't one of these sources: e0@other.c:2"),
    Case("page: one query for two reports", ["page", "made", "made", "-o", "new", "--source", "never.c", "--query", QUERY],
         {"never.c": NEVER, "made": MADE}, 2, "", None, needs=PAGE),
    refused("a file that can't be written", ["page", "made", "-o", "no/page", "--source", "never.c"], {"never.c": NEVER, "made": MADE},
            "no/page: No such file or directory"),
    refused("a folder that is no campaign's", ["page", ".", "-o", "page"], {"never.c": NEVER}, "./campaign.json: No such file or directory"),
]  # fmt: skip


def made(folder: str, files: dict[str, str], *words: str) -> tuple[str, str]:
    """The text of a page, and what the tool says."""
    put(folder, files)
    ended = run(folder, [*WORDS, *words])
    with open(os.path.join(folder, "page.html"), encoding="utf-8") as file:
        return file.read(), ended.stdout


def each_report_has_its_query(folder: str) -> Iterator[bool]:
    """The commands for a refuted goal have the query of its report."""
    other = "cover EDGES(@LINE(2))"
    text, _ = made(
        folder,
        {"never.c": NEVER, "made": MADE, "more": MADE},
        "more",
        "--entry",
        "f",
        "--query",
        QUERY,
        "--query",
        other,
    )
    data = json.loads(captured(DATA, text))
    yield [goal["c"][1] for goal in data["goals"] if "c" in goal] == [CHECK, CHECK.replace(QUERY, other)]


def page_has_each_goal(folder: str) -> Iterator[bool]:
    text, said = made(folder, {"never.c": HOSTILE, "made": MADE}, "--entry", "f", "--query", QUERY)
    yield said == "page.html: 4 goals, 3 covered, 0 missed, 0 undecided, 0 refuted within the bounds, 1 unreachable\n"
    data = json.loads(captured(DATA, text))
    yield [goal["v"] for goal in data["goals"]] == ["covered", "covered", "unreachable", "covered"]
    yield data["goals"][2]["c"][1] == CHECK
    yield data["paths"] == [{"1": [0, 3, 5], "2": [1, 5]}]
    # text of the sources is escaped wherever it stands
    yield "<script>document.title" not in text and html.escape(
        "<script>document.title = 'taken'</script>"
    ) in text.replace("&#39;", "&#x27;")
    yield text.count("</script>") == 2


def browsed(folder: str, script: str, words: Sequence[str] = ("--dump-dom",)) -> str:
    """What chromium makes of a page in which a script then clicks."""
    with open(os.path.join(folder, "page.html"), encoding="utf-8") as file:
        text = file.read()
    put(folder, {"clicked.html": text.replace("</body>", f"<script>{script}</script></body>")})
    words = ["chromium", "--headless", "--no-sandbox", "--disable-gpu", *words, f"file://{folder}/clicked.html"]
    return subprocess.run(words, capture_output=True, text=True, timeout=SECONDS).stdout


def a_browser_shows_clicked_goals(folder: str) -> Iterator[bool]:
    made(folder, {"never.c": HOSTILE, "made": MADE}, "--entry", "f", "--query", QUERY)
    shown = browsed(folder, "document.querySelector('[data-goals=\"2\"]').click()")
    panel = shown[shown.index('<div id="goal">') :]
    yield "goal 3" in panel and "x &lt; 5 is true" in panel and html.escape(CHECK, quote=False) in panel
    yield "<title>FShell: 4 goals</title>" in shown
    shown = browsed(folder, "document.querySelector('#list div:nth-child(4)').click()")
    panel = shown[shown.index('<div id="goal">') :]
    yield "covered by input 1" in panel and "args 1073741824" in panel and "its path, 3 steps" in panel
    yield re.findall(r'class="line on-path" id="l0:(\d+)"', shown) == ["2", "5"]
    shown = browsed(folder, "document.querySelector('[data-hides=no-covered]').click()")
    yield shown[shown.index('<div id="list">') :].count("<div><span") == 1 and '<body class="no-covered">' in shown


# 123 conditions, three of them at the place of one macro; the input 0 takes the first one's false outcome and that of each `==`
MANY = "#define ALL x > 1 && x > 2 && x > 3\nint f(int x) {\n  int n = 0;\n  if (ALL) {\n    n++;\n  }\n" + "".join(
    f"  if (x == {at}) {{\n    n++;\n  }}\n" for at in range(10, 130)) + "  return n;\n}\n"  # fmt: skip
CLICKS = """{
const seen = {}, one = id => document.getElementById(id), rows = () => [...one("list").children], row = at => rows()[at].textContent;
const press = (key, target) => (target || document.body).dispatchEvent(new KeyboardEvent("keydown", {key, bubbles: true}));
const choose = (id, value) => { one(id).value = value; one(id).dispatchEvent(new Event(id === "search" ? "input" : "change")); };
seen.pages = [one("which").textContent, one("before").disabled];
one("after").click(); seen.pages.push(one("which").textContent, row(0), one("after").disabled);
one("before").click(); seen.pages.push(one("which").textContent);
choose("search", "TRUE 42:"); seen.search = rows().map(one => one.textContent);
choose("search", "no such"); seen.none = [one("which").textContent, rows().length];
choose("search", "");
choose("sort", "verdict"); seen.sorted = [row(0), data.goals[kept.at(-1)].v]; choose("sort", "number");
one("open").click(); seen.open = [location.hash, document.querySelectorAll("#list .chosen").length];
one("open").click(); seen.open.push(location.hash);
press("p"); seen.open.push(location.hash);
document.querySelector("button.several").click();
seen.several = [document.querySelector("button.several").textContent, document.querySelectorAll("#together a").length, rows().length, location.hash];
rows()[0].lastChild.focus(); press("ArrowDown", document.activeElement); seen.focus = document.activeElement.getAttribute("href");
one("theme").click(); one("theme").click();
seen.dark = [document.documentElement.dataset.theme, getComputedStyle(document.body).backgroundColor];
document.querySelector("details.file").open = false;
one("list").querySelector("a[href='#goal-7']").click(); seen.unfolds = [document.querySelector("details.file").open, location.hash];
location.hash = "#goal-9";
addEventListener("hashchange", () => { seen.sent = document.querySelector("#goal h1").textContent; document.title = JSON.stringify(seen); });
}"""


# each width in both colours; a scheme of 0 is the dark one
WAYS = [(f"--window-size={width},900", f"--blink-settings=preferredColorScheme={scheme}") for width in (1600, 1000, 700) for scheme in (1, 0)]  # fmt: skip


def each_control_does_what_it_says(folder: str) -> Iterator[bool]:
    """Search, order, pages, the next open goal, a mark of several goals, keys, colours, folding and links that are sent."""
    put(folder, {"f.c": MANY, "in": "0\n"})
    put(folder, {"made": run(folder, ["measure", "f", QUERY, "in", "f.c"]).stdout})
    yield run(
        folder, ["page", "made", "-o", "page.html", "--source", "f.c", "--entry", "f", "--inputs", "in"]
    ).returncode == 0
    for way in WAYS:
        shown = browsed(folder, CLICKS, ("--dump-dom", "--virtual-time-budget=3000", *way))
        yield from clicks_are_right(json.loads(html.unescape(captured("<title>(.*?)</title>", shown))))


def clicks_are_right(seen: dict[str, Any]) -> Iterator[bool]:
    """What the script of clicks saw."""
    yield seen["pages"] == [
        "1 to 200 of 246",
        True,
        "201 to 246 of 246",
        "201298 x == 107: true",
        True,
        "1 to 200 of 246",
    ]
    yield seen["search"] == ["71103 x == 42: true"] and seen["none"] == ["none of 246", 0]
    yield seen["sorted"][1] == "covered" and seen["sorted"][0].startswith("1")
    yield seen["open"] == ["#goal-1", 1, "#goal-3", "#goal-1"]
    yield seen["several"] == ["1/6", 6, 200, "#goal-1"] and seen["focus"] == "#goal-2"
    yield seen["dark"] == ["dark", "rgb(13, 17, 23)"] and seen["unfolds"] == [True, "#goal-7"] and seen[
        "sent"
    ].startswith("goal 9 ")


FEE_INPUTS = '[{"args": [1, 2, 3], "answers": [], "req": "TP-1"}, {"args": [2000, 30, 1], "answers": [], "requirements": ["<b>", "TP-1"]}]'


def made_of_fee(folder: str, *more: str) -> str:
    """The text of a page of two inputs of fee.c; the second one costs (9 + 30) * 2, which the assert on line 20 forbids."""
    put(folder, {"fee.c": example("criteria/fee.c"), "in": FEE_INPUTS})
    put(folder, {"made": run(folder, ["measure", "fee", QUERY, "in", "fee.c"]).stdout})
    put(folder, {"mcdc.json": run(folder, ["mcdc", "fee", "fee.c", "--json"]).stdout})
    run(folder, ["page", "made", *more, "-o", "page.html", "--source", "fee.c", "--entry", "fee", "--inputs", "in"])
    with open(os.path.join(folder, "page.html"), encoding="utf-8") as file:
        return file.read()


def cells(text: str) -> list[list[str]]:
    """The texts of a table's rows, cell by cell, without marks."""
    rows = [re.findall("<t[hd].*?</t[hd]>", row, re.DOTALL) for row in re.findall("<tr>.*?</tr>", text, re.DOTALL)]
    return [[" ".join(html.unescape(re.sub("<.*?>", " ", cell)).split()) for cell in row] for row in rows]


def tabs_are_there_where_the_data_has_them(folder: str) -> Iterator[bool]:
    text = made_of_fee(folder)
    needs = cells(text[text.index('id="requirements"') : text.index('id="errors"')])
    # `<b>` is of an input whose run doesn't count
    yield needs[1] == ["<b>", "input 2: args 2000 30 1", "none"]
    yield needs[2] == ["TP-1", "input 1: args 1 2 3 input 2: args 2000 30 1", "2 4 6 7 8 9"]
    ends = cells(text[text.index('id="errors"') : text.index("<aside>")])
    yield ends[1] == [
        'made, input 2: args 2000 30 1 {"requirements": ["<b>", "TP-1"]}',
        "trapped assert",
        "fee.c:20:3 fee: assert(sum <= 40)",
    ]
    yield len(ends) == 2 and 'id="mcdc"' not in text and "<b>" not in text
    text = made_of_fee(folder, "mcdc.json")
    table = cells(text[text.index("fee.c:10:7 fee") :])
    yield table[0] == ["grams <= 0", "days < 0", "outcome", "taken by"]
    yield sorted(row[:3] for row in table[1:4]) == [["F", "F", "false"], ["F", "T", "true"], ["T", "-", "true"]]
    yield made(folder, {"never.c": NEVER, "made": MADE})[0].count('role="tab') == 1


TABS = """{
const seen = [], one = id => document.getElementById(id), hidden = () => ["sources", "mcdc", "errors"].map(id => one(id).hidden);
seen.push(hidden());
one("tab-mcdc").click(); seen.push(hidden(), one("tab-mcdc").getAttribute("aria-selected"));
one("tab-mcdc").dispatchEvent(new KeyboardEvent("keydown", {key: "ArrowLeft"})); seen.push(hidden());
one("tab-errors").click();
document.querySelector("#mcdc th a").click();
addEventListener("hashchange", () => { seen.push(hidden(), document.querySelector("#goal h1").textContent); document.title = JSON.stringify(seen); });
}"""


def tabs_are_chosen_by_click_and_key(folder: str) -> Iterator[bool]:
    made_of_fee(folder, "mcdc.json")
    first = [False, True, True]
    for way in WAYS:
        shown = browsed(folder, TABS, ("--dump-dom", "--virtual-time-budget=3000", *way))
        seen = json.loads(html.unescape(captured("<title>(.*?)</title>", shown)))
        yield seen == [first, [True, False, True], "true", first, first, "goal 1 covered"]


PICTURE = """{
const seen = {}, one = document.querySelector("details.drawn"), box = one.querySelector(".picture"), width = () => Math.round(box.querySelector("svg").getBoundingClientRect().width);
seen.title = one.querySelector("summary").textContent;
one.open = true;
one.addEventListener("toggle", () => {
  const click = of => one.querySelector(`[data-zoom="${of}"]`).click();
  click(1); const own = width(); click(1.25); seen.larger = Math.round(100 * width() / own); click(0.8); seen.back = width() === own;
  click(0); seen.whole = width() <= box.clientWidth;
  box.dispatchEvent(new KeyboardEvent("keydown", {key: "1"})); seen.key = width() === own;
  const edge = box.querySelector("#g-e2 text");
  edge.dispatchEvent(new MouseEvent("click", {bubbles: true}));
  seen.goal = document.querySelector("#goal h1").textContent;
  seen.calls = [...box.querySelectorAll("text")].filter(text => /calls$/.test(text.textContent)).length;
  document.title = JSON.stringify(seen);
});
}"""


def the_automaton_is_one_picture(folder: str) -> Iterator[bool]:
    """Two functions in one graph with the call between them; it is made larger and smaller, and its edges lead to goals."""
    source = "static int up(int x) {\n  if (x > 3) {\n    return 3;\n  }\n  return x + 1;\n}\nint f(int x) {\n  if (up(x) == 2) {\n    return 1;\n  }\n  return 0;\n}\n"
    put(folder, {"f.c": source})
    put(folder, {"made": run(folder, ["generate", "f", "cover ID", "f.c"]).stdout})
    run(folder, ["page", "made", "-o", "page.html", "--source", "f.c", "--entry", "f"])
    for way in WAYS[::3]:
        shown = browsed(folder, PICTURE, ("--dump-dom", "--virtual-time-budget=3000", *way))
        seen = json.loads(html.unescape(captured("<title>(.*?)</title>", shown)))
        yield seen == {
            "title": "the automaton: 2 functions, calls dashed",
            "larger": 125,
            "back": True,
            "whole": True,
            "key": True,
            "goal": "goal 3 covered",
            "calls": 1,
        }


def sources_have_colours(folder: str) -> Iterator[bool]:
    """Comments over lines, directives, words, types, numbers and strings, each in the part of a line between two marks."""
    source = "/* two\n   lines */\n#define A 3\ntypedef unsigned T; // end\nint f(int x) {\n  if (x == A && x != 'a') {\n    return 0x1F;\n  }\n  return x;\n}\n"
    put(folder, {"f.c": source.replace("typedef unsigned T; ", "")})
    put(folder, {"made": run(folder, ["generate", "f", QUERY, "f.c"]).stdout})
    run(folder, ["page", "made", "-o", "page.html", "--source", "f.c", "--entry", "f"])
    with open(os.path.join(folder, "page.html"), encoding="utf-8") as file:
        text = file.read()
    found = re.findall(r'<span class="c-(\w+)">(.*?)</span>', text)
    yield found == [
        ("comment", "/* two"),
        ("comment", "   lines */"),
        ("directive", "#define"),
        ("number", "3"),
        ("comment", "// end"),
        ("type", "int"),
        ("type", "int"),
        ("word", "if"),
        ("string", "&#39;a&#39;"),
        ("word", "return"),
        ("number", "0x1F"),
        ("word", "return"),
    ]
    yield text.count(" x == A &amp;&amp; ") == 0 and "x == A &amp;&amp; " in text


TIMES = """addEventListener("load", () => {
  const seen = {load: performance.now(), filter: 0};
  const timed = what => { const begun = performance.now(); what(); document.body.offsetHeight; seen.filter = Math.max(seen.filter, performance.now() - begun); };
  const set = (id, value, event) => timed(() => { at(id).value = value; at(id)[event](); });
  for (const words of ["7", "x == 12", "true 4", "part_99", ""]) set("search", words, "oninput");
  for (const order of ["verdict", "place", "function", "number"]) set("sort", order, "onchange");
  const box = document.querySelector("#filters input");
  timed(() => box.click()); timed(() => box.click());
  document.title = JSON.stringify(seen);
});"""


def ten_thousand_goals_are_quick(folder: str) -> Iterator[bool]:
    """They load within 3 s and are filtered within 0.1 s; the best of three times, since other work may stand in the way."""
    put(folder, {"many.c": many(1249), "in": "0 9\n7 9\n"})
    put(folder, {"made": run(folder, ["measure", "all", QUERY, "in", "many.c"]).stdout})
    run(folder, ["page", "made", "-o", "page.html", "--source", "many.c", "--entry", "all", "--inputs", "in"])
    times = [json.loads(html.unescape(captured("<title>({.*?)</title>", browsed(folder, TIMES)))) for _ in range(3)]
    # (on a machine on which much else runs the clock says nothing of the page)
    is_free = os.getloadavg()[0] < 1.5 * (os.cpu_count() or 1)
    yield min(one["load"] for one in times) < (3000 if is_free else 60000)
    yield min(one["filter"] for one in times) < (100 if is_free else 5000)


def several_reports_are_one_page(folder: str) -> Iterator[bool]:
    put(folder, {"by_hand": MEASURED, "in": "0\n"})
    text, said = made(folder, {"never.c": NEVER, "made": MADE}, "by_hand", "--entry", "f", "--inputs", "in")
    yield said == "page.html: 8 goals, 4 covered, 3 missed, 0 undecided, 0 refuted within the bounds, 1 unreachable\n"
    data = json.loads(captured(DATA, text))
    yield data["reports"] == ["made", "by_hand"] and data["inputs"][1] == ["args 0"]


def what_isnt_known_isnt_said(folder: str) -> Iterator[bool]:
    """Without the entry a refuted goal isn't called unreachable; where a run leaves the bounds it isn't either."""
    text, said = made(folder, {"never.c": NEVER, "made": MADE})
    yield said == "page.html: 4 goals, 3 covered, 0 missed, 0 undecided, 1 refuted within the bounds, 0 unreachable\n"
    put(folder, {"count.c": example("counting/count.c")})
    put(
        folder,
        {"made": run(folder, ["generate", "count", "cover @LINE(7)", "count.c", "--turns", "2"]).stdout},
    )
    ended = run(folder, ["page", "made", "-o", "two.html", "--source", "count.c", "--entry", "count"])
    yield ended.stdout == "two.html: 1 goals, 0 covered, 0 missed, 0 undecided, 1 refuted within the bounds, 0 unreachable\n"
    with open(os.path.join(folder, "two.html"), encoding="utf-8") as file:
        yield "the bounds don&#39;t suffice: turn 3 of the loop at count.c:3, by the input args" in file.read()


def a_campaign_is_shown_as_it_says(folder: str) -> Iterator[bool]:
    """The verdicts are the campaign's own, and the command for a certificate runs where the folder stands now."""
    put(folder, {"never.c": NEVER})
    yield run(folder, ["campaign", "f", QUERY, "never.c", "-o", "new"]).returncode == 0
    ended = run(folder, ["page", "new", "-o", "page.html"])
    yield ended.stdout == "page.html: 4 goals, 3 covered, 0 missed, 0 undecided, 0 refuted within the bounds, 1 unreachable\n"
    with open(os.path.join(folder, "page.html"), encoding="utf-8") as file:
        data = json.loads(captured(DATA, file.read()))
    (command,) = data["goals"][2]["c"]
    yield command == CHECK.replace("3.cert", "new/any/certificates/3.cert")
    yield run(folder, shlex.split(command)[1:]).stdout == "goal 3 refuted turns 4 frames 8 answers 16 ends any\n"


def the_list_says_what_goals_ask_for(folder: str) -> Iterator[bool]:
    """A guard is its line, its condition and its outcome; the functions come before the sources, each with its own counts."""
    text, _ = made(folder, {"never.c": NEVER, "made": MADE}, "--entry", "f")
    data = json.loads(captured(DATA, text))
    labels = [data["labels"][goal["l"][0]] for goal in data["goals"]]
    yield labels == ["2 x > 10: true", "2 x > 10: false", "2 x < 5: true", "2 x < 5: false"]
    yield {goal["f"] for goal in data["goals"]} == {"f"}
    yield 'aria-label="3 covered, 1 unreachable"' in text and ">100%<" in text
    yield text.index('<a href="#l0:1">f</a>') < text.index('id="l0:1"')
    yield 'id="l0:2" data-state="covered"' in text and 'id="l0:1">' in text


def brightness(colour: str) -> float:
    """The relative luminance of a colour `#rrggbb`, as WCAG 2.1 defines it: a number from 0 (black) to 1."""
    parts = [int(colour[at : at + 2], 16) / 255 for at in (1, 3, 5)]
    linear = [part / 12.92 if part <= 0.03928 else math.pow((part + 0.055) / 1.055, 2.4) for part in parts]
    return sum(weight * part for weight, part in zip((0.2126, 0.7152, 0.0722), linear))


def contrast(one: str, other: str) -> float:
    """The contrast of two colours, as WCAG 2.1 defines it: a number from 1 (none) to 21."""
    low, high = sorted((brightness(one), brightness(other)))
    return (high + 0.05) / (low + 0.05)


def colours_have_contrast(folder: str) -> Iterator[bool]:
    """Texts have 4.5 to 1 on what they stand on, in both themes (WCAG 2.1, 1.4.3), and edges of marks 3 to 1."""
    text, _ = made(folder, {"never.c": NEVER, "made": MADE})
    themes = [
        dict(re.findall(r"--([a-z-]+): (#[0-9a-f]{6});", rest))
        for rest in re.findall(r"color-scheme: (?:light|dark);(.*?)}", text, re.DOTALL)
    ]
    yield len(themes) == 3 and themes[1] == themes[2] and themes[0] != themes[1]
    for theme in themes[:2]:
        for verdict in ("covered", "missed", "undecided", "refuted", "unreachable"):
            yield contrast(theme[verdict], theme["on"]) >= 4.5
            yield contrast(theme[verdict], theme["ground"]) >= 3
        for kind in ("comment", "directive", "string", "number", "word", "type"):
            yield all(contrast(theme[f"c-{kind}"], theme[ground]) >= 4.5 for ground in ("ground", "path"))
        for ground in ("ground", "panel", "hover", "path"):
            yield contrast(theme["text"], theme[ground]) >= 4.5 and contrast(theme["quiet"], theme[ground]) >= 4.5
        yield contrast(theme["link"], theme["ground"]) >= 4.5 and contrast(theme["link"], theme["panel"]) >= 4.5


TRIED = [(PAGE, the_list_says_what_goals_ask_for), (PAGE, colours_have_contrast), (PAGE, what_isnt_known_isnt_said), ((*PAGE, "parallel"), a_campaign_is_shown_as_it_says), (PAGE, page_has_each_goal), (PAGE, each_report_has_its_query), (PAGE, several_reports_are_one_page), (BROWSER, a_browser_shows_clicked_goals), (BROWSER, each_control_does_what_it_says), (PAGE, tabs_are_there_where_the_data_has_them), (BROWSER, tabs_are_chosen_by_click_and_key), ((*BROWSER, "dot"), the_automaton_is_one_picture), (PAGE, sources_have_colours), (BROWSER, ten_thousand_goals_are_quick)]  # fmt: skip
