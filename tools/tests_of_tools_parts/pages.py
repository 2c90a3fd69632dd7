"""Tests of tools/timeline in a browser without a screen: a script in the page tries it and writes what came into the page."""
import json
import re

from .shared import TOOLS, measured, run

TIMELINE = TOOLS / "timeline"
BROWSER = ["chromium", "--headless=new", "--no-sandbox", "--disable-gpu", "--window-size=1400,700", "--virtual-time-budget=4000"]
# How the page is asked: mouse and keyboard by events, bars by their pixels.
TRIAL = """
<pre id="told"></pre>
<script>
(() => {
const t = window.timeline, told = {}, lanes = document.getElementById("lanes");
const middle = (number) => { const it = t.rectangleOf(t.actions.get(number)); return [it.x + it.width / 2, it.y + it.height / 2, it]; };
function mouse(kind, x, y, more) {
  const box = lanes.getBoundingClientRect();
  lanes.dispatchEvent(new MouseEvent(kind, { clientX: box.left + x, clientY: box.top + y, bubbles: true, ...more }));
}
function pixel(x, y) {
  const ratio = window.devicePixelRatio, it = lanes.getContext("2d").getImageData(x * ratio, y * ratio, 1, 1).data;
  return "#" + [it[0], it[1], it[2]].map((part) => part.toString(16).padStart(2, "0")).join("");
}
const some = SOME;
told.opened = t.view.opened;
told.bars = some.map((number) => { t.show(number); t.draw(); const [x, y, it] = middle(number), action = t.actions.get(number);
  return { number, at: t.numberAt(x, y), left: it.x, width: it.width, first: t.view.first, scale: t.view.scale,
    colour: pixel(it.x + it.width - 4, it.y + 4), owed: t.data.colours[action.type % t.data.colours.length] }; });
const [x, y] = middle(some.at(-1));
mouse("mousedown", x, y);
mouse("mouseup", x, y);
told.clicked = t.state.selected;
told.details = document.getElementById("details").textContent;
t.fit();
t.draw();
const before = { ...t.view };
lanes.dispatchEvent(new WheelEvent("wheel", { deltaY: -300, ctrlKey: true, clientX: lanes.getBoundingClientRect().left + 400, clientY: 150, cancelable: true }));
t.draw();
told.zoomed = t.view.scale / before.scale;
told.kept = [before.first + (400 - 190) / before.scale, t.view.first + (400 - 190) / t.view.scale];
const was = t.view.first, corner = lanes.getBoundingClientRect();
mouse("mousedown", 500, 150);
window.dispatchEvent(new MouseEvent("mousemove", { clientX: corner.left + 430, clientY: corner.top + 150 }));
window.dispatchEvent(new MouseEvent("mouseup", { clientX: corner.left + 430, clientY: corner.top + 150 }));
t.draw();
told.dragged = (t.view.first - was) * t.view.scale;
window.dispatchEvent(new KeyboardEvent("keydown", { key: "f" }));
t.draw();
told.whole = [t.view.first, t.view.scale === before.scale];
const box = document.getElementById("search");
box.value = "QUERY";
box.dispatchEvent(new Event("input"));
told.found = t.state.matches;
box.dispatchEvent(new KeyboardEvent("keydown", { key: "Enter", bubbles: true }));
t.draw();
told.next = t.state.selected;
told.nextAt = t.numberAt(...middle(t.state.selected));
const started = performance.now();
for (let turn = 0; turn < 20; turn++) { t.pan(50); t.draw(); }
told.frame = (performance.now() - started) / 20;
document.getElementById("told").textContent = JSON.stringify(told);
})();
</script>
"""


def tried(tests, name, page, some, query):
    """What the browser tells of a page, asked for some actions and a search."""
    trial = TRIAL.replace("SOME", json.dumps(some)).replace("QUERY", query)
    file = tests.folder / f"{name}.trial.html"
    file.write_text(page.read_text().replace("</body>", trial + "</body>"))
    shown = run([*BROWSER, f"--user-data-dir={tests.folder}/browser", "--dump-dom", f"file://{file}"], limit=120)
    found = re.search(r'<pre id="told">([^<]+)</pre>', shown.out.decode("utf-8", "replace"))
    tests.is_true(f"the page of {name} answers", found, shown.errors.decode("utf-8", "replace")[-300:])
    return json.loads(found[1].replace("&gt;", ">").replace("&amp;", "&")) if found else None


def steps_of(trace):
    """Where each action starts, and the step behind it, read from the text alone."""
    starts, stops = {}, {}
    lines = [line.split() for line in trace.read_text().splitlines() if line.startswith(("start ", "end "))]
    for step, (word, *rest) in enumerate(lines):
        for it in rest:
            if word == "end":
                stops[int(it)] = step + 1
            else:
                starts[int(it.split(":")[0])] = step
    return starts, {number: stops.get(number, len(lines)) for number in starts}


def looked_at(tests, name, page, trace, query, owed):
    """The bars are where they belong and are coloured so, and clicks, zoom and search do what they should."""
    starts, stops = steps_of(trace)
    some = sorted(starts)[-1:] + sorted(starts)[:2]
    told = tried(tests, name, page, some, query)
    if not told:
        return None
    for bar in told["bars"]:
        left = 190 + (starts[bar["number"]] - bar["first"]) * bar["scale"] + 1
        tests.is_true(f"the bar of {bar['number']} of {name} stands where it should", abs(left - bar["left"]) < 1, str(bar))
        wide = (stops[bar["number"]] - starts[bar["number"]]) * bar["scale"] - 2
        tests.is_true(f"the bar of {bar['number']} of {name} is as wide as it should be", abs(wide - bar["width"]) < 1, str(bar))
        tests.is_same(f"what stands at the bar of {bar['number']} of {name}", bar["at"], bar["number"])
        tests.is_same(f"the colour of the bar of {bar['number']} of {name}", bar["colour"], bar["owed"])
    tests.is_same(f"a click in {name}", told["clicked"], some[-1])
    # In a trace of few steps the end of the trace stops the step under the mouse from staying there.
    kept = abs(told["kept"][0] - told["kept"][1]) < 0.01 or len(starts) < 3
    tests.is_true(f"zoom in {name}", abs(told["zoomed"] - 2.718) < 0.01 and kept, str(told["kept"]))
    tests.is_true(f"a drag in {name}", abs(told["dragged"] - 70) < 0.5 or len(starts) < 3, str(told["dragged"]))
    tests.is_same(f"the key for the whole trace of {name}", told["whole"], [0, True])
    if owed:
        tests.is_same(f"search in {name}", told["found"][:4], owed[:4])
        tests.is_same(f"the first match in {name}", (told["next"], told["nextAt"]), (owed[0], owed[0]))
    return told


def run_all(tests):
    if not tests.has("chromium"):
        return
    for name, query, owed in [("dma", "copy_out", [0, 1]), ("power", "mode=busy", [1]), ("bodies", "check", [1]), ("device", "inferred", None)]:
        page = tests.folder / f"{name}.html"
        tests.ends_well(f"the page of {name}", [TIMELINE, tests.traces[name], page, "--sources", tests.source(name)])
        told = looked_at(tests, name, page, tests.traces[name], query, owed)
        if told and name == "dma":
            for word in ["examples/dma.pss:29:", "do dma_c::copy_out", "pss_top.dma.channels[1]", "its buffer is written"]:
                tests.is_true(f"the details of dma tell '{word}'", word in told["details"], told["details"])
        bare = tests.folder / f"{name}.bare.html"
        tests.ends_well(f"the page of {name} without sources", [TIMELINE, tests.traces[name], bare])
        if name == "device":
            looked_at(tests, "device without sources", bare, tests.traces[name], "inferred", None)
        plain = run([TIMELINE, "--svg", tests.traces[name]])
        tests.is_true(f"the picture of {name}", plain.status == 0 and b"no time" in plain.out, plain.errors.decode())
    page = tests.folder / "large.html"
    ran = measured([TIMELINE, tests.large, page, "--sources", tests.large_source])
    tests.is_true("the large page is written in time", ran.status == 0 and ran.seconds < 2 and ran.memory < 200, f"{ran.seconds:.2f} s")
    told = looked_at(tests, "large", page, tests.large, "tag=7", [15, 47, 79, 111])
    if told:
        tests.is_true("the large page opens below 3 s", told["opened"] < 3000, f"{told['opened']:.0f} ms")
        tests.is_true("the large page moves at once", told["frame"] < 50, f"{told['frame']:.0f} ms a frame")
        print(f"  the page of 16,384 actions opened in {told['opened']:.0f} ms, a frame takes {told['frame']:.1f} ms")
    tests.is_same("a scenario alone is refused", run([TIMELINE, "-"], given=b"pst 2\nscenario 0 0\nsolved 0\n").status, 1)
