"""What tests/viewer/run looks at of the drawing: times, names, labels, colours; and what those need who do not see it."""
import itertools
import json
import math
import os

import access
from looked_at import equal, text_of

HERE = os.path.dirname(os.path.abspath(__file__))
PHONE = [{"name": name, "text": text_of(HERE + "/phone/" + name)} for name in ("streams.txt", "causes.txt")]

# The eyes that lack one kind of cone, as linear light (Machado, Oliveira and Fernandes 2009, severity 1), and full ones.
EYES = {
    "full": ((1, 0, 0), (0, 1, 0), (0, 0, 1)),
    "protanopia": ((0.152286, 1.052583, -0.204868), (0.114503, 0.786281, 0.099216), (-0.003882, -0.048116, 1.051998)),
    "deuteranopia": ((0.367322, 0.860646, -0.227968), (0.280085, 0.672501, 0.047413), (-0.011820, 0.042940, 0.968881)),
    "tritanopia": ((1.255528, -0.076749, -0.178779), (-0.078411, 0.930809, 0.147602), (0.004733, 0.691367, 0.303900)),
}
LEAST_APART = 0.08
LEAST_CONTRAST = 4.5


def light(color):
    """The linear light of a colour `#rrggbb`."""
    parts = [int(color[k:k + 2], 16) / 255 for k in (1, 3, 5)]
    return [part / 12.92 if part <= 0.04045 else ((part + 0.055) / 1.055) ** 2.4 for part in parts]


def contrast(a, b):
    """The contrast of two colours, as WCAG 2 defines it."""
    dark, bright = sorted(sum(w * part for w, part in zip((0.2126, 0.7152, 0.0722), light(color))) for color in (a, b))
    return (bright + 0.05) / (dark + 0.05)


def seen(color, eyes):
    """A colour in Oklab, as these eyes see it."""
    r, g, b = (min(max(sum(w * part for w, part in zip(row, light(color))), 0), 1) for row in EYES[eyes])
    cones = (0.4122214708 * r + 0.5363325363 * g + 0.0514459929 * b, 0.2119034982 * r + 0.6806995451 * g + 0.1073969566 * b,
             0.0883024619 * r + 0.2817188376 * g + 0.6299787005 * b)
    rows = ((0.2104542553, 0.7936177850, -0.0040720468), (1.9779984951, -2.4285922050, 0.4505937099), (0.0259040371, 0.7827717662, -0.8086757660))
    return [sum(w * cone ** (1 / 3) for w, cone in zip(row, cones)) for row in rows]


def give_phone(page):
    page.run("takeTexts(%s)" % json.dumps(PHONE))
    page.settle()


def check_time(page):
    """Times run from the first event; the two days before are a stub, and fingers keep their width."""
    give_phone(page)
    equal("the first touch", page.run("state.model.lanes[0].section.messages[0].t"), 0)
    equal("the stub", page.run("[spanOf(state.model.before), state.model.first < 0, state.model.first > -state.model.last / 8]"), ["2 d 3 h", True, True])
    equal("the focus before", page.run("(() => { const { t } = state.model.lanes[5].section.messages[0]; return t < 0 && t > state.model.first; })()"), True)
    wide = page.run("(() => { const frame = lanesFrame(); return state.model.lanes[0].rows[0].bars.map(({ from, to }) => frame.x(to) - frame.x(from)); })()")
    equal("fingers are no lines", min(wide) > 8, True)
    page.run("selectMessage(state.model.lanes[5], 0)")
    equal("the focus is told with its distance", "at 184,467,123.456 ms before the first event" in page.run("viewer.shown()"), True)
    page.run("takeTexts([{ name: 'one', text: 'channel 1 main\\n1 5000000 motion 1 DOWN 0@1,1\\n2 5010000 motion 1 UP 0@1,1\\nend 1 sent 2 received 2 finished 2\\n' }])")
    equal("no stub where nothing comes before", page.run("[state.model.first, state.model.zero === 5000000n]"), [0, True])


def check_axis(page):
    """Labels of the axis stand apart at every zoom, also where their numbers are great."""
    text = "channel 1 main\n1 1 motion 1 DOWN 0@1,1\n2 %d motion 1 UP 0@1,1\nend 1 sent 2 received 2 finished 2\n" % 10 ** 14
    page.run("takeTexts([{ name: 'long', text: %s }])" % json.dumps(text))
    for _ in range(24):
        gaps = page.run("(() => { const { context } = startDrawing(byId('lanes')); const frame = lanesFrame(); const marks = axisMarks(context, frame); context.font = '12px ' + FONT;"
                        "return marks.slice(1).map(({ x }, k) => x - marks[k].x - context.measureText(marks[k].label).width); })()")
        equal("labels of the axis", all(gap > 4 for gap in gaps), True)
        page.run("selectMessage(state.model.lanes[0], 1); zoomByKey(0.5)")


def check_zoom(page):
    """+ shows something at every step, with a message that is selected and without."""
    messages = "(() => { const { from, to } = state.view; return state.model.shown.some(({ section }) => section.messages.some(({ t }) => t >= from && t <= to)); })()"
    for keys in (["ArrowRight", "ArrowRight"], ["Escape"], ["End"]):
        give_phone(page)
        page.run("document.activeElement.blur()")
        for key in keys:
            page.key(key)
        for _ in range(18):
            page.key("+", "+")
            equal("+ behind %s" % keys[-1], page.run(messages), True)
    equal("what is selected stays", page.run("(() => { const { from, to } = state.view; return state.now > from && state.now < to; })()"), True)


def check_names_and_labels(page):
    """Names keep their ends; the names on the screen hide no finger and no other name; the extent is the session's."""
    give_phone(page)
    cut = page.run("(() => { measuring.font = '600 14px ' + FONT; return state.model.lanes.map(({ section: { name } }) => [name, cutFront(measuring, name, 130)]); })()")
    for name, short in cut:
        equal(name, short == name or (short.startswith("…") and name.endswith(short[1:]) and len(short) > 8), True)
    by_windows = page.run("state.model.surfaces.map(({ left, top, right, bottom, title }) => [left, top, right, bottom, title])")
    equal("the extent by the windows, of which the wallpaper is the largest", by_windows, [[0, 0, 1080, 2400, "display 0, by its windows"]])
    page.run("state.displays = new Map([[0, { width: 1080, height: 2300 }]])")
    give_phone(page)
    equal("the extent of the session", page.run("state.model.surfaces.map(({ left, right, bottom }) => [left, right, bottom])"), [[0, 1080, 2300]])
    for line in ("DOWN 0@700,1300", "MOVE 0@705,1048 1@243,1822", "CANCEL 0@102,1157", "DOWN 0@670,250"):
        number = next((k for k, row in enumerate(PHONE[0]["text"].split("\n"), 1) if line in row), None)
        if number is not None:
            page.run("goToFragment('#line=%d')" % number)
            page.settle()
            labels, dots = page.run("viewer.labels()"), page.run("viewer.dots()")
            over = [(a["name"], b["name"]) for a, b in itertools.combinations(labels, 2)
                    if a["x"] < b["x"] + b["width"] and b["x"] < a["x"] + a["width"] and a["y"] < b["y"] + b["height"] and b["y"] < a["y"] + a["height"]]
            under = [label["name"] for label in labels for dot in dots
                     if label["x"] - 12 < dot["x"] < label["x"] + label["width"] + 12 and label["y"] - 12 < dot["y"] < label["y"] + label["height"] + 12]
            equal("labels at " + line, (over, under, len(labels) > 4), ([], [], True))
    page.run("state.displays = new Map()")
    page.run("select(null)")
    equal("Why is one line where nothing is selected", page.run("byId('why-panel').clientHeight < 60"), True)
    equal("sessions", page.run("[...displaysOf('# x\\ndisplay.width = 720\\ndisplay = { width = 720, height = 1_280, rotation = 90 }\\n[[extra_display]]\\nheight = 5 # 7\\n"
                               "width = 4\\n[[device]]\\nwidth = 9\\n')]"), [[0, {"width": 1280, "height": 720}], [1, {"width": 4, "height": 5}]])


def check_colours(page):
    for scheme in ("light", "dark"):
        page.scheme(scheme)
        page.settle()
        colours = page.run("theme().windows") + [page.run("theme().red")]
        for colour in colours + page.run("[theme().ink, theme().soft, theme().now]"):
            equal("%s: contrast of %s" % (scheme, colour), [ground for ground in page.run("[theme().panel, theme().band]") if contrast(colour, ground) < LEAST_CONTRAST], [])
        for eyes in EYES:
            near = [(a, b) for a, b in itertools.combinations(colours, 2) if math.dist(seen(a, eyes), seen(b, eyes)) < LEAST_APART]
            equal("%s: colours alike by %s" % (scheme, eyes), near, [])
    page.scheme("light")


def check_access(page):
    """The named rules hold with all panels open, dark and light; the table has what is drawn; everything is reached by keys."""
    for scheme in ("light", "dark"):
        page.scheme(scheme)
        give_phone(page)
        page.run("['help', 'windows-panel', 'share-panel', 'program'].forEach((id) => { byId(id).hidden = false; }); byId('table-panel').open = true; showTable()")
        page.settle()
        access.check_rules(page, scheme)
    page.scheme("light")
    rows = page.run("[...document.querySelectorAll('#table tbody tr')].map((row) => [...row.children].map((cell) => cell.textContent))")
    counts = page.run("viewer.counts()")
    drawn = sum(counts[kind]["bars"] for kind in ("finger", "key", "focus", "outside")) + counts["timeouts"] + counts["removed"]
    equal("rows of the table", len(rows), drawn)
    equal("a cancel in the table", [row for row in rows if row[5] == "cancelled"],
          [["com.example.messages/com.example.messages.ui.Conversation", "finger 0 of device 2", "1,100.000 ms", "1,160.000 ms", "9", "cancelled"]])
    page.run("goToFragment('#line=%d'); draw()" % (next(k for k, row in enumerate(PHONE[0]["text"].split("\n"), 1) if "DOWN 0@700,1300" in row)))
    equal("the screen in words", "finger 0 of device 2 in com.example.messages/com.example.messages.ui.Conversation at (700, 1300)" in page.run("byId('screen-said').textContent"), True)
    page.run("['help', 'windows-panel', 'share-panel', 'program'].forEach((id) => { byId(id).hidden = true; }); byId('table-panel').open = false")
