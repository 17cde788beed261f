"""What tests/viewer/run tries of finding and sharing: jumps, the search, windows that are hidden and moved, gestures, links, pictures, print."""
import base64
import re
import xml.etree.ElementTree

from looked_at import equal
from looks import give_phone


def selected_line(page):
    return page.run("state.selected && state.selected.at !== null ? state.stream.lines[state.selected.lane.section.messages[state.selected.at].line - 1] : null")


def found(page):
    return page.run("byId('found').textContent")


def check_jumps(page):
    give_phone(page)
    page.run("document.activeElement.blur()")
    page.key("c", "c")
    equal("c", (selected_line(page), found(page)), ("37 184468283456 motion 2 CANCEL 0@102,1157", "cancel 1 of 1"))
    page.key("a", "a")
    equal("a", ("timeout" in page.run("viewer.shown()"), found(page)), (True, "timeout 1 of 1"))
    page.key("r", "r")
    equal("r", found(page), "removal 1 of 1")
    equal("r shows the removal", ", removed, at 2,270 ms" in page.run("viewer.shown()"), True)
    focus = []
    page.key("Escape")
    page.run("state.now = state.model.first")
    for _ in range(4):
        page.key("f", "f")
        focus.append(selected_line(page))
    equal("f, and around", focus, ["1 0 focus 1", "1 184468523456 focus 1", "38 184468523456 focus 0", "1 0 focus 1"])
    page.key("F", "F")
    equal("F goes back", selected_line(page), "38 184468523456 focus 0")
    page.run("byId('sought').value = 'inputmethod'; byId('find').requestSubmit()")
    equal("a window's name", (selected_line(page), found(page)), ("1 184467491556 motion 2 DOWN 1@240,230", "“inputmethod” 1 of 1"))
    page.run("byId('sought').value = 'POINTER_UP'; byId('find').requestSubmit()")
    equal("a word of a line", selected_line(page), "19 184467549656 motion 2 POINTER_UP:1 0@705,1048 1@243,1822")
    page.run("byId('sought').value = 'no such thing'; byId('find').requestSubmit()")
    equal("nothing", found(page), "no “no such thing” in the windows that are drawn")
    page.run("document.activeElement.blur(); byId('sought').value = ''")
    page.key("/", "/")
    equal("/", page.run("document.activeElement.id"), "sought")
    page.run("document.activeElement.blur()")


def check_windows(page):
    give_phone(page)
    names = page.run("viewer.windows()")
    page.run("selectMessage(state.model.lanes[0], 0)")
    page.key("h", "h")
    equal("h hides", page.run("viewer.windows()"), names[1:])
    equal("a hidden window has no fingers on the screen", page.run("fingersNow(state.model).every(({ lane }) => lane.number !== 0)"), True)
    page.run("selectMessage(state.model.lanes[5], 1)")
    page.key("[", "[")
    equal("[ moves up", page.run("viewer.windows()"), names[1:4] + [names[5], names[4], names[6]])
    link = page.run("placeText()")
    page.key("u", "u")
    equal("u shows all", sorted(page.run("viewer.windows()")), sorted(names))
    page.run("byId('windows').click(); document.querySelector('[data-does=Hide6]').click()")
    equal("the list hides", names[6] in page.run("viewer.windows()"), False)
    page.run("byId('as-told').click(); byId('show-all').click(); byId('windows').click()")
    equal("the order of the text", page.run("viewer.windows()"), names)
    return link, names


def check_link(page, link, names):
    """A link keeps the place: what is seen, selected, hidden, and the order."""
    page.run("showWhole()")
    page.run("select(null)")
    page.run("location.hash = %r" % link)
    page.until("viewer.windows().length === %d" % (len(names) - 1))
    equal("the link's windows", page.run("viewer.windows()"), names[1:4] + [names[5], names[4], names[6]])
    equal("the link's line", selected_line(page), "2 184467123456 motion 2 DOWN 0@420,900")
    page.run("zoomToGesture()")
    view = page.run("viewer.view()")
    equal("g", (round(view["from"]), round(view["to"])), (-5120, 69120))
    page.until("location.hash.includes('view=-5120:69120')")
    page.run("arrange([], []); showWhole(); select(null)")
    page.run("goToFragment('#view=-5120:69120&now=64000&line=9999&hide=x,3&order=&other=1')")
    equal("a link of another page", (page.run("viewer.windows().length"), round(page.run("viewer.view()")["to"])), (len(names) - 1, 69120))
    page.run("history.replaceState(null, '', '#'); arrange([], []); showWhole()")


def check_pictures(page):
    give_phone(page)
    svg = page.run("viewer.svg()")
    tree = xml.etree.ElementTree.fromstring(svg)
    texts = [text.text for text in tree.iter("{http://www.w3.org/2000/svg}text")]
    equal("the SVG has the names", [name for name in page.run("viewer.windows()") if not any(text and name.endswith(text.lstrip("…")) and len(text) > 8 for text in texts)], [])
    bars = len(re.findall(r"<path[^>]*a3 3 0 0 1", svg))
    counts = page.run("viewer.counts()")
    equal("the SVG has the bars", bars >= counts["finger"]["bars"] + counts["key"]["bars"], True)
    png = base64.b64decode(page.run("picturePng().then((blob) => new Promise((done) => { const r = new FileReader(); r.onload = () => done(r.result.split(',')[1]); r.readAsDataURL(blob); }))"))
    width, height = (int.from_bytes(png[k:k + 4], "big") for k in (16, 20))
    equal("the PNG", (png[:4], width == 2 * int(float(tree.get("width"))), height == 2 * int(float(tree.get("height")))), (b"\x89PNG", True, True))
    page.scheme("dark")
    page.run("preparePrint(true)")
    equal("print is on white, with all lanes", page.run("[theme().panel, byId('lanes').clientHeight >= AXIS + state.model.shown.reduce((sum, { height }) => sum + height, 0)]"), ["#ffffff", True])
    page.run("preparePrint(false)")
    equal("and then dark again", page.run("theme().panel"), "#191d21")
    page.scheme("light")
    pdf = base64.b64decode(page.ask("Page.printToPDF")["data"])
    equal("a PDF", pdf[:5], b"%PDF-")


def check_finding(page):
    check_jumps(page)
    check_link(page, *check_windows(page))
    check_pictures(page)
