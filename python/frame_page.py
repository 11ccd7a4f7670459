"""The page that ./explain --html writes: frames with their histories as nested steps, choices marked, two readings side by side.

It is one file with its style and its script in it. Nothing is fetched: the page's own policy forbids it, and allows this script alone.
"""
import base64
import hashlib
import html

from page_parts import SCRIPT, STYLE
from streams import called

# So many steps deep a step is moved in by a whole width, deeper ones by less, so that the tokens of the deepest have room.
MOVED_IN = 8
RESULTS = {"one": "one reading", "several": "several readings", "none": "no reading", "refused": "refused", "unreadable": "unreadable"}


def text(value):
    return html.escape(str(value))


def count_words(count, word):
    return "%s %s%s" % (format(count, ","), word, "" if count == 1 else "s")


def readings_words(view):
    return "more than 2^64 − 1 readings" if view["over"] else count_words(view["readings"], "reading")


def differing(view):
    return sum(len(position["rules"]) > 1 for position in view["positions"])


def summary(view):
    """A frame in one line, behind its name."""
    if view["result"] == "unreadable":
        return "can't be read: %s" % view["why"]
    if view["result"] == "refused":
        return "the %s is refused by %d: %s" % (view["file"], view["number"], view["words"])
    said = "%s, %s, %s" % (count_words(view["tokens"], "token"), count_words(view["choices"], "choice"), readings_words(view))
    if view["result"] == "several":
        said += ", which differ at %d of the %d positions" % (differing(view), len(view["positions"]))
    return said


# ---- a position
def place_words(position):
    """The token with its place among the steps."""
    if position["kind"] == "end":
        return "the end, behind the last token"
    token = "%s %d" % (position["kind"], position["name"])
    if position["kind"] == "mark":
        return token + (", in no step" if position["around"] is None else ", in the step opened at position %d" % position["around"])
    return "%s, %s at position %d" % (token, "closed" if position["kind"] == "open" else "opened", position["partner"])


def state(position):
    return "choice" if position["choice"] else "follows" if len(position["rules"]) > 1 else ""


def chip(rule):
    return '<i class="rule">%d</i>' % rule


def row(view, number, at, pair):
    """The row of a position: its token, whether it is a choice, the rules that can stand there, and those of the two readings."""
    position, name = view["positions"][at], "frame-%d-position-%d" % (number, at)
    token = "the end" if position["kind"] == "end" else "%s %d" % (position["kind"], position["name"])
    note = ' <span class="note">%s</span>' % text(position["comment"]) if position["comment"] else ""
    cells = '<span class="at">%d</span><span class="token"><b>%s</b>%s</span>' % (at, text(token), note)
    if view["result"] == "none":
        stop = view["readable"] == at
        return '<div class="row%s" id="%s" data-at="%d">%s<span class="state">%s</span></div>' % (
            " stop" if stop else "", name, at, cells, "reading ends here" if stop else "")
    apart = len(pair) == 2 and pair[0]["rules"][at] != pair[1]["rules"][at]
    classes = " ".join(word for word in ("row", state(position), "apart" if apart else "") if word)
    cells += '<span class="state">%s</span><span class="set">%s</span>' % (state(position), "".join(map(chip, position["rules"])))
    cells += "".join('<span class="%s">%s</span>' % (which, chip(reading["rules"][at])) for which, reading in zip(("one", "two"), pair))
    return '<div class="%s" id="%s" tabindex="0" data-at="%d" data-place="%s">%s</div>' % (classes, name, at, text(place_words(position)), cells)


def nested(view, number, pair):
    """The rows of all positions; those inside a step stand in a block of their own."""
    parts, depth = [], 0
    for at, position in enumerate(view["positions"]):
        if position["kind"] == "close":
            depth -= 1
            parts.append("</div>")
        parts.append(row(view, number, at, pair))
        if position["kind"] == "open":
            depth += 1
            parts.append('<div class="inside%s">' % (" deep" if depth > MOVED_IN else ""))
    return parts


# ---- a frame
def pair_of(view, numbers):
    """The two readings that stand side by side at first: those asked for by number, else the first two; one where there is one alone."""
    told = {reading["reading"]: reading for reading in view["told"]}
    chosen = [number for number in numbers if number in told]
    chosen += [number for number in told if number not in chosen][:max(0, 2 - len(chosen))]
    return [told[number] for number in chosen[:2]]


def pick(view, chosen, name):
    options = "".join('<option value="%d"%s>%d</option>' % (reading["reading"], " selected" if reading is chosen else "", reading["reading"])
                      for reading in view["told"])
    return '<select aria-label="%s">%s</select>' % (name, options)


def head(view, pair):
    """The row above the positions."""
    if view["result"] == "none":
        return '<div class="row head"><span class="at"></span><span>token</span><span></span></div>'
    if len(pair) == 2:
        readings = "".join("<span>reading %s</span>" % pick(view, reading, "the %s reading" % which) for which, reading in zip(("left", "right"), pair))
    else:
        readings = "<span>reading</span>"
    return '<div class="row head"><span class="at"></span><span>token</span><span></span><span>rules possible</span>%s</div>' % readings


def told_list(view):
    """The readings that the page holds, as a listing has them."""
    more = view["over"] or view["readings"] > len(view["told"])
    lines = ['<details class="soft"><summary>%s of this frame on this page</summary><ol class="told">' % count_words(len(view["told"]), "reading")]
    lines += ['<li data-reading="%d">%s</li>' % (reading["reading"], " ".join(map(str, reading["rules"]))) for reading in view["told"]]
    return lines + ["</ol>%s</details>" % (called("<p>Any others: ./explain --html with their numbers behind the folder.</p>") if more else "")]


def rules_table(view):
    lines = ['<details class="soft"%s><summary>The %s of the grammar; readings start at stage %d</summary><table class="rules">' % (
        "" if view["result"] == "several" else " open", count_words(len(view["rules"]), "rule"), view["start"]),
        "<tr><th>rule</th><th>stage</th><th>what it is</th><th>what it says</th><th>where</th></tr>"]
    for rule in view["rules"]:
        where = "" if rule["line"] is None else "grammar.txt line %d" % rule["line"]
        lines.append('<tr data-rule="%d" data-stage="%d"><td>%d</td><td>%d</td><td>%s</td><td>%s</td><td>%s</td></tr>' % (
            rule["rule"], rule["stage"], rule["rule"], rule["stage"], text(rule["comment"]), text(rule["says"]), where))
    return lines + ["</table></details>"]


def no_reading_words(view):
    said = "The grammar doesn't derive this history. Nothing is wrong with the files. Was another grammar in force? "
    if view["readable"] is None:
        return said + "No beginning of the history has a reading by itself, not even the empty one."
    if view["readable"] == 0:
        return said + "Of its beginnings the empty one alone has a reading by itself."
    return said + "The longest beginning that has a reading by itself is the first %s." % count_words(view["readable"], "token")


def body(view, number, numbers):
    """All of a frame below its name."""
    if view["result"] in ("refused", "unreadable"):
        return ["<p>%s</p>" % (called("./check says where.") if view["result"] == "refused" else "")]
    pair = [] if view["result"] == "none" else pair_of(view, numbers)
    lines = ["<p>%s</p>" % text(fault) for fault in view["texts"]]
    if view["result"] == "none":
        lines.append("<p>%s</p>" % text(no_reading_words(view)))
    if len(pair) == 2:
        lines.append('<p>Two readings side by side. <span class="differ"></span></p>')
    kind = {0: " bare", 1: " single", 2: ""}[len(pair)]
    lines.append('<div class="columns%s"><div class="history">' % kind)
    lines += [head(view, pair)] + nested(view, number, pair) + ["</div>"]
    lines.append("" if view["result"] == "none" else '<aside class="panel" aria-live="polite"><p>The rules of the position under the pointer.</p></aside>')
    lines.append("</div>")
    return lines + (told_list(view) if view["told"] else []) + rules_table(view)


def section(view, number, numbers, alone):
    title, said = text(view["frame"]), text(summary(view))
    if alone:
        return ['<main class="frame" id="frame-%d"><h1>%s</h1><p>%s</p>' % (number, title, said)] + body(view, number, numbers) + ["</main>"]
    return ['<details class="frame" id="frame-%d"><summary><h2>%s</h2> <span class="soft">%s</span></summary>' % (number, title, said)] + body(
        view, number, numbers) + ["</details>"]


def index(views):
    lines = ["<h1>%s</h1>" % count_words(len(views), "frame"), "<table><tr><th>frame</th><th>tokens</th><th>choices</th><th>readings</th><th>result</th></tr>"]
    for number, view in enumerate(views, 1):
        cells = [view.get("tokens", "-"), view.get("choices", "-"), "over" if view.get("over") else view.get("readings", "-"), RESULTS[view["result"]]]
        lines.append('<tr><td><a href="#frame-%d">%s</a></td>%s</tr>' % (number, text(view["frame"]), "".join("<td>%s</td>" % cell for cell in cells)))
    return lines + ["</table>"]


# ---- the page
def digest(part):
    return "'sha256-%s'" % base64.b64encode(hashlib.sha256(part.encode()).digest()).decode()


def page(views, numbers, alone):
    """The whole page as bytes. `alone` says that one frame was asked for, and not a folder of frames."""
    policy = "default-src 'none'; style-src %s; script-src %s" % (digest(STYLE), digest(SCRIPT))
    lines = ["<!DOCTYPE html>", '<html lang="en"><head><meta charset="utf-8">', '<meta http-equiv="Content-Security-Policy" content="%s">' % policy,
             '<meta name="viewport" content="width=device-width, initial-scale=1">',
             "<title>%s</title>" % text(views[0]["frame"] if alone else count_words(len(views), "frame")), "<style>%s</style></head><body>" % STYLE]
    lines += [] if alone else index(views)
    for number, view in enumerate(views, 1):
        lines += section(view, number, numbers, alone)
    lines.append('<p class="soft">A choice is a position where two rules of one stage are possible. At a mark or an open stands the rule that makes it, at a close '
                 "the rule by which the inside of its step ends, at the end the rule by which the whole ends.</p>")
    return "\n".join(lines + ["<script>%s</script></body></html>" % SCRIPT, ""]).encode("utf-8")
