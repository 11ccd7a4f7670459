"""The style and the script of the page that ./explain --html writes; both are put into the page, which needs no other file."""

STYLE = """
:root { color-scheme: light dark; --ink: #1c1e21; --paper: #fff; --soft: #5b6470; --line: #cfd5dc; --choice: #b54708; --choice-paper: #fff3e0;
  --follows: #175cd3; --follows-paper: #eef4ff; --apart: #fde68a; --pointed: #e6e9ee; }
@media (prefers-color-scheme: dark) {
  :root { --ink: #e6e8eb; --paper: #17191c; --soft: #a3acb8; --line: #3d444d; --choice: #ffb066; --choice-paper: #3a2a14;
    --follows: #8ab8ff; --follows-paper: #17263d; --apart: #6b5a10; --pointed: #2b3036; }
}
body { margin: 1.5rem auto; max-width: 78rem; padding: 0 1rem; color: var(--ink); background: var(--paper); font: 16px/1.45 system-ui, sans-serif; }
h1 { font-size: 1.5rem; margin: 0 0 .3rem; overflow-wrap: anywhere; }
h2 { font-size: 1.15rem; margin: 0; overflow-wrap: anywhere; }
p { margin: .4rem 0; }
table { border-collapse: collapse; }
th, td { text-align: left; vertical-align: top; padding: .2rem .7rem .2rem 0; border-bottom: 1px solid var(--line); overflow-wrap: anywhere; }
th { font-weight: 600; }
details.frame { border-top: 2px solid var(--line); padding: .6rem 0; content-visibility: auto; contain-intrinsic-size: auto 3rem; }
summary { cursor: pointer; }
summary h2 { display: inline; }
.soft, .note, .where { color: var(--soft); }
.columns { display: grid; grid-template-columns: minmax(0, 1fr) 21rem; gap: 1.5rem; align-items: start; }
.row { display: grid; grid-template-columns: 2.6rem minmax(0, 1fr) 4.5rem 8rem 5rem 5rem; align-items: baseline; gap: .4rem; padding: .12rem .3rem; border-left: 4px solid transparent; }
.single .row { grid-template-columns: 2.6rem minmax(0, 1fr) 4.5rem 8rem 5rem; }
.bare .row { grid-template-columns: 2.6rem minmax(0, 1fr) 9rem; }
.row[data-at]:hover, .row.pointed { box-shadow: inset 0 0 0 2px var(--soft); }
.row:focus { outline: none; }
.row:focus-visible { outline: 2px solid var(--follows); }
.head { align-items: end; font-weight: 600; border-bottom: 1px solid var(--line); position: sticky; top: 0; background: var(--paper); z-index: 1; }
.at { color: var(--soft); text-align: right; font-variant-numeric: tabular-nums; }
.token { overflow-wrap: anywhere; }
.inside { margin-left: 1.6rem; border-left: 3px solid var(--soft); }
.deep { margin-left: 0; border-left-width: 1px; }
.choice { border-left-color: var(--choice); background: var(--choice-paper); }
.choice .state { color: var(--choice); font-weight: 700; }
.follows { border-left-color: var(--follows); background: var(--follows-paper); }
.follows .state, .stop .state { color: var(--follows); }
.stop { border-top: 2px dashed var(--choice); }
.rule { display: inline-block; font-style: normal; min-width: 1.5rem; padding: 0 .2rem; border: 1px solid var(--line); border-radius: .25rem; text-align: center; margin-right: .2rem;
  font-variant-numeric: tabular-nums; background: var(--paper); }
.apart .one, .apart .two { background: var(--apart); font-weight: 700; }
.panel { position: sticky; top: .5rem; border: 1px solid var(--line); border-radius: .4rem; padding: .7rem .9rem; overflow-wrap: anywhere; max-height: 95vh; overflow-y: auto; }
.panel h3 { font-size: 1rem; margin: 0 0 .4rem; }
.panel ul { margin: .2rem 0 .6rem; padding-left: 1.1rem; }
.panel li.pointed { background: var(--pointed); }
.told li::before { content: attr(data-reading) ": "; }
.told { max-height: 12rem; overflow-y: auto; font-variant-numeric: tabular-nums; overflow-wrap: anywhere; list-style: none; padding: 0; }
@media (max-width: 60rem) { .columns { grid-template-columns: minmax(0, 1fr); } .panel { position: sticky; bottom: 0; top: auto; background: var(--paper); max-height: 40vh; } }
@media print { .panel { display: none; } .columns { display: block; } .head { position: static; } }
"""

SCRIPT = """
"use strict";
(function () {
  function element(name, text, parent) {
    var made = document.createElement(name);
    made.textContent = text;
    parent.appendChild(made);
    return made;
  }

  function prepare(frame) {
    var panel = frame.querySelector(".panel"), rows = Array.from(frame.querySelectorAll(".row[data-at]")), rules = {}, told = {};
    frame.querySelectorAll(".rules tr[data-rule]").forEach(function (row) { rules[row.dataset.rule] = row; });
    frame.querySelectorAll(".told li").forEach(function (row) { told[row.dataset.reading] = row.textContent.split(" "); });

    function says(row) {
      return row.classList.contains("choice") ? "A choice: two rules or more of one stage can stand here, and the history does not say which." :
        row.classList.contains("follows") ? "This follows from the choices before it: each stage has one rule here." : "Every reading has the same rule here.";
    }

    /* The position under the pointer, its rules in their order, and the one of them that is pointed at. */
    function show(row, only) {
      if (!panel) { return; }
      rows.forEach(function (other) { other.classList.toggle("pointed", other === row); });
      panel.textContent = "";
      element("h3", "position " + row.dataset.at + ": " + row.dataset.place, panel);
      element("p", says(row), panel);
      var list = element("ul", "", panel);
      row.querySelectorAll(".set .rule").forEach(function (chip) {
        var number = chip.textContent, item = element("li", "", list), cells = rules[number].cells;
        item.classList.toggle("pointed", number === only);
        element("b", "rule " + number + ", of stage " + rules[number].dataset.stage, item);
        if (cells[2].textContent) { element("div", cells[2].textContent, item); }
        element("div", cells[3].textContent, item);
        if (cells[4].textContent) { element("div", cells[4].textContent, item).className = "where"; }
      });
    }

    function pointed(event) {
      var row = event.target.closest && event.target.closest(".row[data-at]"), rule = event.target.closest && event.target.closest(".rule");
      if (row) { show(row, rule && rule.textContent); }
    }
    frame.addEventListener("pointerover", pointed);
    frame.addEventListener("focusin", pointed);

    /* Two readings side by side: at each position the rule of either, marked where they differ. */
    var picks = Array.from(frame.querySelectorAll("select"));
    function sideBySide() {
      var pair = picks.map(function (pick) { return told[pick.value]; }), differ = 0, apart = [];
      rows.forEach(function (row, at) {
        ["one", "two"].forEach(function (name, which) {
          row.querySelector("." + name + " .rule").textContent = pair[which][at];
        });
        var other = pair[0][at] !== pair[1][at];
        row.classList.toggle("apart", other);
        differ += other;
        if (other && rules[pair[0][at]].dataset.stage === rules[pair[1][at]].dataset.stage) { apart.push(at); }
      });
      frame.querySelector(".differ").textContent = differ === 0 ? "These are the same reading." : "They differ at " + differ + " of the " + rows.length +
        " positions, and go apart at " + (apart.length === 1 ? "1 choice: position " : apart.length + " choices: positions ") + apart.join(", ") + ".";
    }
    picks.forEach(function (pick) { pick.addEventListener("change", sideBySide); });
    if (picks.length === 2) { sideBySide(); }
    frame.show = show;
    var first = frame.querySelector(".row.choice");
    if (first) { show(first); }
  }

  /* A link to a frame or a position opens the frame and tells the position. */
  function go() {
    var target = location.hash && document.getElementById(location.hash.slice(1)), frame = target && target.closest(".frame");
    if (!frame) { return; }
    if (frame.tagName === "DETAILS") { frame.open = true; }
    ready(frame);
    if (target.matches(".row")) { frame.show(target); }
    target.scrollIntoView({ block: "nearest" });
  }

  /* A frame is made ready when it is first looked at: a page may have many. */
  function ready(frame) {
    if (!frame.show) { prepare(frame); }
  }
  document.querySelectorAll(".frame").forEach(function (frame) {
    if (frame.tagName === "DETAILS") { frame.addEventListener("toggle", function () { ready(frame); }); } else { ready(frame); }
  });
  window.addEventListener("hashchange", go);
  go();
})();
"""
