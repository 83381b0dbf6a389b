(function () {
  "use strict";
  var says = document.getElementById("says"), chosen = 0, count = Number(document.body.dataset.n);
  var row = function (number) { return document.getElementById("L" + number); };
  var all = function (query, where) { return Array.prototype.slice.call((where || document).querySelectorAll(query)); };
  var arrow = function (number) { var it = row(number); return it && it.dataset.a ? document.getElementById("a" + it.dataset.a) : null; };
  var otherEnd = function (number) {
    var it = arrow(number);
    if (!it) { return 0; }
    return Number(it.dataset.s) === number ? Number(it.dataset.h || 0) : Number(it.dataset.s || 0);
  };
  function clear() {
    all(".sel").forEach(function (it) { it.classList.remove("sel"); it.removeAttribute("aria-current"); if (it.tagName === "LI") { it.tabIndex = -1; } });
    all(".oth").forEach(function (it) { it.classList.remove("oth"); });
    all(".cursor").forEach(function (it) { it.remove(); });
  }
  // the last stave and its column that begin at the line or before it
  function columnOf(number) {
    var found = null;
    all(".stave").some(function (stave) {
      var firsts = stave.dataset.c.split(" ").map(Number);
      if (firsts[0] > number && found) { return true; }
      firsts.forEach(function (first, column) { if (first <= number) { found = { stave: stave, column: column }; } });
      return firsts[0] > number;
    });
    return found;
  }
  function mark(number) {
    var found = columnOf(number), said = [];
    if (!found) { return said; }
    var box = document.createElementNS("http://www.w3.org/2000/svg", "rect"), high = Number(found.stave.getAttribute("height"));
    box.setAttribute("class", "cursor");
    box.setAttribute("x", Number(found.stave.dataset.x) + found.column * found.stave.dataset.w + 1);
    box.setAttribute("y", 2);
    box.setAttribute("width", found.stave.dataset.w - 2);
    box.setAttribute("height", high - 5);
    found.stave.appendChild(box);
    all(".row", found.stave).forEach(function (line) {
      all(".stay", line).forEach(function (stay) {
        if (Number(stay.dataset.l) <= number && Number(stay.dataset.e) >= number) {
          said.push(line.querySelector(".id").lastChild.textContent + " " + stay.querySelector("title").textContent);
        }
      });
    });
    return said;
  }
  function add(parent, name, text) {
    var it = document.createElement(name);
    it.textContent = text;
    parent.appendChild(it);
  }
  // what is folded around a line is unfolded, and what the search hides is shown
  function unfold(it) {
    var fold = it.closest("details");
    if (fold && !fold.open) { fold.open = true; }
    [fold, it.closest(".piece")].forEach(function (part) { if (part) { part.classList.remove("none"); } });
  }
  function scriptOf(number) {
    for (var at = number; at >= 1 && at > number - 400; at -= 1) {
      var it = document.querySelector('.src li[data-l="' + at + '"]');
      if (it) { return it.title; }
    }
    return "";
  }
  function choose(number, jumps) {
    var it = row(number);
    if (!it) { return; }
    clear();
    unfold(it);
    chosen = number;
    it.classList.add("sel");
    it.setAttribute("aria-current", "true");
    it.tabIndex = 0;
    if (jumps) { it.scrollIntoView({ block: "nearest" }); it.focus({ preventScroll: true }); }
    var way = arrow(number), other = otherEnd(number);
    if (way) { all(".a" + it.dataset.a).forEach(function (part) { part.classList.add("sel"); }); }
    if (other) { row(other).classList.add("oth"); }
    says.textContent = "";
    add(says, "b", "Line " + number + " of the text: " + it.textContent);
    var script = scriptOf(number);
    if (script) { add(says, "div", "Script line " + script); }
    if (way) { add(says, "div", way.querySelector("title").textContent); }
    var standing = mark(number);
    add(says, "div", standing.length ? "After this line of the script, or this turn: " + standing.slice(0, 12).join(" \u00b7 ") + (standing.length > 12 ? " \u00b7 and " + (standing.length - 12) + " more" : "") : "No machine has a record here.");
  }
  function next(query, back) {
    var found = all(query).map(function (it) { return Number(it.dataset.s || it.id.slice(1)); }).sort(function (a, b) { return a - b; });
    if (back) { found = found.reverse(); }
    var it = found.filter(function (number) { return back ? number < chosen : number > chosen; })[0];
    if (it) { choose(it, true); }
  }
  function nextOfBoard(back) {
    var id = /[0-9a-f]{8}-[0-9a-f-]{27}/.exec(chosen ? row(chosen).textContent : "");
    for (var number = chosen + (back ? -1 : 1); id && number >= 1 && number <= count; number += back ? -1 : 1) {
      if (row(number) && row(number).textContent.indexOf(id[0]) >= 0) { choose(number, true); return; }
    }
  }
  document.addEventListener("click", function (event) {
    var li = event.target.closest("li[id]"), way = event.target.closest(".a"), part = event.target.closest("[data-l]"), svg = event.target.closest(".chart");
    if (li) { choose(Number(li.id.slice(1)), false); }
    else if (way) {
      var ends = [Number(way.dataset.s || 0), Number(way.dataset.h || 0)].filter(Boolean);
      choose(ends[0] === chosen && ends[1] ? ends[1] : ends[0], true);
    } else if (part) { choose(Number(part.dataset.l), true); }
    else if (svg) { choose(Number(svg.dataset.f) + Math.floor((event.clientY - svg.getBoundingClientRect().top) / (svg.getBoundingClientRect().height / svg.dataset.r)), false); }
  });
  document.addEventListener("keydown", function (event) {
    if (event.ctrlKey || event.altKey || event.metaKey || /^(INPUT|BUTTON|SUMMARY)$/.test(event.target.tagName || "")) { return; }
    if (event.key === "/" && find) { q.focus(); q.select(); event.preventDefault(); return; }
    var moves = { ArrowDown: 1, j: 1, ArrowUp: -1, k: -1, PageDown: 20, PageUp: -20 }, key = event.key;
    if (moves[key]) { choose(Math.max(1, Math.min(count, chosen + moves[key])), true); }
    else if (key === "Home") { choose(1, true); }
    else if (key === "End") { choose(count, true); }
    else if (key === "Enter") { if (otherEnd(chosen)) { choose(otherEnd(chosen), true); } else { return; } }
    else if (key === "b" || key === "B") { nextOfBoard(key === "B"); }
    else if (key === "m" || key === "M") { next("g.lost[data-s]", key === "M"); }
    else if (key === "u" || key === "U") { next("li.u", key === "U"); }
    else if (key === "Escape") { clear(); chosen = 0; says.textContent = says.dataset.first; }
    else { return; }
    event.preventDefault();
  });
  // the search: which boards it names, and which lines are its own
  var find = document.getElementById("find"), q = document.getElementById("q"), from = document.getElementById("from"), to = document.getElementById("to");
  var folds = document.getElementById("folds"), hits = document.getElementById("hits"), kind = document.body.dataset.k, timer = 0, found = [];
  var lines = all("ol > li[id]"), texts = lines.map(function (it) { return it.textContent.toLowerCase(); });
  var numbers = lines.map(function (it, at) { return kind === "merged" ? at + 1 : parseInt(it.textContent, 10) || 0; });
  var boards = {};
  all("#ways li[data-i], .words li[data-i]").forEach(function (it) {
    var head = /^([0-9a-f-]{36}) \(([^,)]*)(?:, ([^)]*))?\)/.exec(it.textContent);
    if (head) { boards[it.dataset.i] = [head[1], head[2], head[3] || ""].map(function (name) { return name.toLowerCase(); }); }
  });
  // a board by its whole short name or barcode, or by a part of its barcode or id
  function boardsOf(text) {
    var whole = Object.keys(boards).filter(function (id) { return boards[id][1] === text || boards[id][2] === text; });
    return whole.length ? whole : Object.keys(boards).filter(function (id) {
      return text.length > 2 && (boards[id][2].indexOf(text) >= 0 || boards[id][0].indexOf(text) >= 0);
    });
  }
  function show() {
    var text = q.value.trim().toLowerCase(), low = parseInt(from.value, 10) || 0, high = parseInt(to.value, 10) || Infinity;
    var ids = text ? boardsOf(text) : [], isFiltered = Boolean(text) || low > 0 || high < Infinity, of = {}, inRange = {};
    ids.forEach(function (id) { of[id] = true; });
    found = [];
    lines.forEach(function (it, at) {
      var here = texts[at], isIn = numbers[at] >= low && numbers[at] <= high;
      var isFound = isIn && (!text || (ids.length ? ids.some(function (id) { return here.indexOf(id) >= 0; }) : here.indexOf(text) >= 0));
      if (isIn) { inRange[at + 1] = true; }
      if (isFound) { found.push(at + 1); }
      it.classList.toggle("dim", isFiltered && !isFound);
    });
    var marks = new Set(found);
    all(".piece").forEach(function (piece) {
      var chart = piece.querySelector(".chart"), first = Number(chart.dataset.f), has = !isFiltered;
      for (var number = first; !has && number < first + Number(chart.dataset.r); number += 1) { has = marks.has(number); }
      piece.classList.toggle("none", !has);
    });
    all("details.fold").forEach(function (fold) {
      var has = Boolean(fold.querySelector(".piece:not(.none)"));
      fold.classList.toggle("none", !has);
      fold.open = isFiltered ? has : !folds.checked;
    });
    all("details.staves").forEach(function (it) { if (isFiltered) { it.open = true; } });
    all(".ways tr[data-i], .words li[data-i], #ways li[data-i]").forEach(function (it) { it.classList.toggle("none", ids.length > 0 && !of[it.dataset.i]); });
    all("details.words").forEach(function (it) {
      if (ids.length) { it.open = true; }
      it.classList.toggle("none", ids.length > 0 && !it.querySelector("li:not(.none)"));
    });
    all(".stave").forEach(function (stave) {
      var has = stave.dataset.c.split(" ").some(function (first) { return inRange[first]; });
      var rows = all(".row", stave);
      rows.forEach(function (it) { it.classList.toggle("dim", ids.length > 0 && !of[it.dataset.i]); });
      stave.classList.toggle("none", isFiltered && (!has || ids.length > 0 && !rows.some(function (it) { return of[it.dataset.i]; })));
    });
    hits.textContent = !isFiltered ? "" : (ids.length ? ids.length + (ids.length === 1 ? " board, " : " boards, ") : "") + found.length + (found.length === 1 ? " line" : " lines");
  }
  function later() { clearTimeout(timer); timer = setTimeout(show, count > 5000 ? 400 : 120); }
  [q, from, to].forEach(function (it) { it.addEventListener("input", later); });
  folds.addEventListener("change", show);
  document.getElementById("none").addEventListener("click", function () { q.value = from.value = to.value = ""; show(); });
  find.addEventListener("submit", function (event) {
    event.preventDefault();
    show();
    var next = found.filter(function (number) { return number > chosen; })[0] || found[0];
    if (next) { choose(next, true); q.focus(); }
  });
  find.hidden = false;
  says.dataset.first = says.textContent;
  var named = /^#L([0-9]+)$/.exec(location.hash);
  if (named) { choose(Number(named[1]), true); }
  window.addEventListener("hashchange", function () { var to = /^#L([0-9]+)$/.exec(location.hash); if (to) { choose(Number(to[1]), true); } });
})();
