"""One page that needs nothing else: the custody chart, the sequence chart, and the text, from the bytes of a text."""
import os
import textwrap
from collections import Counter
from html import escape

import links as meanings
from custody import Custody, is_alarm, is_lost, line_of_alarm, line_of_loss
from custody_chart import CustodyChart
from fold import Folds
from forms import LOG, MERGED, MOST_LINES, REPORT, clean, machine_of, read_text
from given import Given, take_barcodes
from sequence import COLOURS, HIGH, Sequence, short_ids
from ways import SIGN, Ways

HERE = os.path.dirname(os.path.abspath(__file__))
KINDS = {REPORT: "report of a line", MERGED: "merged log of a line", LOG: "log of one node"}
# of how many lines a note names the first ones
MOST_NAMED = 30
# of more records than these the words, and of more parts the chart, are shown when they are asked for
MOST_WORDS, MOST_STAVES = 12, 6
# how many characters of a comment fit beside the text
WIDE_SCRIPT = 54


def part(name):
    """A part of the page that is a file of its own."""
    with open(os.path.join(HERE, name), encoding="utf-8") as file:
        return file.read()


def line_links(numbers):
    """The numbers of lines, each leading to its line."""
    numbers = list(numbers)
    said = ", ".join(f'<a href="#L{number}">{number}</a>' for number in numbers[:MOST_NAMED])
    return said + (f" and {len(numbers) - MOST_NAMED} more" if len(numbers) > MOST_NAMED else "")


def many(count, what):
    return f"{count} {what}" + ("" if count == 1 else "s")


def lines_said(count):
    return many(count, "line")


def places_said(columns):
    """What a place is, where there are several lanes."""
    return " m.l is machine m on its lane l, and m alone its lane 1." if len(columns.lanes) > 1 else ""


def defs(heads):
    """Stripes of two machines' colours, for a record that is in a handover between them; and the titles of the columns."""
    patterns = []
    for colour in range(COLOURS):
        after = (colour + 1) % COLOURS
        patterns.append(f'<pattern id="p{colour}" width="12" height="12" patternUnits="userSpaceOnUse" patternTransform="rotate(45)">'
                        f'<rect width="6" height="12" style="fill:var(--m{colour})"/><rect x="6" width="6" height="12" style="fill:var(--m{after})"/></pattern>')
    return f'<svg width="0" height="0" style="position:absolute" aria-hidden="true"><defs>{"".join(patterns)}<g id="heads">{heads}</g></defs></svg>'


def sample(inner, text, wide=34):
    return f'<span><svg width="{wide}" height="16" viewBox="0 0 {wide} 16" aria-hidden="true">{inner}</svg>{escape(text)}</span>'


def custody_legend():
    bar = lambda fill: f'<rect class="bar" x="1" y="1" width="32" height="14" {fill}/>'
    return '<p class="legend">' + "".join((
        sample(bar('style="fill:var(--m0)"'), "with a machine: it keeps the record"),
        sample(bar('fill="url(#p0)"'), "in a handover between two: 1+2 both have it, 1\u2192 the upper alone, \u21922 the lower alone"),
        sample('<rect class="bar alarm" x="1" y="1" width="32" height="14"/>', "no standing, or two"),
        sample('<path class="end" d="M2 1v14"/>', "the last mark went: taken out or replaced", 12),
        sample(f'<rect class="bar alarm" x="1" y="1" width="46" height="14"/><text class="bart onalarm" x="4" y="12">{SIGN} lost</text>',
               "dropped or let go, and no hand took the board", 48),
        sample('<path class="rule" d="M4 0v16M8 0v16"/>', "from here on nothing is guaranteed", 14),
    )) + "</p>"


def sequence_legend():
    line, tip = "M2 8H26", '<path class="head" d="M33 8l-8 3.4v-6.8z"/>'
    cross = '<path class="cross" d="M24 4l8 8m0 -8l-8 8"/>'
    return '<p class="legend">' + "".join((
        sample(f'<g class="a"><path d="{line}"/></g>{tip}', "sent, and heard"),
        sample(f'<g class="a lost"><path d="{line}"/></g>{cross}', "never heard as it was sent: cut, lost at a close, refused"),
        sample(f'<g class="a lost"><path d="{line}"/></g><circle class="ring" cx="29" cy="8" r="3"/>', "on its way at the end"),
        sample(f'<g class="a stub"><path d="{line}"/></g>{tip}', "its other end isn't in the text"),
        sample('<path class="conn" d="M7 0v16"/>', "this end has a connection", 14),
        sample('<path class="board" d="M2 8h30"/><rect class="pcb" x="8" y="2" width="18" height="12" rx="2"/>', "where the board lies"),
        sample('<path class="sensor" d="M2 8l5 -5l5 5l-5 5z"/>', "a sensor was read", 14),
        sample('<circle class="deed" cx="7" cy="8" r="4"/>', "something is done to a record", 14),
        sample('<path class="level" d="M5 0v16M9 0v16"/>', "a signal or a drive is on", 14),
        sample('<path class="no" d="M0 8h34"/>', "refused, nothing done"),
    )) + "</p>"


def notes(read, custody, messages, given):
    """What a reader has to know first: what isn't known, what isn't drawn, what doesn't agree."""
    said = []
    alarms = [row for row in custody.rows.values() if any(is_alarm(stay) for stay in row.stays)]
    if alarms:
        lines = sorted({line_of_alarm(custody.groups[stay.begins], read.kind) for row in alarms for stay in row.stays if is_alarm(stay)})
        said.append(("bad1", f"{many(len(alarms), 'record')} of no standing, or of two, from line {line_links(lines)} on."))
    lost = [line_of_loss(row, stay) for row in custody.rows.values() for stay in row.stays if is_lost(stay, read.kind)]
    if lost:
        said.append(("bad1", f"{SIGN} {many(len(lost), 'record')} lost: no machine had {'it' if len(lost) == 1 else 'them'} any more, and no hand took the "
                     f"board{'' if len(lost) == 1 else 's'}: line {line_links(sorted(lost))}."))
    lines = sorted({line.number for row in custody.rows.values() for _, _, line in row.alarms})
    if lines:
        said.append(("warn", f"A deed that the deeds before it don't allow: line {line_links(lines)}."))
    if read.kind == MERGED and (alarms or lines):
        named = min([line_of_alarm(custody.groups[stay.begins], read.kind) for row in alarms for stay in row.stays if is_alarm(stay)] + lines)
        said.append(("note", f"<code>line check</code> answers <code>no</code> for line {line_links([named])}, as far as the deeds go; for a record "
                     "without a standing it names the last line of the turn."))
    if custody.differing:
        lines = [custody.groups[number].first for number in custody.differing]
        said.append(("warn", f"What the report tells of standings isn't what its deeds give, at line {line_links(lines)}."))
    if read.unvouched is not None:
        line = read.lines[read.unvouched - 1].group[0]
        said.append(("warn", f'From <a href="#L{read.unvouched}">line {line} of the script</a> on nothing is guaranteed: that line gave a false sensor reading.'))
    backward = [message.heard.number for message in messages if message.fate == meanings.BACKWARD]
    if backward:
        said.append(("warn", f"Heard before it was sent, in the order of this text: line {line_links(backward)}."))
    if read.unknown:
        said.append(("warn", f"{lines_said(len(read.unknown))} of the text {'is' if len(read.unknown) == 1 else 'are'} not known and only shown as text: "
                     + line_links(line.number for line in read.unknown) + "."))
    if read.count > len(read.lines):
        said.append(("warn", f"The text has {read.count} lines. The first {MOST_LINES} are drawn, and what comes after them is not."))
    if read.cut_short:
        said.append(("note", f"{lines_said(read.cut_short)} too long to be shown whole; how much more there is, is at the end of each."))
    if read.strange:
        said.append(("note", f"{read.strange} characters that a page can't have are shown by others."))
    if read.kind == REPORT and read.last is None:
        said.append(("note", "The report has no last line: it may be cut off."))
    if given.script is not None and read.last is not None and read.last.text.startswith("end lines="):
        count = int(read.last.text.split("=")[1].split(" ")[0])
        if count != len(given.script):
            said.append(("warn", f"The script that was given has {lines_said(len(given.script))}, and the report is of {count}: it may be another one."))
    if read.last is not None and read.last.text.startswith("refused"):
        said.append(("note", f'The script was refused at its end: {escape(read.last.text)}.'))
    return "".join(f'<p class="{name}">{text}</p>' for name, text in said)


def summary(read, custody, messages, sequence):
    """The text in one sentence."""
    fates = Counter(message.fate for message in messages)
    told = {meanings.ARRIVED: "heard", meanings.REFUSED: "refused", meanings.CUT: "cut", meanings.VANISHED: "lost as a connection ended",
            meanings.UNSENT: "gone without a connection", meanings.WAITING: "on their way at the end", meanings.ALONE: "of which the other end isn't here",
            meanings.BACKWARD: "heard before they were sent"}
    came = ", ".join(f"{fates[fate]} {text}" for fate, text in told.items() if fates[fate])
    machines = len({machine_of(place) for place in sequence.columns.places})
    said = [int(line.rest[0]) for line in read.lines if line.word == "lanes"]
    lanes = max(said[-1:] + sequence.columns.lanes)
    return (f"{KINDS[read.kind].capitalize()}: {lines_said(read.count)}, {many(machines, 'machine')}{f' with {lanes} lanes' if lanes > 1 else ''}, "
            f"{many(len(custody.rows), 'board record')}, {many(len(messages), 'message')}{f' ({came})' if came else ''}.")


def items(read, sequence, first, last):
    """The text's lines of a piece."""
    made = []
    for line in read.lines[first:last]:
        names = ("o" if line.number in sequence.odd else "") + (" u" if line.why else "") + (" n" if line.word in ("no:", "refused:") else "") \
            + (" v" if line.number == read.unvouched else "")
        mark = f' class="{names.strip()}"' if names.strip() else ""
        arrow = sequence.arrow_of.get(line.number)
        way = f' data-a="{arrow}"' if arrow is not None else ""
        why = f' title="{escape(line.why)}"' if line.why else ""
        made.append(f'<li id="L{line.number}"{mark}{way}{why}>{escape(line.text, quote=False)}</li>')
    return "".join(made)


def sources(read, given, first, last):
    """Beside the text's lines of a piece: the line of the script that each is of, with the comments before it."""
    made, before, at = [], given_before(read, given, first), first
    while at < last:
        line, end = read.lines[at], at + 1
        number = line.group[0] if line.group and line.word is not None else None
        said = given.said(number, before) if number is not None and number != before else None
        while end < last and said is not None and read.lines[end].group == line.group:
            end += 1
        before = max(before, number or 0)
        made += source_rows(line, number, *said, end - at) if said is not None else ["<li></li>"]
        at = end
    return f'<ol class="src" aria-label="The script">{"".join(made)}</ol>'


def source_rows(line, number, own, note, count):
    """A line of the script over the rows of what it did: its comment comes under it where there is room."""
    told = escape(f"{number}: {own}" + (f" # {note}" if note else ""))
    rows = textwrap.wrap(note, WIDE_SCRIPT)
    if len(rows) >= count:       # the last row has the rest, and is cut where it is shown
        rows = rows[:max(count - 2, 0)] + [" ".join(rows[max(count - 2, 0):])]
    first = f"<b>{escape(own)}</b>"
    if count == 1 and rows:
        first, rows = f"{first} <i>{escape(rows[0])}</i>", []
    made = [f'<li data-l="{line.number}" title="{told}">{first}</li>']
    made += [f'<li title="{told}"><i>{escape(row)}</i></li>' for row in rows]
    return made + ["<li></li>"] * (count - len(made))


def given_before(read, given, first):
    """The last line of the script of which a line of the text before a piece tells."""
    return next((line.group[0] for line in reversed(read.lines[:first]) if line.group and line.word is not None), 0)


def piece(read, sequence, number, parts, given):
    """A piece of the text with its piece of the chart."""
    first, last = sequence.starts[number], (sequence.starts + [len(read.lines)])[number + 1]
    high, wide = (last - first) * HIGH, sequence.columns.width
    title = f"Sequence chart, lines {first + 1} to {last} of the text"
    chart = "".join(parts["under"] + parts["arrows"] + parts["over"])
    script = sources(read, given, first, last) if given.script is not None else ""
    return (f'<div class="piece" style="contain-intrinsic-size:auto {high}px"><svg class="printhead" aria-hidden="true" width="{wide:g}" height="40"><use href="#heads"/></svg>{script}'
            f'<ol id="P{number}" start="{first + 1}" aria-label="Lines {first + 1} to {last}">{items(read, sequence, first, last)}</ol>'
            f'<svg class="chart" role="img" aria-label="{title}" aria-describedby="P{number}" data-f="{first + 1}" data-r="{last - first}" width="{wide:g}" height="{high}" viewBox="0 0 {wide:g} {high}">'
            f"<title>{title}</title>{chart}</svg></div>")


def run_said(read, run, short):
    """What is folded, in words."""
    ids = [short[id] for id in run.ids]
    boards = f"; boards {ids[0]}" + (f" to {ids[-1]}" if len(ids) > 2 else f" and {ids[1]}" if len(ids) == 2 else "") if ids else ""
    return f"lines {run.first} to {run.last} of the text: {many(run.handed, 'handover')}, undisturbed{escape(boards)}"


def all_pieces(read, sequence, pieces, runs, given, short):
    """The pieces one after another, those of a run folded."""
    made, now = [], None
    for number, parts in enumerate(pieces):
        run = runs[number]
        if run is not now:
            made.append(("</details>" if now else "") + (f'<details class="fold"><summary>{run_said(read, run, short)}</summary>' if run else ""))
            now = run
        made.append(piece(read, sequence, number, parts, given))
    return "".join(made) + ("</details>" if now else "")


def ways_in_words(chart, custody, folds, given, short, kind):
    """Each record's way in words; of many first those that something happened to."""
    odd_ids = {span.id for span in folds.spans if not span.is_quiet()}
    said = chart.in_words(given.machines)
    named = lambda id: f"{escape(short[id])}" + (f", {escape(given.boards[id])}" if id in given.boards else "")
    item = lambda id, words: f'<li data-i="{id}"><code>{id}</code> ({named(id)}): {escape(words)}.</li>'
    is_odd = lambda row: row.id in odd_ids or row.alarms or any(is_lost(stay, kind) or is_alarm(stay) for stay in row.stays)
    odd = [it for it in said if is_odd(custody.rows[it[0]])]
    if len(said) <= MOST_WORDS:
        return f'<ol id="ways" class="words">{"".join(item(*it) for it in said) or "<li>none</li>"}</ol>'
    first = f'<ol class="words">{"".join(item(*it) for it in odd[:MOST_WORDS * 4])}</ol>' if odd else ""
    rest = said if len(odd) > MOST_WORDS * 4 else [it for it in said if it not in odd]
    return (f'{first}<details class="words"><summary>The way of {"the other " if odd else ""}{many(len(rest), "record")}</summary>'
            f'<ol id="ways">{"".join(item(*it) for it in rest)}</ol></details>')


def filter_bar(read):
    """What finds boards and lines; shown where the page's script runs."""
    of = {REPORT: "line of the script", LOG: "turn", MERGED: "line of the text"}[read.kind]
    return ('<form id="find" hidden="hidden" role="search"><label>Board or text <input id="q" type="search" size="22" autocomplete="off"/></label> '
            f'<label>from {of} <input id="from" inputmode="numeric" size="6"/></label> <label>to <input id="to" inputmode="numeric" size="6"/></label> '
            '<label><input id="folds" type="checkbox" checked="checked"/> fold what is undisturbed</label> '
            '<button type="button" id="none">all</button> <output id="hits"></output></form>')


def page_of(data, title=None, kind=None, given=None):
    """The page of the bytes of a text, as a text; `Refused` where nothing can be drawn."""
    read, given = read_text(data, kind), given or Given()
    take_barcodes(read, given)
    messages, bars = meanings.links_of(read)
    custody, folds = Custody(read), Folds(read, messages)
    ids = dict.fromkeys(custody.rows)
    ids.update(dict.fromkeys(id for line in read.lines for id in line.ids))
    short = short_ids(ids)
    starts = folds.pieces()
    sequence = Sequence(read, messages, bars, short, [start for start, _ in starts], given.machines)
    pieces = sequence.draw()
    chart = CustodyChart(read, custody, short, sequence.columns, given)
    staves = chart.draw()
    title = clean(title)[0] if title else f"Picture of a {KINDS[read.kind]}"
    what = {REPORT: "line of the script", LOG: "turn", MERGED: "machine and turn"}[read.kind]
    columns = f"A column for each {what} that the text names" if chart.is_every else \
        f"A column for each {what} at which something is done to a record; between two columns nothing changes"
    heads = (f'<svg width="{sequence.columns.width:g}" height="40" role="img" aria-label="The machines, the first one first"><use href="#heads"/></svg>')
    text_wide = 790 if given.script is not None else 440
    zoom = min(1.0, 1040 / (text_wide + sequence.columns.width))
    says = f"<style>/*<![CDATA[*/{part('page.css')}@media print{{.seq{{zoom:{max(zoom, 0.3):.2f}}}.stave{{zoom:.86}}}}/*]]>*/</style>"
    table = Ways(read, custody, folds, short, sequence.columns, given).draw() if read.kind != LOG else ""
    words = f'<h2 id="words">In words</h2>{ways_in_words(chart, custody, folds, given, short, read.kind)}'
    both = [words, f'<h2 id="boards">Each board</h2><p class="soft">Under a machine: the {"line of the text" if read.kind == MERGED else what} from which on it keeps '
            f'the record. \u2192 an undisturbed handover, {SIGN} a disturbed one.</p>{table}' if table else ""]
    drawn = "".join(staves) or '<p class="soft">No record comes up in this text.</p>'
    if len(staves) > MOST_STAVES:
        drawn = f'<details class="staves"><summary>The chart, in {len(staves)} parts</summary>{drawn}</details>'
    named = f' class="{"scripted" if given.script is not None else ""}"' if given.script is not None else ""
    script_head = '<div class="script">the script</div>' if given.script is not None else ""
    return "".join((
        '<!DOCTYPE html>\n<html xmlns="http://www.w3.org/1999/xhtml" lang="en" xml:lang="en"><head><meta charset="utf-8"/>',
        '<meta name="viewport" content="width=device-width"/>',
        """<meta http-equiv="Content-Security-Policy" content="default-src 'none'; style-src 'unsafe-inline'; script-src 'unsafe-inline'"/>""",
        f"<title>{escape(title)}</title>{says}</head><body data-n=\"{len(read.lines)}\" data-k=\"{read.kind.split(' ')[0]}\"{named}>",
        defs(sequence.heads()), f"<h1>{escape(title)}</h1><p>{escape(summary(read, custody, messages, sequence))}</p>",
        '<nav aria-label="Parts"><a href="#words">In words</a> \u00b7 ', '<a href="#boards">Each board</a> \u00b7 ' if table else "",
        '<a href="#custody">Who has each record</a> \u00b7 <a href="#sequence">What was said and done</a></nav>',
        filter_bar(read), notes(read, custody, messages, given),
        *(reversed(both) if len(custody.rows) > MOST_WORDS else both),
        f'<h2 id="custody">Who has each record</h2><p class="soft">{columns}; what is drawn in it is what holds after it. '
        f"A board m#c is the c-th whose id machine m made; hover it for the id.{places_said(sequence.columns)}</p>",
        custody_legend(), drawn,
        '<h2 id="sequence">What was said and done</h2><p class="soft">Each line of the text with its row of the chart. <span class="keys">Click a line or an arrow, or use the keys: '
        "<kbd>\u2193</kbd> <kbd>\u2191</kbd> next and last line, <kbd>Enter</kbd> the other end of its message, <kbd>b</kbd> next line of the same board, "
        "<kbd>m</kbd> next message that was not heard, <kbd>u</kbd> next line that isn't known, with Shift backwards, <kbd>/</kbd> search, <kbd>Esc</kbd> none.</span></p>",
        sequence_legend(), f'<div class="seq"><div class="heads">{script_head}<div class="says">the text</div>', heads, "</div>",
        all_pieces(read, sequence, pieces, [run for _, run in starts], given, short), "</div>",
        '<p class="soft">Drawn by bin/picture from the text alone. Nothing of the drawing is proved: where it and the text differ, the text is right.</p>',
        '<div id="says" role="status" aria-live="polite">Choose a line: what became of its message, and who has each record after it.</div>',
        f"<script>/*<![CDATA[*/{part('page.js')}/*]]>*/</script></body></html>\n"))
