"""Draws histories by the program stamped_picture, and looks at what it drew.

    pictures.py PROGRAM [FOLDER]

Each picture is XML; it has a bar for each entry up to the first fault that the window shows, in its thread's
lane, with as much of its call and reply as has room, and a mark for each of them whose point is in the window; a
faulty entry is of another class. Of one window bars and marks, and of two pictures ribbon, content and axis, stand
where it is written here. Columns are as wide as is written here, by how many there are. In characters, some pictures
are those that are written here, each is cut off where it is told, and a cut line says so; words that are no form are
refused, and options come in any order. Those of docs/pictures are made again and compared. With FOLDER all of them are written there: so
`pictures.py PROGRAM docs/pictures` makes those pages' pictures again (it leaves the others there, which are
not kept).

The data of pages are those that are written here, and a picture of the order in them says that it is in order.
Where there is a Chromium, it draws each page, and shows the verdict that is written here. At first a few calls are all
in view, and of many the fault stands in the middle. The pointer and the keys find each call's text; bars have the
colours of what they are; the calls within a picked one are marked, and those around it; calls of a thread that overlap
don't cover one another; and the wheel zooms and moves. It has 20,000 calls at once."""
import html
import itertools
import json
import os
import re
import shutil
import subprocess
import sys
import tempfile
import xml.etree.ElementTree as xml

SVG = "{http://www.w3.org/2000/svg}"
KEPT = os.path.join(os.path.dirname(__file__), "..", "docs", "pictures")
LANES_TOP, LANE_HEIGHT = 120, 44


def entry(thread, call, reply, first, point, last):
    return {"call": call, "first": first, "last": last, "point": point, "reply": reply, "thread": thread}


def history(entries, width=0):
    """A history of layout 1."""
    return {"entries": entries, "format": 1, "readers": 127, "versions": 1000, "width": width}


def at(position, thread, call, reply):
    """An entry that has one position."""
    return entry(thread, call, reply, position, position, position)


def call_text(call):
    return " ".join([call[0], *map(str, call[1:])])


def reply_text(reply):
    return f"= count {reply['count']}" if isinstance(reply, dict) else f"= {reply}"


SCHEDULE = [
    entry(1, ["try_write"], 384, 1, 2, 2),
    entry(1, ["unlock_write", 384], "done", 3, 4, 4),
    entry(0, ["try_write"], 640, 0, 6, 6),
]
TORN_GET = [
    entry(0, ["put", [1, 2]], "done", 0, 3, 4),
    entry(1, ["put", [3, 4]], "done", 1, 6, 7),
    entry(2, ["get"], [1, 4], 2, 8, 9),
]
RIGHT_GET = [
    entry(0, ["put", [1, 2]], "done", 0, 3, 7),
    entry(1, ["put", [3, 4]], "done", 1, 5, 6),
    entry(2, ["get"], [3, 4], 2, 8, 9),
]
# Readers of guarded data, whose calls of the lock have lanes of their own; one of these goes on for longer. In the lane
# of thread 2 there are both.
GUARDED = [
    entry(24, ["optimistic"], 256, 1, 1, 2),
    entry(0, ["get"], [0], 0, 3, 9),
    entry(25, ["optimistic"], 256, 4, 4, 6),
    entry(26, ["is_write_locked"], "no", 5, 6, 11),
    entry(24, ["validate", 256], "yes", 7, 7, 8),
    entry(1, ["get"], [0], 3, 10, 14),
    entry(25, ["validate", 256], "yes", 12, 12, 13),
    entry(26, ["optimistic"], 256, 16, 16, 17),
    entry(2, ["get"], [0], 15, 17, 18),
    entry(2, ["read_count"], {"count": 0}, 19, 19, 20),
]
MANY = [entry(n, ["try_read"], 257 + n, n, 64 + n, 128 + n) for n in range(64)]
READ = at(0, 0, ["try_read"], 257)
FAULTS = {
    "interval": [READ, entry(1, ["try_read"], 258, 4, 2, 6)],
    "order": [READ, entry(1, ["try_read"], 258, 1, 5, 6), entry(2, ["try_read"], 259, 2, 4, 7)],
    "overlap": [entry(0, ["try_read"], 257, 0, 1, 5), entry(0, ["try_read"], 258, 3, 6, 7)],
    "reply": [*SCHEDULE[:2], entry(0, ["try_write"], 384, 0, 6, 6)],
    "wait": [READ, at(1, 1, ["write_lock"], 384)],
}
PICTURES = {
    "schedule": (history(SCHEDULE), [], None),
    "torn_get": (history(TORN_GET, 2), [], 2),
    "guarded": (history(GUARDED, 1), [], None),
    "many_threads": (history(MANY), [], None),
    "window": (history(MANY), ["--from", "130", "--to", "131"], None),
    "window_of_a_put": (history(RIGHT_GET, 2), ["--from", "4", "--to", "7"], None),
    "window_of_a_point": (history(FAULTS["interval"]), ["--from", "1", "--to", "3"], 0),
    "window_turned": (history([READ, entry(1, ["try_read"], 258, 6, 5, 4)]), ["--from", "4", "--to", "4"], 0),
    **{f"fault_{why}": (history(entries), [], len(entries) - 1) for why, entries in FAULTS.items()},
    "long": (history([at(n, n % 64, ["read_count"], {"count": 0}) for n in range(2000)]), [], None),
}
DRAWN = {"window": 62, "window_of_a_point": 1, "window_turned": 1}
# The left side and the width of each bar, and the left side of each mark: four positions have 60 pixels each.
BOXES = {"window_of_a_put": ([(112, 240), (112, 180), (112, 240)], [199])}
# The left sides, widths and lines of the ribbon, of the content's boxes and of the axis. The six positions of the
# schedule have 60 pixels each, from 112 on, points stand in the middle, and behind the last column there are 28 more.
SPANS = {
    "schedule": {
        "ribbon": [(96, 166, "free", "v 0"), (262, 120, "write", "v 1"), (382, 60, "free", "v 1"),
                   (442, 58, "write", "v 2")],
        "content": [],
        "axis": [(112, 60, "0", None), (172, 60, "1", None), (232, 60, "2", None), (292, 60, "3", None),
                 (352, 60, "4", None), (412, 60, "6", None)],
    },
    "window_of_a_put": {
        "ribbon": [(96, 106, "free", "v 0"), (202, 178, "free", "v 0")],
        "content": [(96, 106, "[1, 2]", None), (202, 178, "[3, 4]", None)],
        "axis": [(112, 60, "4", None), (172, 60, "5", None), (232, 60, "6", None), (292, 60, "7", None)],
    },
}
# Of so many calls that take one position each, or three: how wide the sheet and a column are, and every how many
# columns the axis names one. Up to 20 columns have 60 pixels each, up to 75 have 1,200 together, up to 2,000 have 16
# each, and more have 5 each; 152 stand beside them. A name on the axis has at least 49 pixels. So no picture has
# more than the 32,767 pixels that viewers take.
COLUMNS = {
    (20, 1): (1352, 60, 1),
    (50, 1): (1352, 24, 3),
    (70, 1): (1342, 17, 3),
    (100, 1): (1752, 16, 4),
    (1000, 1): (16152, 16, 4),
    (2000, 1): (32152, 16, 4),
    (667, 3): (10157, 5, 10),
    (2000, 3): (30152, 5, 10),
}
VERDICTS = {
    "schedule": "3 entries, in order",
    "window_of_a_put": "3 entries, in order",
    "torn_get": "entry 2: the record would have answered otherwise (due here: [3, 4])",
    "fault_interval": "entry 1: its point is not between its first and last",
    "fault_order": "entry 2: its point is not above the one before",
    "fault_overlap": "entry 1: it began before its thread's last call ended",
    "fault_reply": "entry 2: the lock would have answered otherwise (due here: 640)",
    "fault_wait": "entry 1: the lock would have answered otherwise (it would wait here)",
}
# As many calls as are all in view at first, and one more; one of them is wrong.
WRONG_COUNTS = {calls: history([at(3 * n, n % 4, ["read_count"], {"count": int(n == 30)}) for n in range(calls)])
                for calls in (60, 61)}
TOO_MANY = history([at(n, 0, ["read_count"], {"count": 0}) for n in range(2001)])
MANY_CALLS = history([at(n, n % 64, ["read_count"], {"count": 0}) for n in range(20000)])
TOO_MANY_LINE = b"stamped_picture: 2001 entries to draw, over 2000: give --from A --to B, or --html\n"
LEGEND = ", begins  | goes on  * takes effect  ' ends; the faulty entry has ! and X"
HEADING = "    at  thread: call = reply -> what the lock was then (v: its version)"
TEXTS = {
    "torn_get": [
        LEGEND,
        "at first: free v 0 [0, 0]",
        "0  1  2  " + HEADING,
        ",             0  0: put [1, 2]",
        "|  ,          1  1: put [3, 4]",
        "|  |  !       2  2: get",
        "*  |  !       3  0: put [1, 2] = done (entry 0) -> free v 0 [1, 2]",
        "'  |  !       4  0: = done",
        "   *  !       6  1: put [3, 4] = done (entry 1) -> free v 0 [3, 4]",
        "   '  !       7  1: = done",
        "      X       8  2: get = [1, 4] (entry 2)",
        "      !       9  2: = [1, 4]",
        VERDICTS["torn_get"],
    ],
    "fault_overlap": [
        LEGEND,
        "at first: free v 0",
        "0  " + HEADING,
        ",       0  0: try_read",
        "*       1  0: try_read = 257 (entry 0) -> 1 rd v 0",
        "!       3  0: try_read",
        "!       5  0: = 257",
        "X       6  0: try_read = 258 (entry 1)",
        "!       7  0: = 258",
        VERDICTS["fault_overlap"],
    ],
    "window_of_a_put": [
        LEGEND,
        "at first: free v 0 [1, 2]",
        "0  1  2  " + HEADING,
        "|  |  |       4",
        "|  *  |       5  1: put [3, 4] = done (entry 1) -> free v 0 [3, 4]",
        "|  '  |       6  1: = done",
        "'     |       7  0: = done",
        VERDICTS["window_of_a_put"],
    ],
    "window_of_a_point": [
        LEGEND,
        "at first: 1 rd v 0",
        "0  1  " + HEADING,
        "   X       2  1: try_read = 258 (entry 1)",
        "   !       3",
        VERDICTS["fault_interval"],
    ],
    "window_turned": [
        LEGEND,
        "at first: 1 rd v 0",
        "0  1  " + HEADING,
        "   !       4  1: = 258",
        VERDICTS["fault_interval"],
    ],
}
# What breaks a rule in a page's data, by the picture's name. A page is of the whole history, also where the picture
# is of a window.
WRONG = {
    "torn_get": {"due": [3, 4], "entry": 2, "why": "reply"},
    **{name: {"due": 258, "entry": 1, "why": "interval"}
       for name in ("fault_interval", "window_of_a_point", "window_turned")},
    "fault_order": {"due": 259, "entry": 2, "why": "order"},
    "fault_overlap": {"due": 258, "entry": 1, "why": "overlap"},
    "fault_reply": {"due": 640, "entry": 2, "why": "reply"},
    "fault_wait": {"due": None, "entry": 1, "why": "reply"},
}


def seen(thread, call, first, last=None, reply=None):
    """An entry of an observed history; without a last position its call is under way."""
    told = {"call": call, "first": first, "thread": thread}
    return told if last is None else {**told, "last": last, "reply": reply}


HELD = seen(0, ["try_write"], 0, 3, 384)
TWO_RELEASES = [HELD, seen(0, ["to_read", 384], 6, 8, 513), seen(1, ["to_read", 384], 7, 9, 513)]
WAITS = [HELD, seen(1, ["write_lock"], 1, 9, 640), seen(0, ["unlock", 384], 10, 12, "done")]
UNDER_WAY = [seen(0, ["try_write"], 0), seen(1, ["is_write_locked"], 1, 2, "yes"), seen(2, ["read_lock"], 1)]
# Observed histories, what stands behind them in a page's data, and the verdict that the page shows.
OBSERVED_PAGES = {
    "explained": (
        [seen(1, ["try_read"], 0, 9, 0), seen(0, ["try_write"], 1, 8, 384)],
        {"order": [entry(0, ["try_write"], 384, 64, 64, 575), entry(1, ["try_read"], 0, 0, 65, 639)]},
        "2 calls, explained",
    ),
    "under_way": (
        UNDER_WAY,
        {"order": [entry(0, ["try_write"], 384, 0, 0, 191), entry(1, ["is_write_locked"], "yes", 64, 64, 191)]},
        "3 calls, explained",
    ),
    "stuck": (
        TWO_RELEASES,
        {
            "order": [
                entry(0, ["try_write"], 384, 0, 0, 255),
                entry(0, ["to_read", 384], 513, 384, 384, 575),
                entry(1, ["to_read", 384], 0, 448, 448, 639),
            ],
            "possible": [0],
            "stuck": 2,
        },
        "entry 2 of thread 1: to_read 384 = 513; no order explains this return; possible: 0",
    ),
    "stuck_under_way": (
        [*UNDER_WAY, seen(3, ["optimistic"], 3, 6, 768), seen(1, ["read_count"], 9, 10, {"count": 0})],
        {
            "order": [
                entry(0, ["try_write"], 384, 0, 0, 447),
                entry(1, ["is_write_locked"], "yes", 64, 64, 191),
                entry(3, ["optimistic"], 0, 192, 192, 447),
            ],
            "possible": [0],
            "stuck": 3,
        },
        "entry 3 of thread 3: optimistic = 768; no order explains this return; possible: 0",
    ),
    "stuck_waiting": (
        WAITS,
        {"order": [entry(0, ["try_write"], 384, 0, 0, 255)], "possible": [], "stuck": 1},
        "entry 1 of thread 1: write_lock = 640; no order explains this return; "
        "no reply was possible, it would have waited",
    ),
    "not_apart": (
        [HELD, seen(0, ["unlock", 384], 3, 5, "done")],
        {"wrong": {"entry": 1, "why": "overlap"}},
        "entry 1 of thread 0: unlock 384 = done; it overlaps an earlier entry of its thread",
    ),
    "over_too_soon": (
        [seen(0, ["try_write"], 3, 0, 384)],
        {"wrong": {"entry": 0, "why": "interval"}},
        "entry 0 of thread 0: try_write = 384; it ended before it began",
    ),
}
# What a page tells of each call, and the colours that its bar must have; the other ones it mustn't.
TOLD = {
    "stuck_under_way": [
        ("entry 0, thread 0: try_write; under way; assumed to have taken effect, with reply 384; from 0 on; "
         "takes effect at 0, as number 1 of 3", {"assumed"}),
        ("entry 1, thread 1: is_write_locked; answered yes; from 1 to 2; "
         "takes effect at 1, as number 2 of 3", {"call"}),
        ("entry 2, thread 2: read_lock; under way; took no effect in this explanation; from 1 on", set()),
        ("entry 3, thread 3: optimistic; answered 768; no order explains this return; possible: 0; "
         "put in place of its answer here: 0; from 3 to 6; takes effect at 3, as number 3 of 3", {"fault", "assumed"}),
        ("entry 4, thread 1: read_count; answered count 0; began later: not looked at; from 9 to 10", {"unseen"}),
    ],
    "not_apart": [
        ("entry 0, thread 0: try_write; answered 384; from 0 to 3", {"call"}),
        ("entry 1, thread 0: unlock 384; answered done; it overlaps an earlier entry of its thread; from 3 to 5",
         {"fault"}),
    ],
    "torn_get": [
        ("entry 0, thread 0: put [1, 2]; answered done; from 0 to 4; takes effect at 3, as number 1 of 3", {"call"}),
        ("entry 1, thread 1: put [3, 4]; answered done; from 1 to 7; takes effect at 6, as number 2 of 3", {"call"}),
        ("entry 2, thread 2: get; answered [1, 4]; the record would have answered otherwise (due here: [3, 4]); "
         "from 2 to 9; takes effect at 8, as number 3 of 3", {"fault"}),
    ],
    "under_way": [
        ("entry 0, thread 0: try_write; under way; assumed to have taken effect, with reply 384; from 0 on; "
         "takes effect at 0, as number 1 of 2", {"assumed"}),
        ("entry 1, thread 1: is_write_locked; answered yes; from 1 to 2; "
         "takes effect at 1, as number 2 of 2", {"call"}),
        ("entry 2, thread 2: read_lock; under way; took no effect in this explanation; from 1 on", set()),
    ],
}
TOLD["guarded"] = [(f"entry {n}, thread {e['thread']}: {call_text(e['call'])}; answered {answered}; "
                    f"from {e['first']} to {e['last']}; takes effect at {e['point']}, as number {n + 1} of 10{within}",
                    {"call"}) for n, (e, (answered, within)) in enumerate(zip(GUARDED, [
    ("256", "; within entry 1, thread 0: get = [0]"),
    ("[0]", "; within it, thread 24: optimistic = 256 (entry 0), validate 256 = yes (entry 4)"
            "; within it, thread 25: optimistic = 256 (entry 2)"),
    ("256", "; within entry 5, thread 1: get = [0]; within entry 1, thread 0: get = [0]"),
    ("no", "; within entry 5, thread 1: get = [0]"),
    ("yes", "; within entry 5, thread 1: get = [0]; within entry 1, thread 0: get = [0]"),
    ("[0]", "; within it, thread 25: optimistic = 256 (entry 2), validate 256 = yes (entry 6)"
            "; within it, thread 26: is_write_locked = no (entry 3)"
            "; within it, thread 24: validate 256 = yes (entry 4)"),
    ("yes", "; within entry 5, thread 1: get = [0]"),
    ("256", ""), ("[0]", ""), ("count 0", ""),
]))]
# The entries that are marked while each entry is picked; in other pages none is.
MARKED = {"guarded": [[1], [0, 2, 4], [1, 5], [5], [1, 5], [2, 3, 4, 6], [5], [], [], []]}
# The entries that the keys N and P, and Down and Up, go to from entry 0 on.
WALKS = {"stuck_under_way": ([1, 3, 1], [1, 2, 1]), "torn_get": ([1, 2, 1], [1, 2, 1])}
DARK = "--force-dark-mode"
# Stands behind a page: looks at it by pointer, keys and wheel, and writes down what it finds.
PROBE = """<script>
(() => {
  const canvas = $('view'), room = canvas.getBoundingClientRect(), found = { entries: {}, middle: [] };
  const style = getComputedStyle(document.documentElement), dots = canvas.width / room.width;
  const names = new Map(['call', 'fault', 'assumed', 'unseen']
    .map(it => [style.getPropertyValue('--' + it).trim(), it]));
  const image = canvas.getContext('2d').getImageData(0, 0, canvas.width, canvas.height);
  const nameAt = (x, y) => {
    const at = (Math.round(y * dots) * image.width + Math.round(x * dots)) * 4;
    return names.get('#' + [...image.data.slice(at, at + 3)].map(it => it.toString(16).padStart(2, '0')).join(''));
  };
  const look = (x, y) => {
    canvas.dispatchEvent(new PointerEvent('pointermove', { clientX: room.left + x, clientY: room.top + y }));
    return $('tip').style.display === 'block' ? $('tip').textContent : null;
  };
  const told = () => $('told').textContent;
  const press = key => canvas.dispatchEvent(new KeyboardEvent('keydown', { key, bubbles: true, cancelable: true }));
  const go = entry => { $('entry').value = entry; $('entry').dispatchEvent(new Event('change')); return told(); };
  const wheel = more => {
    const at = { clientX: room.left + room.width / 2, clientY: room.top + 60, cancelable: true, ...more };
    const was = canvas.toDataURL();
    canvas.dispatchEvent(new WheelEvent('wheel', at));
    paint();
    return canvas.toDataURL() !== was;
  };
  // The entries whose calls have an outline above the middle of their bars, with all in view.
  const marked = picked => {
    const focus = style.getPropertyValue('--focus').trim();
    go(picked);
    press('0');
    paint();
    const pen = canvas.getContext('2d');
    const isFocus = (x, y) => '#' + [...pen.getImageData(Math.round(x * dots), Math.round(y * dots), 1, 1).data]
      .slice(0, 3).map(it => it.toString(16).padStart(2, '0')).join('') === focus;
    return calls.filter(c => c.n !== picked && [0, 1, 2, 3].some(up =>
      isFocus(box(c).left + box(c).width / 2, Math.floor(box(c).top) - up))).map(c => c.n);
  };
  found.first = told();
  found.whole = calls.every(c => box(c).left >= 76 && box(c).left + box(c).width <= canvas.clientWidth);
  found.ground = getComputedStyle(document.body).backgroundColor;
  for (let y = 27; y < room.height; y += 3) {
    for (let x = 80; x < room.width - 10; x += 4) {
      const text = look(x, y);
      if (text) (found.entries[text] ||= []).push([x, nameAt(x, y) || null]);
    }
    found.middle.push(look((76 + room.width) / 2, y));
  }
  found.middle = [...new Set(found.middle.filter(it => it))];
  found.told = JSON.parse($('data').textContent)[COUNTED].entries.map((_, entry) => go(entry));
  const walk = list => { go(0); return list.map(key => { press(key); return told(); }); };
  found.walks = [walk(['n', 'n', 'p']), walk(['ArrowDown', 'ArrowDown', 'ArrowUp'])];
  found.moves = [wheel({ deltaY: -300 }), wheel({ deltaY: 200, shiftKey: true })];
  found.marked = calls.length < 20 ? calls.map(c => marked(c.n)) : [];
  const note = document.body.appendChild(document.createElement('pre'));
  note.id = 'found';
  note.textContent = JSON.stringify(found);
})();
</script>
"""
# Inputs that are neither, and how a page of them is refused.
NO_PAGES = [
    (b"", b"no input"),
    (b"[", b"not json"),
    (b"{}", b"not a history: top"),
    (json.dumps(history([READ, HELD])).encode(), b"not a history: entry 1"),
    (json.dumps(history([HELD, READ])).encode(), b"not a history: entry 1"),
    (json.dumps(history([{**READ, "thread": 64}])).encode(), b"over a limit: entry 0"),
]
BAD_WORDS = [
    ["--txt"],
    ["--html", "--html"],
    ["--html", "--text"],
    ["--html", "--from", "1", "--to", "2"],
    ["--text", "--text"],
    ["--width", "80"],
    ["--text", "--width"],
    ["--text", "--width", "0"],
    ["--text", "--width", "+8"],
    ["--from", "4", "--to", "3"],
    ["--from", "1"],
    ["--text", "--to", "2"],
    ["--text", "--from", "1", "--to"],
    ["--from", "1", "--to", "2", "--from", "1"],
    ["--from", "1", "--to", "2", "--width", "8"],
    ["--text", "run.json"],
    ["--help", "--text"],
]
# Options that come in any order.
ANY_ORDER = [["--text"], ["--width", "40"], ["--from", "2"], ["--to", "3"]]


def ended(program, text, words):
    ran = subprocess.run([program, *words], input=text, capture_output=True, timeout=3600)
    return ran.returncode, ran.stdout, ran.stderr


def boxes(root, names):
    return [box for box in root.iter(SVG + "svg") if box.get("class") in names and box.find(SVG + "rect") is not None]


def fitted(text, width):
    """What of a text has room: a character takes up to 7 pixels, and the sign of a cut is one."""
    room = (width - 4) // 7
    return text if len(text) <= room else text[:room - 1] + ">" if room else None


def spans(root, classes):
    """Boxes above the lanes: their left sides, widths and lines."""
    found = [box for box in boxes(root, classes) if int(box.get("y")) < LANES_TOP]
    return [(int(box.get("x")), int(box.get("width")), *(it.text for it in box.findall(SVG + "text"))) for box in found]


def bars_of(root):
    """Each bar's lane, class, width and lines; verdict and legend have no thread in their titles."""
    return [
        ((int(box.get("y")) - LANES_TOP) // LANE_HEIGHT, box.get("class"), int(box.get("width")),
         *(line.text for line in box.findall(SVG + "text")))
        for box in boxes(root, ["bar", "bad"])
        if ", thread " in box.find(SVG + "title").text
    ]


def marks_of(root):
    """Each mark's left side and title; that of the legend has no title."""
    marks = [(int(box.get("x")), box.find(SVG + "title").text) for box in boxes(root, ["mark"])]
    return [(x, title) for x, title in marks if title]


def window_in(words):
    """The window that the words give, or all positions."""
    return (int(words[-3]), int(words[-1])) if "--from" in words else (0, 2**64 - 1)


def look(name, drawn, words, answer, bad):
    """The picture's status, its bars, marks and fault are those of the history in the window."""
    status, text, told = answer
    if (status, told) != (0 if bad is None else 1, b""):
        sys.exit(f"{name}: status {status}, {told}")
    marked = ["bad" if number == bad else "bar" for number in range(len(drawn))]
    root = xml.fromstring(text)
    bars, marks = bars_of(root), marks_of(root)
    wanted = [(e["thread"], kind, width, fitted(call_text(e["call"]), width), fitted(reply_text(e["reply"]), width))
              for e, kind, (_, _, width, *_) in zip(drawn, marked, bars)]
    if bars != wanted or len(bars) != len(drawn):
        sys.exit(f"{name}: {bars}, and not {wanted}")
    begin, end = window_in(words)
    points = [f", point {e['point']}" for e in drawn if begin <= e["point"] <= end]
    if len(marks) != len(points) or not all(title.endswith(it) for (_, title), it in zip(marks, points)):
        sys.exit(f"{name}: the marks are {marks}, and not at {points}")
    if name in BOXES:
        sides = [(int(box.get("x")), int(box.get("width"))) for box in boxes(root, ["bar"])][: len(bars)]
        if (sides, [x for x, _ in marks]) != BOXES[name]:
            sys.exit(f"{name}: {sides} and {marks}, and not {BOXES[name]}")
    for part, classes in (("ribbon", ["free", "reading", "writing"]), ("content", ["content"]), ("axis", ["axis"])):
        if name in SPANS and spans(root, classes) != SPANS[name][part]:
            sys.exit(f"{name}: {part} {spans(root, classes)}, and not {SPANS[name][part]}")


def look_at_columns(program):
    """Columns, axis and sheet are as wide as there is room."""
    for (calls, each), wanted in COLUMNS.items():
        entries = [entry(0, ["read_count"], {"count": 0}, each * n, each * n + each // 2, each * n + each - 1)
                   for n in range(calls)]
        root = xml.fromstring(ended(program, json.dumps(history(entries)).encode(), [])[1])
        width, unit, stride = wanted
        bars = [(int(box.get("x")), int(box.get("width"))) for box in boxes(root, ["bar"])][:calls]
        marks = [x for x, _ in marks_of(root)]
        axis = [(x, text) for x, _, text, _ in spans(root, ["axis"])]
        if (root.get("width"), root.get("viewBox").split()[2]) != (str(width), str(width)):
            sys.exit(f"{calls} calls: {root.attrib}, and not {width}")
        if bars != [(112 + unit * each * n, unit * each) for n in range(calls)]:
            sys.exit(f"{calls} calls: {bars}")
        if marks != [112 + unit * (each * n + each // 2) + unit // 2 - 3 for n in range(calls)]:
            sys.exit(f"{calls} calls: marks {marks}")
        rooms = [(n, min(unit * stride, unit * (each * calls - n) + 28)) for n in range(0, each * calls, stride)]
        if axis != [(112 + unit * n, fitted(str(n), room)) for n, room in rooms]:
            sys.exit(f"{calls} calls: axis {axis}")
    print(f"{len(COLUMNS)} pictures of up to {max(width for width, _, _ in COLUMNS.values())} pixels")


def look_at_text(name, program, told, words, bad):
    """Its lines in characters are at most as wide as told, and say where they are cut off."""
    text = json.dumps(told).encode()
    status = 0 if bad is None else 1
    whole = ended(program, text, ["--text", "--width", "18446744073709551615", *words])[1].decode().splitlines()
    for width, option in [(80, []), (1, ["--width", "1"]), (33, ["--width", "33"])]:
        drawn = ended(program, text, ["--text", *option, *words])
        wanted = "".join(f"{line if len(line) <= width else line[:width - 1] + '>'}\n" for line in whole)
        if drawn != (status, wanted.encode(), b""):
            sys.exit(f"{name} in {width} characters: {drawn}, and not {wanted}")
    if name in TEXTS and whole != TEXTS[name]:
        sys.exit(f"{name} in characters: {whole}")
    if name in VERDICTS and whole[-1] != VERDICTS[name]:
        sys.exit(f"{name} in characters ends in {whole[-1]}")
    if not words and len(whole) < 3 + len(told["entries"]):
        sys.exit(f"{name} in characters has {len(whole)} lines")


def page_of(name, program, told, status, wanted):
    """The page of a history, whose data are as wanted."""
    answer = ended(program, json.dumps(told).encode(), ["--html"])
    page = answer[1].decode()
    data = re.search(r'<script type="application/json" id="data">\n(.*?)</script>', page, re.S)
    if answer[::2] != (status, b"") or json.loads(data[1]) != wanted:
        sys.exit(f"page of {name}: {answer[::2]}, {data[1]}, and not {wanted}")
    if re.search(r"\b(src|href)=|\bimport\b|https?:", page):
        sys.exit(f"page of {name}: it takes something from elsewhere")
    return page


def observed_page(name, program):
    """The page of an observed history; a picture says of the order in it that it is in order."""
    entries, found, verdict = OBSERVED_PAGES[name]
    wanted = {"observed": history(entries), **found}
    if "order" in found:
        wanted["order"] = history(found["order"])
        if ended(program, json.dumps(wanted["order"]).encode(), ["--text"])[0] != 0:
            sys.exit(f"page of {name}: {found['order']} is not in order")
    status = 0 if found.keys() == {"order"} else 1
    return page_of(name, program, history(entries), status, wanted), verdict


def recorded_page(name, program):
    told, _, bad = PICTURES[name]
    wrong = {} if bad is None else {"wrong": WRONG[name]}
    return page_of(name, program, told, 0 if bad is None else 1, {"recorded": told, **wrong})


def shown(browser, page, room, words):
    """What a browser makes of a page."""
    path = os.path.join(room, "page.html")
    with open(path, "w", encoding="utf-8") as file:
        file.write(page)
    words = ["--headless", "--no-sandbox", "--disable-gpu", "--virtual-time-budget=3000", "--dump-dom", *words]
    ran = subprocess.run([browser, *words, f"file://{path}"], capture_output=True, timeout=3600)
    return ran.stdout.decode()


def found_in(name, browser, page, room, words):
    """What the probe finds in a page."""
    probed = page + PROBE.replace("COUNTED", "'observed'" if name in OBSERVED_PAGES else "'recorded'")
    note = re.search(r'<pre id="found">(.*?)</pre>', shown(browser, probed, room, words), re.S)
    return json.loads(html.unescape(note[1])) if note else sys.exit(f"page of {name}: its script stops")


def probe(name, browser, page, room, words):
    """What pointer and keys tell of each call, its colours, and what is marked with it, are as in TOLD and MARKED."""
    found = found_in(name, browser, page, room, words)
    texts = [text.replace("; ", "\n").replace("return\npossible", "return; possible") for text, _ in TOLD[name]]
    if found["told"] != texts:
        sys.exit(f"page of {name}: it tells {found['told']}, and not {texts}")
    wanted = {text: colours for text, (_, colours) in zip(texts, TOLD[name])}
    drawn = {text: {colour for _, colour in points} - {None} for text, points in found["entries"].items()}
    if drawn != wanted:
        sys.exit(f"page of {name}: the pointer finds {drawn}, and not {wanted}")
    for text, points in found["entries"].items():
        if wanted[text] and not {colour for x, colour in points if x > max(x for x, _ in points) - 20} & wanted[text]:
            sys.exit(f"page of {name}: where {text} ends it has none of {wanted[text]}")
    fault = [text for text, colours in wanted.items() if "fault" in colours]
    if found["first"] != "".join(fault) or not found["whole"]:
        sys.exit(f"page of {name}: at first it tells {found['first']}, and all are in view: {found['whole']}")
    if found["marked"] != MARKED.get(name, [[] for _ in texts]):
        sys.exit(f"page of {name}: marked are {found['marked']}")
    walks = [[texts[entry] for entry in walk] for walk in WALKS.get(name, [])]
    if walks and found["walks"] != walks:
        sys.exit(f"page of {name}: the keys go to {found['walks']}, and not {walks}")
    if found["moves"] != [True, True]:
        sys.exit(f"page of {name}: the wheel moves {found['moves']}")
    if any((int(part) < 128) != (DARK in words) for part in re.findall(r"\d+", found["ground"])):
        sys.exit(f"page of {name}: with {words} the ground is {found['ground']}")


def show(browser, pages):
    """A browser draws each page, and shows its verdict; pages of TOLD also in the dark, and in a narrow window."""
    with tempfile.TemporaryDirectory() as room:
        for name, (page, verdict) in pages.items():
            heading = rf'<h1 id="verdict"[^>]*>{re.escape(verdict)}</h1>'
            if not re.search(heading, shown(browser, page, room, [])):
                sys.exit(f"page of {name}: it doesn't show {verdict}")
        for name in TOLD:
            for words in (["--window-size=1200,700"], ["--window-size=500,900"], ["--window-size=1200,700", DARK]):
                probe(name, browser, pages[name][0], room, words)
        for calls in WRONG_COUNTS:
            found = found_in("a wrong count", browser, pages[f"wrong count of {calls}"][0], room, [])
            seen_at_first = found["first"].startswith("entry 30,"), found["whole"], found["first"] in found["middle"]
            if seen_at_first != (True, calls == 60, calls == 61):
                sys.exit(f"page of {calls} calls: {found['first']}, {found['whole']}, {found['middle']}")


def look_at_pages(program):
    """The pages of all histories, and what has none."""
    recorded = {name: recorded_page(name, program) for name in PICTURES}
    pages = {name: observed_page(name, program) for name in OBSERVED_PAGES}
    pages["schedule"] = recorded["schedule"], "3 calls, in order"
    many = page_of("many_calls", program, MANY_CALLS, 0, {"recorded": MANY_CALLS})
    pages["many_calls"] = many, "20000 calls, in order"
    pages["guarded"] = recorded["guarded"], "10 calls, in order"
    wrong = {"due": {"count": 0}, "entry": 30, "why": "reply"}
    for calls, told in WRONG_COUNTS.items():
        pages[f"wrong count of {calls}"] = (
            page_of("a wrong count", program, told, 1, {"recorded": told, "wrong": wrong}),
            "entry 30 of thread 2: read_count = count 1; the lock would have answered otherwise (due here: count 0)",
        )
    pages["torn_get"] = (
        recorded["torn_get"],
        "entry 2 of thread 2: get = [1, 4]; the record would have answered otherwise (due here: [3, 4])",
    )
    for text, why in NO_PAGES:
        answer = ended(program, text, ["--html"])
        if answer != (1, b"", b"stamped_picture: " + why + b"\n"):
            sys.exit(f"page of {text}: {answer}")
    browser = shutil.which("chromium")
    if browser:
        show(browser, pages)
    count = len(recorded) + len(OBSERVED_PAGES) + 1 + len(WRONG_COUNTS)
    print(f"{count} pages, {len(pages) if browser else 'none'} of them drawn by a browser")


def main():
    program, *folder = sys.argv[1:]
    program = os.path.abspath(program)
    for name, (told, words, bad) in PICTURES.items():
        answer = ended(program, json.dumps(told).encode(), words)
        drawn = told["entries"][-DRAWN[name]:] if name in DRAWN else told["entries"]
        look(name, drawn, words, answer, bad)
        look_at_text(name, program, told, words, bad)
        kept = os.path.join(KEPT, f"{name}.svg")
        for room in folder:
            with open(os.path.join(room, f"{name}.svg"), "wb") as file:
                file.write(answer[1])
        if not folder and os.path.exists(kept):
            with open(kept, "rb") as file:
                if file.read() != answer[1]:
                    sys.exit(f"{kept} is another picture than the one that is made now")
        print(f"{name}: {len(drawn)} bars")
    look_at_columns(program)
    look_at_pages(program)
    answer = ended(program, json.dumps(TOO_MANY).encode(), [])
    if answer != (1, b"", TOO_MANY_LINE):
        sys.exit(f"2001 entries: {answer}")
    if ended(program, json.dumps(TOO_MANY).encode(), ["--from", "1", "--to", "2000"])[0] != 0:
        sys.exit("2000 entries of a window are not drawn")
    for words in BAD_WORDS:
        answer = ended(program, b"", words)
        if answer != (2, b"", b"stamped_picture: bad command line\n"):
            sys.exit(f"{words}: {answer}")
    in_orders = {
        ended(program, json.dumps(history(SCHEDULE)).encode(), [word for option in options for word in option])
        for options in itertools.permutations(ANY_ORDER)
    }
    if len(in_orders) != 1 or {answer[0] for answer in in_orders} != {0}:
        sys.exit(f"another order of options: {in_orders}")
    answer = ended(program, b"", [])
    if answer != (1, b"", b"stamped_picture: no input\n"):
        sys.exit(f"no input: {answer}")
    told = ended(program, b"[", ["--help"])
    if told[0] != 0 or told[2] or not told[1].startswith(b"stamped_picture [--text [--width N]] [--from A --to B]"):
        sys.exit(f"--help: {told}")


main()
