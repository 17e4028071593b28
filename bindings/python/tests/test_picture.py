"""The page of `servercape picture`, in Chromium: at every tick its bars are the stays that the cells say."""
import json
import random
import tempfile
import unittest
from collections.abc import Iterable, Iterator
from pathlib import Path
from typing import NamedTuple

from support import EXAMPLES

import many
from browser import PROGRAM, Browser
from servercape import Days, Index, Place
from servercape.bookings import read_bookings
from servercape.picture import picture

MOST_CELL = (1 << 64) - 1
PLATFORM = 1 << 32

# What stands on the page: of each bar the words that the pointer shows, and where it lies, in minutes.
SHOWN = """(() => {
  const axis = document.getElementById("axis").getBoundingClientRect(), minutes = (to - from) / axis.width;
  return JSON.stringify({
    tick: document.getElementById("tick").value, slider: +document.getElementById("slider").value, count: document.getElementById("count").textContent,
    bars: [...document.querySelectorAll(".stay")].map(bar => {
      const { left, right, top } = bar.querySelector("rect").getBoundingClientRect();
      return { words: bar.getAttribute("aria-label"), name: bar.querySelector("text:not([display])")?.textContent,
        free: bar.classList.contains("free"), row: bar.closest("tr").querySelector("th").textContent,
        start: from + (left - axis.left) * minutes, end: from + (right - axis.left) * minutes, pixel: minutes };
    }),
  });
})()"""

# Goes one change on, and gives the milliseconds until that is drawn and laid out, and how often the browser was asked for its layout in between.
STEP = """(() => {
  let asked = 0;
  const ask = Element.prototype.getBoundingClientRect;
  Element.prototype.getBoundingClientRect = function () { asked++; return ask.call(this); };
  const times = [];
  for (let k = 0; k < 9; k++) {
    place++;
    const start = performance.now();
    draw();
    document.body.offsetHeight;
    times.push(performance.now() - start);
  }
  Element.prototype.getBoundingClientRect = ask;
  return JSON.stringify({ asked: asked / 9, time: times.sort((a, b) => a - b)[4] });
})()"""


class Stay(NamedTuple):
    platform: int
    minute: int
    end: int
    train: int
    created: int


def board_of(name: str, days: Days = Days()) -> Index:
    bookings = read_bookings((EXAMPLES / name).read_bytes(), days)
    index = finished(bookings.operations, bookings.end_tick)
    index.install_days(days)
    return index


def finished(operations: Iterable, end_tick: int) -> Index:
    index = Index.open(end_tick)
    index.record_all(operations)
    index.finish()
    return index


def large_board(count: int, platforms: int = 32) -> Index:
    return finished(((tick, cell, bytes([code]) * length) for tick, cell, length, code in many.bookings(count, platforms)), count)


def stays(index: Index, tick: int) -> Iterator[Stay]:
    """Cell by cell: neighbours on one platform with the same byte, of the same tick."""
    held = {}
    for number in index.find(tick, 0, MOST_CELL).numbers:
        block = index.block(number)
        held |= {block.first + at: (byte, block.created) for at, byte in enumerate(block.bytes)}
    cells = sorted(held)
    first = None
    for cell, behind in zip(cells, [*cells[1:], None]):
        first = cell if first is None else first
        if behind != cell + 1 or held[behind] != held[cell] or behind % PLATFORM == 0:
            yield Stay(*divmod(first, PLATFORM), cell % PLATFORM + 1, *held[cell])
            first = None


class Page(unittest.TestCase):
    def setUp(self):
        folder = tempfile.TemporaryDirectory()
        self.addCleanup(folder.cleanup)
        self.page = Path(folder.name, "board.html")

    def draw(self, index: Index, start: int = 0, end: int = MOST_CELL) -> str:
        text = picture(index, index.blocks(), start, end, "a </script> name")
        self.page.write_text(text, "utf-8")
        return text


class Data(Page):
    def blocks(self, *window: int) -> list[int]:
        text = self.draw(board_of("midnight.txt"), *window)
        return json.loads(text.partition("const board = ")[2].partition(";\n")[0])["block"]

    def test_one_page_with_all_in_it(self):
        text = self.draw(board_of("midnight.txt"))
        self.assertEqual(text.count("</script>"), 1)
        for outside in ("http:", "https:", "src=", "href=", "@import", "url("):
            self.assertNotIn(outside, text.replace("http://www.w3.org/2000/svg", ""))

    def test_window(self):
        """Stays are whole where they hold a cell of the window."""
        self.assertEqual(self.blocks(Place(1, 0).cell, Place(2, 0).cell), [0, 4])
        self.assertEqual(self.blocks(Place(0, 1445).cell, Place(0, 1446).cell), [2, 3, 1])
        self.assertEqual(self.blocks(Place(3, 0).cell, Place(4, 0).cell), [])


@unittest.skipUnless(PROGRAM, "Chromium is not installed: the page is not tried in a browser")
class InBrowser(Page):
    @classmethod
    def setUpClass(cls):
        cls.browser = Browser()

    @classmethod
    def tearDownClass(cls):
        cls.browser.close()

    def open(self, index: Index, tick: int | None = None) -> None:
        self.draw(index)
        self.browser.open(self.page, "" if tick is None else f"#tick={tick}")

    def shown(self) -> dict:
        return json.loads(self.browser.run(SHOWN))

    def at(self, tick: int) -> dict:
        self.browser.run(f"goTo({tick}n)")
        self.browser.frame()
        return self.shown()

    def view(self) -> list[float]:
        return self.browser.run("[from, to]")

    def compare(self, index: Index, ticks: Iterable[int]) -> None:
        """At each tick the bars are the stays, and lie where they must."""
        self.open(index)
        for tick in ticks:
            shown, expected = self.at(tick), list(stays(index, tick))
            self.match(shown["bars"], expected, index.days)
            trains = sum(stay.train != 0 for stay in expected)
            self.assertEqual((shown["tick"], shown["count"]), (str(tick), f"{trains} stay{'s' if trains != 1 else ''}"))

    def match(self, bars: list[dict], expected: list[Stay], days: Days) -> None:
        named = {self.words(stay, days): stay for stay in expected}
        told = [bar["words"].partition(", stands so")[0] for bar in bars]
        self.assertEqual(sorted(told), sorted(named))
        for bar, stay in zip(bars, map(named.__getitem__, told)):
            self.assertEqual((bar["row"], bar["free"]), (f"platform {stay.platform}", stay.train == 0))
            self.assertAlmostEqual(bar["start"], stay.minute, delta=bar["pixel"] / 20)
            self.assertAlmostEqual(bar["end"], max(stay.end, stay.minute + bar["pixel"]), delta=bar["pixel"] / 20)
            self.assertIn(bar.get("name"), (None, f"{stay.train:02x}" if stay.train else "free"))

    def words(self, stay: Stay, days: Days) -> str:
        """What the pointer shows: a departure is the first minute that is free again."""
        who, how = (f"train {stay.train:02x}", "booked") if stay.train else ("free", "set free")
        times = f"{days.time(stay.minute)} to {days.time(stay.end)}, {stay.end - stay.minute} min"
        return f"{who}\nplatform {stay.platform}\n{times}\n{how} at tick {stay.created}"

    def test_examples_at_every_tick(self):
        days = Days(json.loads((EXAMPLES / "days.json").read_text()))
        for index in (board_of("listing.txt"), board_of("midnight.txt"), board_of("evening.txt"), board_of("night.txt", days)):
            self.compare(index, range(index.end_tick))

    def test_free_minutes(self):
        """A booking that starts with free minutes is a free stretch and a stay, each of its own."""
        index = finished([(1, 100, bytes(10) + bytes([0x51]) * 40)], 8)
        self.open(index, 1)
        bars = [(bar["free"], bar["words"].splitlines()[2]) for bar in self.shown()["bars"]]
        self.assertEqual(bars, [(True, "monday 01:40 to monday 01:50, 10 min"), (False, "monday 01:50 to monday 02:30, 40 min")])
        self.compare(index, range(8))

    def test_a_later_edit_does_not_cut_an_earlier_view(self):
        index = finished([(1, 100, bytes([7]) * 14), (3, 104, bytes([9]) * 2), (5, 113, bytes(1))], 8)
        self.assertGreater(len(index.find(1, 0, MOST_CELL).numbers), 2)
        self.open(index)
        self.assertEqual([bar["words"].splitlines()[2:] for bar in self.at(1)["bars"]],
                         [["monday 01:40 to monday 01:54, 14 min", "booked at tick 1, stands so up to tick 3", "blocks 2, 0, 4, 1"]])
        self.compare(index, range(8))

    def test_neighbours_of_other_trains_or_ticks_are_apart(self):
        index = finished([(1, 100, bytes([7, 7, 8])), (2, 103, bytes([8, 8])), (2, PLATFORM - 1, bytes([8, 8]))], 8)
        self.compare(index, range(8))
        self.assertEqual(len(self.at(2)["bars"]), 5)

    def test_ticks_larger_than_a_browsers_numbers(self):
        dice = random.Random(63)
        ticks = sorted(dice.randrange(1 << 63) for _ in range(40))
        index = finished(((tick, (dice.randrange(4) << 32) + dice.randrange(300), bytes([dice.randrange(9)]) * 30) for tick in ticks), 1 << 63)
        self.compare(index, sorted({0, (1 << 63) - 1, *ticks, *(tick - 1 for tick in ticks), *(tick + 1 for tick in ticks)}))

    def test_late_minutes(self):
        """Up to the last minute of a platform."""
        index = finished([(1, PLATFORM - 60, bytes([7]) * 50), (1, PLATFORM - 9, bytes([8]) * 9)], 8)
        self.compare(index, (0, 1))

    def test_listed_days(self):
        """Clock times and midnights go by the list."""
        dice = random.Random(28)
        for listed in ([(0, 1380)], [(0, 1500), (1, 1380)], [(day, dice.choice([1380, 1500])) for day in range(64)], [((1 << 64) - 1, 1380)]):
            spots = [100, 1370, 1490, 2700, *(dice.randrange(100_000) for _ in range(20))]
            index = finished(((tick, (tick % 5 << 32) + spot, bytes([tick + 1]) * dice.choice([10, 100, 1500])) for tick, spot in enumerate(spots)), 40)
            index.install_days(listed)
            self.compare(index, (0, 3, 39))

    def test_axis_of_a_short_and_of_a_long_day(self):
        for minutes, wanted in ((1380, ["01:40", "01:50", "03:00", "03:10"]), (1500, ["02:40", "02:50", "02:00", "02:10"])):
            index = finished([(1, 100 if minutes == 1380 else 160, bytes([7]) * 40)], 8)
            index.install_days([(0, minutes)])
            self.open(index)
            times = self.browser.run("[...document.querySelectorAll('#times text')].map(text => text.textContent)")
            self.assertEqual([time for time in times if time in wanted], wanted)
            self.assertNotIn("02:00" if minutes == 1380 else "03:00", times)

    def test_no_blocks_and_ticks_past_the_end(self):
        self.draw(board_of("listing.txt"), 0, 1)
        self.browser.open(self.page, "#tick=99")
        self.assertEqual(self.shown(), {"tick": "7", "slider": 0, "count": "0 stays", "bars": []})

    def test_keys(self):
        """Arrows move what is shown, + and - change how much, and a comma and a full stop go through the changes."""
        self.open(board_of("evening.txt"))
        first, last = self.view()
        width = last - first
        self.browser.press("+")
        start, stop = self.view()
        self.assertAlmostEqual(stop - start, width / 1.6)
        for key, shift, by in (("ArrowRight", False, 1 / 8), ("ArrowLeft", False, -1 / 8), ("ArrowLeft", True, -1), ("ArrowRight", True, 1)):
            before = self.view()[0]
            self.browser.press(key, shift)
            self.assertAlmostEqual(self.view()[0], before + by * (stop - start))
        for key, place, value in (("Home", 0, first), ("End", 1, last)):
            self.browser.press(key)
            self.assertAlmostEqual(self.view()[place], value)
            self.assertAlmostEqual(self.view()[1] - self.view()[0], stop - start)
        self.browser.press("0")
        self.assertEqual(self.view(), [first, last])
        ticks = [self.shown()["tick"]]
        for key in (",", ",", ".", "."):
            self.browser.press(key)
            ticks.append(self.shown()["tick"])
        self.assertEqual(ticks, ["19", "17", "15", "17", "18"])

    def test_keys_of_the_slider_and_of_the_field(self):
        self.open(board_of("evening.txt"))
        view = self.view()
        self.browser.run("document.getElementById('slider').focus()")
        self.browser.run("document.getElementById('slider').dispatchEvent(new KeyboardEvent('keydown', { key: 'ArrowLeft', bubbles: true }))")
        self.browser.run("document.getElementById('tick').dispatchEvent(new KeyboardEvent('keydown', { key: '0', bubbles: true }))")
        self.browser.frame()
        self.assertEqual(self.view(), view)

    def test_moving_shows_what_comes_into_view(self):
        """Bars are laid out again where more has been moved than one width."""
        index = large_board(300, 3)
        self.open(index)
        for start in (0, 100, 130, 700, 650, 1400):
            self.browser.run(f"show({start}, {start + 120})")
            self.browser.frame()
            seen = [stay for stay in stays(index, 299) if stay.minute < start + 120 and start < stay.end]
            self.match(self.shown()["bars"], seen, index.days)

    def test_pointer(self):
        """The pointer over a bar shows its words, and dragging moves it along."""
        self.open(finished([(1, 100, bytes([7]) * 14)], 8))
        x, y = self.browser.run("(() => { const { x, y, width, height } = document.querySelector('.stay rect').getBoundingClientRect(); return [x + width / 2, y + height / 2]; })()")
        move = lambda kind, x, **more: self.browser.call("Input.dispatchMouseEvent", type=kind, x=x, y=y, **more)
        move("mouseMoved", x)
        self.assertEqual(self.browser.run("document.getElementById('tip').textContent"),
                         "train 07\nplatform 0\nmonday 01:40 to monday 01:54, 14 min\nbooked at tick 1, stands so up to tick 8\nblock 0")
        start, stop = self.view()
        move("mousePressed", x, button="left", buttons=1, clickCount=1)
        move("mouseMoved", x + 100, button="left", buttons=1)
        move("mouseReleased", x + 100, button="left")
        self.browser.frame()
        self.assertLess(self.view()[0], start)
        self.assertAlmostEqual(self.view()[1] - self.view()[0], stop - start)
        move("mouseMoved", 1)
        self.assertTrue(self.browser.run("document.getElementById('tip').hidden"))

    def test_print(self):
        """On paper there are no controls, colours are light, and each page has the times above."""
        self.open(large_board(2000, 64), 1999)
        self.browser.call("Emulation.setEmulatedMedia", media="print", features=[{"name": "prefers-color-scheme", "value": "dark"}])
        self.addCleanup(self.browser.call, "Emulation.setEmulatedMedia", media="", features=[])
        style = lambda element, name: self.browser.run(f"getComputedStyle(document.querySelector('{element}')).{name}")
        self.assertEqual([style(element, "display") for element in ("label", "#slider", "button", "#keys", "thead")],
                         ["none", "none", "none", "none", "table-header-group"])
        self.assertRegex(self.browser.run("document.getElementById('paper').textContent"), r"^tick 1999, \d+ stays$")
        self.assertEqual(style("body", "backgroundColor"), "rgb(255, 255, 255)")
        self.assertEqual(style("tbody tr", "breakInside"), "avoid")
        pages = self.browser.printed().count(b"/Type /Page\n")
        self.assertGreater(pages, 1)
        self.assertLess(pages, 6)

    def test_ten_thousand_bookings(self):
        """A step of the slider asks for the layout once, and takes milliseconds; here it is seen not to take a second."""
        index = large_board(10000, 64)
        self.assertGreater(index.block_count, 20000)
        self.compare(index, (0, 5000, 9999))
        self.at(5000)
        step = json.loads(self.browser.run(STEP))
        self.assertLessEqual(step["asked"], 1)
        self.assertLess(step["time"], 500)


if __name__ == "__main__":
    unittest.main()
