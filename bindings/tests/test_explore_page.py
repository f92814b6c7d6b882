"""The page of `ising2d-py explore` in a browser, where chromium is there."""

import json
import re
import statistics
import threading
import unittest
import xml.etree.ElementTree as tree

import browser
import ising2d
from ising2d._explore._server import Server, Start

READY = "document.body && document.body.dataset.state === 'ready'"
GRAPH = {
    "kind": "general",
    "n": 5,
    "bonds": [[0, 1, 1], [1, 2, -1], [2, 3, 1], [3, 0, 1]]
    + [[0, 4, 1], [1, 4, 1], [2, 4, -1], [3, 4, 1], [0, 1, 2]],
    "rotation": [[0, 8, 7, 16], [1, 17, 2, 10], [3, 4, 12], [5, 6, 14], [9, 11, 13, 15]],
}


@unittest.skipIf(browser.found() is None, "there is no chromium")
class Pages(unittest.TestCase):
    @classmethod
    def setUpClass(cls):
        cls.server = Server(0)
        threading.Thread(target=cls.server.serve_forever, args=(0.05,), daemon=True).start()
        cls.addClassCleanup(cls.server.server_close)
        cls.addClassCleanup(cls.server.shutdown)
        cls.page = browser.Browser(browser.found())
        cls.addClassCleanup(cls.page.close)

    def setUp(self):
        self.server.start = Start()
        self.page.size(1280, 800)
        self.addCleanup(self.no_trouble)

    def no_trouble(self):
        """Nothing was forbidden or thrown, and no request left this machine."""
        own = ("about:", "data:", "blob:", self.server.address)
        troubles, requested = self.page.troubles(), self.page.requested()
        self.page.events.clear()
        self.assertEqual(troubles, [])
        self.assertEqual([url for url in requested if not url.startswith(own)], [])

    # What is done on the page.

    def open(self, state=""):
        self.page.go(self.server.address + ("#" + state if state else ""))
        self.ready()

    def ready(self):
        self.page.until(READY)
        self.assertEqual(self.page.text("trouble"), "")

    def focus(self):
        self.page.value("document.getElementById('picture').focus()")

    def pressed(self, *keys):
        for key in keys:
            self.page.press(key)
        self.ready()

    def middle(self, lattice, bond):
        """The midpoint of a bond on the screen."""
        u, v = lattice.ends()[bond]
        places = lattice.places()
        script = "(() => { const own = document.getElementById('picture');"
        script += " const edge = own.getBoundingClientRect();"
        script += " return [edge.left, edge.top, ...own.dataset.frame.split(',').map(Number)]; })()"
        left, top, scale, x, y = self.page.value(script)
        right, down = ((places[u][side] + places[v][side]) / 2 for side in (0, 1))
        return left + x + scale * right, top + y + scale * down

    def click(self, lattice, bond, **how):
        self.page.click(*self.middle(lattice, bond), **how)
        self.ready()

    def energy(self):
        text = self.page.value("document.querySelector('#numbers dd').textContent")
        return float(re.sub(r"[^0-9.-]", "", text.replace("−", "-")))

    def chosen(self, name, value):
        self.page.value(f"document.querySelector('[name={name}][value={value}]').click()")
        self.ready()

    # What is to hold.

    def test_it_draws_what_the_package_solves(self):
        cases = (("pm", "square"), ("uniform", "triangular"), ("pm", "hexagonal"), ("uniform", "cylinder"))
        for law, kind in cases:
            self.open(f"kind={kind}&rows=6&cols=6&law={law}&seed=11")
            lattice = ising2d.draw(law, 11, kind, 6, 6)
            unit = 2**20 if law == "uniform" else 1
            self.assertAlmostEqual(self.energy(), lattice.ground().energy / unit, places=6)
            self.assertIn("the proof holds", self.page.text("verdict"))
            data = "document.getElementById('picture').getContext('2d').getImageData(0, 0, 700, 500).data"
            dark = f"[...{data}].filter((value, i) => i % 4 === 0 && value < 90).length"
            self.assertGreater(self.page.value(dark), 500)

    def test_a_click_turns_a_sign_and_undo_takes_it_back(self):
        self.open("kind=square&rows=6&cols=6&law=pm&seed=2")
        lattice = ising2d.draw("pm", 2, "square", 6, 6)
        couplings = lattice.couplings.tolist()
        for bond in (3, 40):
            couplings[bond] *= -1
            self.click(lattice, bond)
            self.assertEqual(self.energy(), lattice.with_couplings(couplings).ground().energy)
        for key, shift, bond in (("z", False, 40), ("z", False, 3), ("y", False, 3), ("z", True, 40)):
            couplings[bond] *= -1
            self.page.press(key, ctrl=True, shift=shift)
            self.ready()
            self.assertEqual(self.energy(), lattice.with_couplings(couplings).ground().energy)

    def test_a_forced_bond(self):
        self.open("kind=square&rows=6&cols=6&law=pm&seed=2")
        lattice = ising2d.draw("pm", 2, "square", 6, 6)
        self.chosen("mode", "force")
        for bond, cost in list(enumerate(lattice.costs().tolist()))[::17]:
            self.click(lattice, bond)
            self.page.until(f"document.getElementById('bond-text').textContent.startsWith('Bond {bond},')")
            text = self.page.until(
                "(/Forced .*/.exec(document.getElementById('bond-text').textContent) || [''])[0]"
            )
            self.assertIn(f"it costs {cost}:", text)
            self.assertIn("Checked", text)
        self.assertEqual(self.energy(), lattice.ground().energy)

    def test_shift_sets_a_size(self):
        self.open("kind=square&rows=4&cols=4&law=uniform&seed=2")
        lattice = ising2d.draw("uniform", 2, "square", 4, 4)
        self.click(lattice, 5, shift=True)
        for letter in "-3.5":
            self.page.press(letter)
        self.pressed("Enter")
        couplings = lattice.couplings.tolist()
        couplings[5] = -7 * 2**19
        self.page.until("location.hash.includes('edits=5_-3670016')")
        self.ready()
        energy = lattice.with_couplings(couplings).ground().energy
        self.assertAlmostEqual(self.energy(), energy / 2**20, places=6)

    def test_proofs_are_gone_through_to_the_end(self):
        for view, law in (("loops", "pm"), ("nest", "pm"), ("loops", "uniform"), ("nest", "uniform")):
            self.open(f"kind=square&rows=6&cols=6&law={law}&seed=4&view={view}")
            steps = self.page.value("Number(document.getElementById('steps').max)")
            self.assertGreater(steps, 4)
            self.focus()
            self.pressed("[")
            self.assertNotIn("No assignment", self.page.text("sum-text"))
            self.pressed("]")
            self.assertIn("No assignment has less energy", self.page.text("sum-text"))
            self.page.value("document.getElementById('steps').focus()")
            self.pressed("Home")
            for place in range(steps):
                self.assertNotIn("No assignment", self.page.text("sum-text"), place)
                self.pressed("ArrowRight")
            self.assertIn("No assignment has less energy", self.page.text("sum-text"))

    def test_by_keyboard_alone(self):
        self.open("kind=square&rows=5&cols=5&law=pm&seed=8")
        lattice = ising2d.draw("pm", 8, "square", 5, 5)
        for _ in range(40):
            self.page.press("Tab")
            if self.page.value("document.activeElement.id") == "picture":
                break
        self.pressed("ArrowRight", "ArrowDown")
        bond = int(re.match(r"Bond (\d+),", self.page.text("bond-text")).group(1))
        couplings = lattice.couplings.tolist()
        couplings[bond] *= -1
        self.pressed("f")
        self.assertEqual(self.energy(), lattice.with_couplings(couplings).ground().energy)
        self.pressed("c")
        self.page.until("document.getElementById('bond-text').textContent.includes('Forced')")
        self.pressed("Escape", "2")
        self.page.until("document.getElementById('panel-title').textContent.startsWith('Loops')")
        self.pressed("4")
        self.page.until("document.getElementById('panel-title').textContent.startsWith('Costs')")
        self.pressed("n")
        self.page.until("document.getElementById('seed').value === '9'")
        self.ready()
        self.assertEqual(self.energy(), ising2d.draw("pm", 9, "square", 5, 5).ground().energy)
        self.page.press("?")
        self.assertTrue(self.page.value("document.getElementById('help').open"))
        self.page.press("Escape")

    def test_everything_has_a_name(self):
        self.open()
        script = """[...document.querySelectorAll('button, input, select, canvas, ul, fieldset, dialog')]
            .filter((own) => !own.ariaLabel && !own.getAttribute('aria-labelledby'))
            .filter((own) => !own.closest('[aria-hidden]') && !own.textContent.trim())
            .filter((own) => !(own.labels && own.labels.length)).map((own) => own.id || own.outerHTML)"""
        self.assertEqual(self.page.value(script), [])

    def test_a_link_restores_the_state(self):
        state = "kind=cylinder&rows=5&cols=6&law=negative&seed=3&share=300"
        self.open(f"{state}&edits=4_-1.9_-2&view=wall&bond=7")
        self.page.until("location.hash.includes('edits=')")
        first, address = self.page.text("numbers"), self.page.value("location.href")
        wall = self.page.text("panel-text")
        self.page.go(address)
        self.ready()
        self.assertEqual((self.page.text("numbers"), self.page.text("panel-text")), (first, wall))
        self.assertIn("2 changed", self.page.text("title"))
        self.assertIn("Bond 7,", self.page.text("bond-text"))

    def test_a_file_and_its_link(self):
        self.server.start = Start("five.json", json.dumps(GRAPH))
        self.open()
        energy = ising2d.read(json.dumps(GRAPH)).ground().energy
        self.assertEqual(self.energy(), energy)
        self.focus()
        self.pressed("ArrowRight", "f")
        address, changed = self.page.until("location.hash.includes('edits=') && location.href"), self.energy()
        self.server.start = Start()
        self.page.go(address)
        self.ready()
        self.assertEqual(self.energy(), changed)
        self.assertIn("five.json", self.page.text("title"))

    def test_no_bonds_of_a_graph_cross(self):
        self.server.start = Start("five.json", json.dumps(GRAPH))
        self.open()
        self.page.value("document.getElementById('show-broken').click()")
        pieces = []
        for path in self.saved_svg().iter("{http://www.w3.org/2000/svg}path"):
            if path.get("stroke") in ("#999999", "#222222") and path.get("fill") == "none":
                for line in re.findall(r"M[^M]+", path.get("d")):
                    pairs = re.findall(r"[-\d.]+ [-\d.]+", line)
                    points = [tuple(map(float, pair.split())) for pair in pairs]
                    pieces += list(zip(points, points[1:])) if "a" not in line else []
        pieces = [piece for piece in pieces if max(y for _, y in piece) < 900]
        self.assertGreaterEqual(len(pieces), 11)
        crossing = [(one, two) for i, one in enumerate(pieces) for two in pieces[:i] if cross(one, two)]
        self.assertEqual(crossing, [])

    def saved_svg(self):
        self.page.value("document.getElementById('save-svg').click()")
        return tree.fromstring(self.page.downloaded("instance.svg"))

    def test_what_is_taken_away(self):
        self.open("kind=triangular&rows=4&cols=4&law=pm&seed=6&edits=2_5")
        lattice = ising2d.draw("pm", 6, "triangular", 4, 4)
        couplings = lattice.couplings.tolist()
        couplings[2] = 5
        for form, name in (("records", "instance.txt"), ("json", "instance.json")):
            self.page.value(f"document.querySelector('[data-form={form}]').click()")
            self.assertEqual(ising2d.read(self.page.downloaded(name)), lattice.with_couplings(couplings))
        self.page.value("document.querySelector('[data-form=proof]').click()")
        self.assertEqual(json.loads(self.page.downloaded("proof.json"))["energy"], self.energy())
        self.assertGreater(len(list(self.saved_svg())), 8)
        self.page.value("document.getElementById('save-png').click()")
        self.assertEqual(self.page.downloaded("instance.png")[:8], b"\x89PNG\r\n\x1a\n")

    def test_faults_are_told(self):
        self.page.go(self.server.address + "#kind=square&rows=200&cols=2")
        self.assertIn("rows", self.page.until("document.getElementById('trouble')?.textContent"))
        self.page.events.clear()

    def test_what_is_refused_changes_nothing(self):
        self.open(f"kind=square&rows=3&cols=3&law=one&edits=0_{2**43}&bond=1")
        energy = self.energy()
        self.focus()
        self.page.press("e")
        for letter in str(2**43):
            self.page.press(letter)
        self.page.press("Enter")
        self.assertIn("17592186044416", self.page.until("document.getElementById('trouble').textContent"))
        self.page.until(READY)
        self.assertEqual(self.energy(), energy)
        self.assertIn("coupling 1,", self.page.text("bond-text"))
        self.assertTrue(self.page.value("document.getElementById('undo').disabled"))
        self.page.events.clear()

    def test_a_large_lattice_is_drawn(self):
        """The time is printed, not tested, since the machine may be busy."""
        self.open("kind=square&rows=100&cols=100&law=pm&seed=1")
        self.focus()
        self.pressed("ArrowRight")
        taken = []
        for _ in range(9):
            self.pressed("f")
            taken.append(float(self.page.value("document.getElementById('picture').dataset.taken")))
        self.assertLess(self.energy(), -13000)
        middle, least = statistics.median(taken), min(taken)
        print(f"a turned sign among 10,000 spins: drawn after {middle:.0f} ms, {least:.0f} at the least")

    def test_print_has_the_picture(self):
        self.open()
        self.page.value("dispatchEvent(new Event('beforeprint'))")
        self.assertTrue(self.page.value("document.querySelectorAll('#print svg path').length") > 3)
        self.page.value("dispatchEvent(new Event('afterprint'))")


def cross(one, two):
    """Whether two pieces of lines cross within both."""
    (a, b), (c, d) = one, two

    def side(p, q, r):
        value = (q[0] - p[0]) * (r[1] - p[1]) - (q[1] - p[1]) * (r[0] - p[0])
        return 0 if abs(value) < 1 else (1 if value > 0 else -1)

    return side(a, b, c) * side(a, b, d) < 0 and side(c, d, a) * side(c, d, b) < 0


if __name__ == "__main__":
    unittest.main()
