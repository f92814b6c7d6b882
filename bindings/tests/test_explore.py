"""The page of `ising2d-py explore`: its server by plain requests, what it answers beside the package's calls,
and how it starts and ends. test_explore_page.py tries the page itself in a browser."""

import base64
import functools
import hashlib
import http.client
import json
import os
import re
import signal
import subprocess
import sys
import threading
import time
import unittest

import ising2d
from ising2d._explore import _requests
from ising2d._explore._server import MOST_BYTES, Fault, Server, Solvers, Start
from ising2d._explore._shapes import faces_of

SMALL = {"kind": "square", "rows": 2, "cols": 2, "couplings": [3, 4, 2, -5]}
GRAPH = {
    "kind": "general",
    "n": 3,
    "bonds": [[0, 1, 3], [1, 2, -4], [2, 0, 5]],
    "rotation": [[0, 5], [2, 1], [4, 3]],
}
KINDS = ("square", "triangular", "hexagonal", "cylinder")


def shown(kind="square", rows=5, cols=6, law="pm", seed="7", **more):
    """A drawn instance, as the page gets it."""
    return _requests.draw({"kind": kind, "rows": rows, "cols": cols, "law": law, "seed": seed, **more})


class Served(unittest.TestCase):
    """A server in a thread of this process."""

    @classmethod
    def setUpClass(cls):
        cls.server = Server(0, Start("name.txt", "square,1,1\nend\n"), Solvers(2, 20.0))
        cls.port = cls.server.server_address[1]
        threading.Thread(target=cls.server.serve_forever, args=(0.05,), daemon=True).start()
        cls.addClassCleanup(cls.server.server_close)
        cls.addClassCleanup(cls.server.shutdown)

    def sent(self, method, path, body=None, **headers):
        """The status, the headers and the body of an answer."""
        line = http.client.HTTPConnection("127.0.0.1", self.port, timeout=30)
        try:
            line.request(method, path, body, {name.replace("_", "-"): text for name, text in headers.items()})
            found = line.getresponse()
            return found.status, found.headers, found.read()
        finally:
            line.close()

    def asked(self, name, given, **headers):
        """The status and the object of the answer to a request."""
        body = given if isinstance(given, (bytes, str)) else json.dumps(given)
        own = {"Content_Type": "application/json", **headers}
        status, _, text = self.sent("POST", f"/{self.server.token}/api/{name}", body, **own)
        return status, json.loads(text)


class Pages(Served):
    def test_the_page_and_its_policy(self):
        status, headers, body = self.sent("GET", f"/{self.server.token}/")
        self.assertEqual((status, headers.get_content_type()), (200, "text/html"))
        text, policy = body.decode(), headers["Content-Security-Policy"]
        for tag in ("script", "style"):
            inner = re.search(f"<{tag}[^>]*>(.*?)</{tag}>", text, re.DOTALL).group(1)
            digest = base64.b64encode(hashlib.sha256(inner.encode()).digest()).decode()
            self.assertIn(f"{tag}-src 'sha256-{digest}'", policy)
        self.assertIn("default-src 'none'", policy)
        self.assertNotIn("unsafe", policy)
        self.assertEqual(headers["X-Content-Type-Options"], "nosniff")

    def test_the_page_names_no_other_host(self):
        text = self.server.page.text.decode()
        self.assertEqual(set(re.findall(r"https?://[\w.]*", text)), {"http://www.w3.org"})
        self.assertNotRegex(text, r"<(script|link|img|iframe)[^>]* src=")

    def test_a_style_or_a_handler_in_a_tag_would_not_run(self):
        self.assertNotRegex(self.server.page.text.decode(), r"<[a-z]+[^>]* (style|on[a-z]+)=")

    def test_a_wrong_token_is_refused(self):
        for path in ("/", "/wrong/", "/%C3%A9/", "/wrong/api/solve", f"/{self.server.token[:-1]}/"):
            with self.subTest(path=path):
                self.assertEqual(self.sent("GET", path)[0], 403)
                self.assertEqual(self.sent("POST", path, b"{}", Content_Type="application/json")[0], 403)

    def test_a_wrong_host_is_refused(self):
        path = f"/{self.server.token}/"
        others = ("evil.example", "127.0.0.1", f"127.0.0.1:{self.port + 1}", f"evil.example:{self.port}", "")
        for host in others:
            with self.subTest(host=host):
                self.assertEqual(self.sent("GET", path, Host=host)[0], 403)
                self.assertEqual(self.asked("solve", {"instance": SMALL}, Host=host)[0], 403)
        self.assertEqual(self.sent("GET", path, Host=f"localhost:{self.port}")[0], 200)

    def test_other_pages_are_refused(self):
        others = ({"Origin": "http://evil.example"}, {"Origin": "null"}, {"Sec_Fetch_Site": "cross-site"})
        for headers in others:
            with self.subTest(headers=headers):
                self.assertEqual(self.asked("solve", {"instance": SMALL}, **headers)[0], 403)
        own = {"Origin": f"http://127.0.0.1:{self.port}", "Sec_Fetch_Site": "same-origin"}
        self.assertEqual(self.asked("solve", {"instance": SMALL}, **own)[0], 200)

    def test_other_paths_and_methods(self):
        self.assertEqual(self.sent("GET", f"/{self.server.token}/page.css")[0], 404)
        self.assertEqual(self.sent("GET", f"/{self.server.token}/../../etc/passwd")[0], 404)
        self.assertEqual(self.asked("nothing", {})[0], 404)
        self.assertEqual(self.sent("PUT", f"/{self.server.token}/")[0], 501)

    def test_what_is_no_json_is_refused(self):
        for body in (b"", b"{", b"[]", b"1", b"\xff", b"[" * 10000, b'{"instance": ' + b"1" * 5000 + b"}"):
            with self.subTest(body=body[:20]):
                self.assertEqual(self.asked("solve", body)[0], 400)
        for kind in ("text/plain", "application/x-www-form-urlencoded", ""):
            self.assertEqual(self.asked("solve", {"instance": SMALL}, Content_Type=kind)[0], 415)

    def test_a_body_too_large_is_refused(self):
        status, found = self.asked("open", json.dumps({"text": "x" * MOST_BYTES}))
        self.assertEqual(status, 413)
        self.assertIn(str(MOST_BYTES), found["error"])
        largest = json.dumps({"text": "x" * (MOST_BYTES - 12)})
        self.assertEqual((len(largest), self.asked("open", largest)[0]), (MOST_BYTES, 422))

    def test_a_body_without_its_length_is_refused(self):
        line = http.client.HTTPConnection("127.0.0.1", self.port, timeout=30)
        line.putrequest("POST", f"/{self.server.token}/api/solve")
        line.putheader("Content-Type", "application/json")
        line.endheaders()
        self.assertEqual(line.getresponse().status, 411)
        line.close()

    def test_strange_members_are_refused(self):
        long = [1] * 3
        wrong = (
            {"instance": SMALL, "more": 1},
            {},
            {"instance": []},
            {"instance": {**SMALL, "kind": "kagome"}},
            {"instance": {**SMALL, "rows": "2 "}},
            {"instance": {**SMALL, "rows": True}},
            {"instance": {**SMALL, "couplings": [1.5, 1, 1, 1]}},
            {"instance": {**SMALL, "couplings": [2**70, 1, 1, 1]}},
            {"instance": {**GRAPH, "n": 10001}},
            {"instance": {**SMALL, "rows": 101, "cols": 100}},
            {"instance": {**GRAPH, "bonds": [long] * 30001}},
            {"instance": SMALL, "loops": 1},
        )
        for given in wrong:
            with self.subTest(given=str(given)[:80]):
                status, found = self.asked("solve", given)
                self.assertEqual(status, 400)
                self.assertTrue(found["error"])

    def test_refusals_of_the_library_are_told(self):
        status, found = self.asked("solve", {"instance": {**SMALL, "couplings": [1, 2, 3]}})
        self.assertEqual(status, 422)
        self.assertIn("4", found["error"])
        self.assertEqual(self.asked("wall", {"instance": SMALL})[0], 422)
        self.assertEqual(self.asked("open", {"text": "square,1,2\nx\nend\n"})[0], 422)

    def test_what_it_starts_with(self):
        self.assertEqual(self.asked("start", {}), (200, {"name": "name.txt", "text": "square,1,1\nend\n"}))

    def test_a_line_is_used_again(self):
        line = http.client.HTTPConnection("127.0.0.1", self.port, timeout=30)
        for _ in range(3):
            body, own = json.dumps({"instance": SMALL}), {"Content-Type": "application/json"}
            line.request("POST", f"/{self.server.token}/api/solve", body, own)
            self.assertEqual(json.loads(line.getresponse().read())["energy"], -10)
        line.close()


class Limits(unittest.TestCase):
    def test_what_takes_too_long_is_given_up(self):
        solvers, going_on = Solvers(1, 0.1), threading.Event()

        def slow(given):
            going_on.wait(10)
            return given

        with self.assertRaises(Fault) as first:
            solvers.answer(slow, {})
        with self.assertRaises(Fault) as second:
            solvers.answer(dict, {})
        self.assertEqual((first.exception.status, second.exception.status), (504, 503))
        going_on.set()
        solvers.seconds = 10.0
        self.assertEqual(solvers.answer(dict, {"one": 1}), {"one": 1})

    def test_at_most_so_many_at_once(self):
        solvers, lock, now, most = Solvers(2, 10.0), threading.Lock(), [0], [0]

        def call(given):
            with lock:
                now[0] += 1
                most[0] = max(most[0], now[0])
            time.sleep(0.02)
            with lock:
                now[0] -= 1
            return given

        threads = [threading.Thread(target=solvers.answer, args=(call, {})) for _ in range(8)]
        for thread in threads:
            thread.start()
        for thread in threads:
            thread.join()
        self.assertEqual(most, [2])
        self.assertEqual(Solvers().count, os.cpu_count())

    def test_faults_come_through(self):
        with self.assertRaises(ZeroDivisionError):
            Solvers(1, 1.0).answer(lambda given: 1 / 0, {})


class Answers(unittest.TestCase):
    def test_laws_are_those_of_the_package(self):
        for law in _requests.UNITS:
            p = 0.25 if law in ("negative", "diluted") else None
            for kind in KINDS:
                found = shown(kind, 4, 5, law, str(2**64 - 3), share=250)["instance"]
                lattice = ising2d.draw(law, 2**64 - 3, kind, 4, 5, p)
                self.assertEqual(found["couplings"], list(lattice.couplings), law)

    def test_a_ground_state_with_both_proofs(self):
        for kind in KINDS:
            given = shown(kind, 6, 6, "gaussian")["instance"]
            lattice = ising2d.Lattice(kind, 6, 6, given["couplings"])
            found = _requests.solve({"instance": given, "loops": True, "nest": True})
            self.assertEqual(found["energy"], lattice.ground().energy)
            self.assertEqual(lattice.energy_of(found["spins"]), found["energy"])
            self.assertEqual([each["holds"] for each in found["verdicts"]], [True, True])
            total = sum(map(abs, given["couplings"]))
            self.assertEqual(sum(found["loops"]["weights"]), found["energy"] + total)
            self.assertEqual(sum(found["nest"]["radii"]), 2 * (found["energy"] + total))

    def test_faces_are_numbered_as_in_the_library(self):
        for kind in KINDS:
            made = shown(kind, 7, 6, "uniform")
            given, faces = made["instance"], made["shape"]["faces"]
            nest = _requests.solve({"instance": given, "nest": True})["nest"]
            self.assertEqual(len(nest["regions"]), len(faces))
            side = {dart: number for number, face in enumerate(faces) for dart in face}
            for k, j in enumerate(given["couplings"]):
                self.assertLessEqual(climb(nest, side[2 * k], side[2 * k + 1]), 4 * abs(j))

    def test_faces_of_a_graph(self):
        self.assertEqual(faces_of(GRAPH["rotation"], 3), [[0, 2, 4], [1, 5, 3]])
        self.assertEqual(faces_of([[], [0], [1], []], 1), [[0, 1], [], []])

    def test_a_turned_sign(self):
        given = shown()["instance"]
        for bond in range(0, len(given["couplings"]), 7):
            couplings = list(given["couplings"])
            couplings[bond] *= -1
            found = _requests.solve({"instance": {**given, "couplings": couplings}})
            self.assertEqual(found["energy"], ising2d.Lattice("square", 5, 6, couplings).ground().energy)

    def test_a_forced_bond_costs_what_the_library_says(self):
        for kind in KINDS:
            for law in ("pm", "gaussian"):
                given = shown(kind, 5, 5, law, "3")["instance"]
                lattice = ising2d.Lattice(kind, 5, 5, given["couplings"])
                spins = _requests.solve({"instance": given})["spins"]
                for bond, cost in enumerate(lattice.costs().tolist()):
                    self.droplet(lattice, given, spins, bond, cost)

    def droplet(self, lattice, given, spins, bond, cost):
        """The droplet of a bond: its cost, its border, and that it and the rest are connected."""
        found = _requests.force({"instance": given, "bond": bond, "spins": spins})
        self.assertEqual(found["cost"], cost)
        self.assertTrue(found["verdict"]["holds"])
        turned, ends = set(found["turned"]), lattice.ends()
        other = [-value if spin in turned else value for spin, value in enumerate(spins)]
        self.assertEqual(lattice.energy_of(other), lattice.energy_of(spins) + cost)
        self.assertIn(bond, found["border"])
        border = [k for k, (u, v) in enumerate(ends) if (u in turned) != (v in turned)]
        self.assertEqual(found["border"], border)
        self.assertLessEqual(2 * len(turned), lattice.n)
        for part in (turned, set(range(lattice.n)) - turned):
            self.assertEqual(len(reached(part, ends)), len(part))

    def test_costs_clusters_and_walls(self):
        given = shown("cylinder", 5, 6)["instance"]
        lattice = ising2d.Lattice("cylinder", 5, 6, given["couplings"])
        self.assertEqual(_requests.costs({"instance": given})["costs"], lattice.costs().tolist())
        self.assertEqual(_requests.clusters({"instance": given})["clusters"], list(lattice.clusters()))
        wall = _requests.wall({"instance": given})
        self.assertEqual(wall["difference"], lattice.wall().difference)
        self.assertTrue(all(each["holds"] for each in wall["verdicts"]))

    def test_a_graph(self):
        opened = _requests.opened({"text": json.dumps(GRAPH)})
        self.assertEqual(opened["shape"]["ends"], [0, 1, 1, 2, 2, 0])
        self.assertIsNone(opened["shape"]["places"])
        found = _requests.solve({"instance": opened["instance"]})
        self.assertEqual(found["energy"], ising2d.read(json.dumps(GRAPH)).ground().energy)

    def test_what_is_taken_away(self):
        graph = {**GRAPH, "seam": [2]}
        proofs = []
        drawn = [shown(kind, 4, 5)["instance"] for kind in KINDS]
        for given in (*drawn, graph, {"kind": "square", "rows": 1, "cols": 1, "couplings": []}):
            texts = {}
            for form in _requests.FORMS:
                texts[form] = _requests.export({"instance": given, "form": form})["text"]
            instance = ising2d.read(json.dumps(given))
            self.assertEqual(ising2d.read(texts["records"]), instance)
            self.assertEqual(ising2d.read(texts["json"]), instance)
            names = {"print": lambda *words: None}
            exec(texts["python"], names)
            self.assertEqual(names["found"].energy, instance.ground().energy)
            proofs.append(texts["proof"])
        words = [sys.executable, "-m", "ising2d", "lines", "check"]
        judged = subprocess.run(words, input="".join(proofs), capture_output=True, text=True)
        self.assertEqual([json.loads(line)["holds"] for line in judged.stdout.splitlines()], [True] * 6)

    def test_a_large_proof_is_a_nest(self):
        given = shown("square", 50, 50)["instance"]
        found = json.loads(_requests.export({"instance": given, "form": "proof"})["text"])
        lattice = ising2d.Lattice("square", 50, 50, given["couplings"])
        nest = ising2d.Nest(**found["nest"])
        self.assertTrue(lattice.check(found["energy"], found["spins"], nest=nest))


def climb(nest, one, other):
    """By how much the heights of all regions change from one face to another."""
    heights = {}
    for face, sign in ((one, 1), (other, -1)):
        region = nest["regions"][face]
        taken = nest["at_radii"][face]
        while region != ising2d.Nest.NONE:
            heights[region] = heights.get(region, 0) + sign * (nest["radii"][region] - taken)
            region, taken = nest["parents"][region], 0
    return sum(map(abs, heights.values()))


def reached(part, ends):
    """The spins of a set that are joined to its first one within it."""
    seen, grew = set(list(part)[:1]), True
    while grew:
        more = {w for u, v in ends if {u, v} <= part and {u, v} & seen for w in (u, v)} - seen
        seen, grew = seen | more, bool(more)
    return seen


class Starts(unittest.TestCase):
    """The command itself, in its own process."""

    def started(self, *words):
        # A shell has what it starts in the background ignore interrupts, which all below would inherit.
        heeds = functools.partial(signal.signal, signal.SIGINT, signal.SIG_DFL)
        own = subprocess.Popen(
            [sys.executable, "-m", "ising2d", "explore", "--no-browser", *words],
            stdout=subprocess.PIPE,
            stderr=subprocess.PIPE,
            text=True,
            preexec_fn=heeds,
        )
        self.addCleanup(own.kill)
        self.addCleanup(own.stdout.close)
        self.addCleanup(own.stderr.close)
        return own

    def test_it_serves_until_ctrl_c(self):
        own = self.started("--port", "0")
        address = own.stdout.readline().strip()
        self.assertRegex(address, r"^http://127\.0\.0\.1:\d+/[\w-]{32}/$")
        port = int(address.split(":")[2].split("/")[0])
        second = self.started("--port", str(port))
        self.assertEqual(second.wait(20), 4)
        self.assertIn("perhaps another", second.stderr.read().lower())
        own.send_signal(signal.SIGINT)
        self.assertEqual(own.wait(20), 0)

    def test_tokens_differ(self):
        tokens = set()
        for _ in range(2):
            server = Server(0)
            server.server_close()
            tokens.add(server.token)
        self.assertEqual(len(tokens), 2)

    def test_a_link_of_another_run(self):
        own = self.started("--port", "0", "http://127.0.0.1:1/old/#kind=square&rows=3&edits=1_-1")
        self.assertTrue(own.stdout.readline().strip().endswith("/#kind=square&rows=3&edits=1_-1"))
        own.send_signal(signal.SIGINT)
        own.wait(20)

    def test_wrong_words(self):
        self.assertEqual(self.started("--port", "x").wait(20), 2)
        self.assertEqual(self.started("--port", "65536").wait(20), 2)
        self.assertEqual(self.started("no-such-file.txt").wait(20), 4)


if __name__ == "__main__":
    unittest.main()
