"""The desk's server: whom it answers, what it answers, what it writes, how it ends."""

import base64
import json
import os
import signal
import socket
import subprocess
import time
import unittest

from served import CLINIC, COMMAND, LOOP, NEXT, WARD, Desks, content, played

JSON = "application/json"


def sent(path):
    """A file as the page sends it."""
    return {"name": os.path.basename(path), "data": base64.b64encode(content(path)).decode()}


class Refusals(Desks):
    """Requests without the secret, from another origin or with another host name are refused."""

    def setUp(self):
        super().setUp()
        self.served = self.desk(WARD)
        self.part = f"/{self.served.secret}/policy"

    def status(self, path, **headers):
        """The status of a request, which tells nothing of the policy where it is refused."""
        status, body, _ = self.served.asked("GET", path, **headers)
        self.assertEqual(b"ANNA" in body, status == 200)
        return status

    def test_the_secret(self):
        self.assertEqual(self.status(self.part), 200)
        wrong = self.served.secret[:-1] + ("A" if self.served.secret[-1] != "A" else "B")
        for path in ("/", "/policy", "//policy", f"/{wrong}/policy", f"/{self.served.secret}x/policy", f"/{self.served.secret[:-1]}/policy",
                     f"/?{self.served.secret}/policy", f"/x/{self.served.secret}/policy", "/%C3%A9/policy"):
            self.assertEqual(self.status(path), 403, path)
        self.assertGreaterEqual(len(self.served.secret), 32)
        self.assertNotEqual(self.served.secret, self.desk(WARD).secret)

    def test_the_host_name(self):
        for host in ("localhost", f"localhost:{self.served.port}", "127.0.0.1", "127.0.0.1:1", f"evil.example:{self.served.port}", ""):
            self.assertEqual(self.status(self.part, Host=host), 403, host)
        self.assertEqual(self.status(self.part, Host=f"127.0.0.1:{self.served.port}"), 200)

    def test_the_origin(self):
        for origin in ("http://evil.example", "null", f"https://127.0.0.1:{self.served.port}", f"http://localhost:{self.served.port}", "http://127.0.0.1"):
            self.assertEqual(self.status(self.part, Origin=origin), 403, origin)
        self.assertEqual(self.status(self.part, Origin=f"http://127.0.0.1:{self.served.port}"), 200)
        self.assertEqual((self.status(self.part, Sec_Fetch_Site="cross-site"), self.status(self.part, Sec_Fetch_Site="same-site")), (403, 403))
        self.assertEqual((self.status(self.part, Sec_Fetch_Site="same-origin"), self.status(self.part, Sec_Fetch_Site="none")), (200, 200))

    def test_what_does_something_is_refused_alike_and_takes_json_alone(self):
        part = f"/{self.served.secret}/try"
        body = json.dumps({"do": "open"})
        self.assertEqual(self.served.asked("POST", "/try", body, Content_Type=JSON)[0], 403)
        self.assertEqual(self.served.asked("POST", part, body, Content_Type=JSON, Origin="http://evil.example")[0], 403)
        for kind in ("text/plain", "application/x-www-form-urlencoded", "multipart/form-data"):
            self.assertEqual(self.served.asked("POST", part, body, Content_Type=kind)[0], 415)
        self.assertEqual(self.served.asked("POST", part, b"", Content_Type=JSON, Content_Length="99999999")[0], 413)
        self.assertEqual(self.served.post("try", {})[1]["steps"], [])
        self.assertEqual(self.served.asked("PUT", part, body)[0], 501)

    def test_it_listens_on_this_machine_alone(self):
        with open("/proc/net/tcp", encoding="ascii") as file:
            rows = [line.split() for line in file.readlines()[1:]]
        found = [row[1].split(":")[0] for row in rows if int(row[1].split(":")[1], 16) == self.served.port and row[3] == "0A"]
        self.assertEqual(found, ["0100007F"])
        with socket.socket(socket.AF_INET, socket.SOCK_STREAM) as other:
            self.assertNotEqual(other.connect_ex(("127.0.0.2", self.served.port)), 0)

    def test_the_page_may_load_nothing_from_elsewhere(self):
        for part in ("", "policy", "nothing"):
            headers = self.served.get(part)[2]
            rules = dict(rule.strip().split(" ", 1) for rule in headers["Content-Security-Policy"].split(";"))
            self.assertEqual({rules[name] for name in ("default-src", "base-uri", "form-action", "frame-ancestors")}, {"'none'"})
            self.assertEqual({rules[name] for name in ("script-src", "style-src", "connect-src")}, {"'self'"})
            self.assertEqual((headers["Referrer-Policy"], headers["Cache-Control"], headers["X-Content-Type-Options"]), ("no-referrer", "no-store", "nosniff"))


class Answers(Desks):
    """What is shown and done."""

    def test_the_parts(self):
        served = self.desk(WARD)
        self.assertEqual([served.get(part)[0] for part in ("", "desk.css", "desk.js", "policy", "script", "image", "report")], [200] * 7)
        self.assertEqual([served.get(part)[0] for part in ("nothing", "../cli.py", "view.py", "try")], [404] * 4)
        self.assertEqual(json.loads(served.get("policy")[1])["exclusions"][0]["figure"], "3 of 4 combinations are allowed")
        self.assertTrue(served.get()[1].startswith(b"<!DOCTYPE html>"))

    def test_the_story_and_its_script(self):
        served = self.desk(WARD)
        for deed in ({"do": "open"}, {"do": "ask", "permission": 2, "window": 0}, {"do": "open"}, {"do": "ask", "permission": 4, "window": 1}):
            status, state = served.post("try", deed)
            self.assertEqual(status, 200)
        self.assertEqual((state["steps"][-1]["number"], state["in_the_way"]), (20, [[0, 0, [0]]]))
        script, image = served.get("script")[1].decode(), served.get("image")[1]
        self.assertEqual(played(image, script), [step["output"] for step in state["steps"]])
        self.assertEqual(len(served.post("try", {"do": "undo"})[1]["steps"]), 3)
        self.assertEqual(served.post("try", {"do": "restart"})[1]["steps"], [])
        loaded = served.post("try", {"do": "load", "data": base64.b64encode(script.encode()).decode()})[1]
        self.assertEqual([step["output"] for step in loaded["steps"]], [step["output"] for step in state["steps"]])

    def test_what_can_not_be_done_is_told_and_changes_nothing(self):
        served = self.desk(WARD)
        served.post("try", {"do": "open"})
        wrong = ({"do": "ask"}, {"do": "ask", "permission": 5}, {"do": "ask", "permission": True}, {"do": "fly"}, {"user": 1}, {"user": "0"}, {"window": -1},
                 {"aims": [1]}, {"aims": [1, 3]}, {"aims": "11"}, {"do": "close"}, {"do": "load"}, {"do": "load", "data": "?"}, {"do": "load", "data": "eA=="})
        for asked in wrong:
            self.assertEqual(served.post("try", asked)[0], 400, asked)
        self.assertEqual(served.asked("POST", f"/{served.secret}/try", b"[]", Content_Type=JSON)[0], 400)
        self.assertEqual(served.asked("POST", f"/{served.secret}/try", b"{", Content_Type=JSON)[0], 400)
        self.assertEqual(len(served.post("try", {})[1]["steps"]), 1)

    def test_compare_takes_texts_images_and_a_ledger(self):
        served = self.desk(WARD)
        served.post("try", {"do": "open"})
        served.post("try", {"do": "ask", "permission": 4, "window": 0})
        status, found = served.post("compare", {"new": sent(NEXT), "ledger": "trial"})
        self.assertEqual((status, found["stopped"]["people"][0]["person"]), (200, "ANNA (0)"))
        image = {"name": "policy.img", "data": base64.b64encode(served.get("image")[1]).decode()}
        self.assertTrue(served.post("compare", {"new": image})[1]["same"])
        self.assertTrue(served.post("compare", {"old": sent(CLINIC), "new": sent(CLINIC)})[1]["same"])
        ledger = {"name": "ledger", "data": base64.b64encode(bytes(288)).decode()}
        self.assertEqual(served.post("compare", {"new": sent(NEXT), "ledger": ledger})[1]["stopped"]["people"], [])
        status, why = served.post("compare", {"new": sent(self.path("loop.policy", LOOP))})
        self.assertEqual((status, why), (400, "loop.policy:7: loop: Head over Consultant over Doctor over Head"))
        self.assertEqual(served.post("compare", {"new": {"name": "x", "data": "AAAA"}})[0], 400)

    def test_the_file_read_again_plays_what_was_tried_under_the_new_text(self):
        path = self.path("ward.policy", content(WARD).decode())
        served = self.desk(path)
        for deed in ({"do": "open"}, {"do": "ask", "permission": 2, "window": 0}, {"do": "open"}, {"do": "ask", "permission": 4, "window": 1}):
            served.post("try", deed)
        self.path("ward.policy", content(WARD).decode().replace("exclude", "# exclude"))
        self.assertEqual(served.post("reload", {}), (200, {"accepted": True}))
        self.assertEqual([step["number"] for step in served.post("try", {})[1]["steps"]], [0, 0, 0, 0])
        self.path("ward.policy", LOOP)
        self.assertEqual(served.post("reload", {}), (200, {"accepted": False}))
        self.assertEqual((served.post("try", {})[0], served.get("report")[0], served.get("script")[0]), (400, 400, 400))
        self.assertIn(b"edge loop", served.get()[1])
        os.remove(path)
        self.assertEqual(served.post("reload", {})[0], 400)

    def test_the_largest_policy_is_answered_within_100_milliseconds(self):
        served = self.desk(self.largest())
        served.post("try", {"do": "open"})
        times = []
        for permission in range(5):
            began = time.monotonic()
            self.assertEqual(served.post("try", {"do": "ask", "permission": permission, "window": 0})[0], 200)
            times.append(time.monotonic() - began)
        self.assertLess(min(times), 0.1)


class Start(Desks):
    """How it starts and ends."""

    def test_ctrl_c_ends_it_and_nothing_is_written(self):
        served = self.desk(WARD)
        self.assertEqual(served.first, f"{WARD}: the desk is at {served.address}\nCtrl-C ends it\n")
        for part in ("", "policy", "report", "script", "image"):
            served.get(part)
        served.post("try", {"do": "open"})
        served.process.send_signal(signal.SIGINT)
        out, err = served.process.communicate(timeout=10)
        self.assertEqual((served.process.returncode, out, err), (0, "\n", ""))
        self.assertEqual(os.listdir(served.folder.name), [])

    def test_a_browser_that_goes_away_amid_an_answer_does_not_end_it(self):
        served = self.desk(self.largest())
        for _ in range(5):
            with socket.create_connection((served.host, served.port)) as gone:
                gone.sendall(f"GET /{served.secret}/desk.css HTTP/1.1\r\nHost: {served.host}:{served.port}\r\n\r\n".encode() * 20)
        time.sleep(1)
        self.assertEqual((served.process.poll(), served.get("policy")[0]), (None, 200))
        served.process.send_signal(signal.SIGINT)
        self.assertEqual((served.process.communicate(timeout=10)[1], served.process.returncode), ("", 0))

    def run_it(self, *words):
        """The exit status of a desk that does not start, and what it said."""
        done = subprocess.run([COMMAND, "desk", *words, "--no-browser"], cwd=self.folder, capture_output=True, text=True, check=False, timeout=20)
        return done.returncode, done.stdout, done.stderr

    def test_what_is_wrong_is_told(self):
        self.assertEqual(self.run_it("missing.policy"), (2, "", "nutrameza: missing.policy: No such file or directory\n"))
        taken = self.desk(WARD).port
        self.assertEqual(self.run_it(WARD, "--port", str(taken)), (2, "", f"nutrameza: port {taken}: Address already in use\n"))
        self.assertEqual(self.run_it(WARD, "--port", "70000")[0], 2)

    def test_a_port_may_be_named_and_a_refused_text_starts_too(self):
        with socket.socket() as free:
            free.bind(("127.0.0.1", 0))
            port = free.getsockname()[1]
        served = self.desk(self.path("loop.policy", LOOP), "--port", str(port))
        self.assertEqual(served.port, port)
        self.assertIn(b"loop: Head over Consultant over Doctor over Head", served.get()[1])

    def test_an_image_with_names(self):
        subprocess.run([COMMAND, "build", WARD, "-o", os.path.join(self.folder, "policy.img")], check=True, capture_output=True)
        served = self.desk(os.path.join(self.folder, "policy.img"), WARD)
        self.assertEqual(json.loads(served.get("policy")[1])["names"]["role"], ["Doctor", "Data_Manager"])


if __name__ == "__main__":
    unittest.main()
