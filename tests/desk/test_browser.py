"""The desk in a real browser: Chromium through its driver, headless, with a profile of its own that is gone
afterwards."""

import glob
import json
import os
import tempfile
import time
import unittest
from urllib.parse import urlsplit

from selenium import webdriver
from selenium.webdriver.chrome.service import Service
from selenium.webdriver.common.by import By
from selenium.webdriver.common.keys import Keys
from selenium.webdriver.support.ui import Select, WebDriverWait
from served import CLINIC, LOOP, NEXT, REACH, WARD, Desks, Running, content, largest, played

PATIENCE = 20

# The longest that an answer to a click may take, in milliseconds, and how often it is measured: the least counts, since
# other work on the machine is no part of it.
CLICK = 100
TIMES = 5

# Clicks what a selector names and says how long it takes until a condition holds and the page has been painted.
CLICKED = """
const [selector, condition, done] = arguments;
const holds = new Function("return " + condition);
const began = performance.now();
const painted = () => setTimeout(() => done(performance.now() - began));
const look = () => requestAnimationFrame(holds() ? painted : look);
document.querySelector(selector).dispatchEvent(new MouseEvent("click", {bubbles: true, cancelable: true}));
look();
"""


def options(folder):
    """How Chromium is started."""
    made = webdriver.ChromeOptions()
    for word in ("--headless=new", "--no-sandbox", "--disable-gpu", "--disable-dev-shm-usage", "--window-size=1280,900", "--no-first-run",
                 "--disable-background-networking", "--disable-component-update", f"--user-data-dir={folder}/profile"):
        made.add_argument(word)
    made.add_experimental_option("prefs", {"download.default_directory": f"{folder}/saved", "download.prompt_for_download": False})
    made.set_capability("goog:loggingPrefs", {"browser": "ALL", "performance": "ALL"})
    return made


class Browser:
    """The browser of all tests, and the folder of its profile and of what it saves."""

    profile = browser = None


def setUpModule():
    """Starts the browser; what its own first page asks for is no part of the desk."""
    Browser.profile = tempfile.TemporaryDirectory()
    unittest.addModuleCleanup(Browser.profile.cleanup)
    Browser.browser = webdriver.Chrome(service=Service("chromedriver"), options=options(Browser.profile.name))
    unittest.addModuleCleanup(Browser.browser.quit)
    Browser.browser.get("about:blank")
    Browser.browser.get_log("performance")


class Browsing(Desks):
    """Tests in the browser. After each one its console has no error, and it asked no other host."""

    def setUp(self):
        super().setUp()
        self.browser, self.profile = Browser.browser, Browser.profile
        self.expected = []
        self.addCleanup(self.look_back)

    def look_back(self):
        """What the console and the network saw."""
        told = [entry["message"] for entry in self.browser.get_log("browser")]
        self.assertEqual([line for line in told if not any(words in line for words in self.expected)], [])
        events = [json.loads(entry["message"])["message"] for entry in self.browser.get_log("performance")]
        asked = [event["params"]["request"]["url"] for event in events if event["method"] == "Network.requestWillBeSent"]
        elsewhere = [url for url in asked if urlsplit(url).scheme not in ("data", "blob", "about", "file") and urlsplit(url).hostname != "127.0.0.1"]
        self.assertEqual((elsewhere, asked == []), ([], False))

    def open(self, path):
        """The page of a desk for a policy."""
        served = self.desk(path)
        self.browser.get(served.address)
        self.until('document.body.dataset.ready === "yes"')
        return served

    def js(self, script, *arguments):
        """What a script returns."""
        return self.browser.execute_script(f"return {script}", *arguments)

    def until(self, condition):
        """Waits until a condition of the page holds."""
        WebDriverWait(self.browser, PATIENCE, 0.02).until(lambda browser: browser.execute_script(f"return {condition}"), condition)

    def one(self, selector):
        """The first element of a selector."""
        return self.browser.find_element(By.CSS_SELECTOR, selector)

    def all(self, selector):
        """Every element of a selector."""
        return self.browser.find_elements(By.CSS_SELECTOR, selector)

    def text(self, selector):
        """What stands in an element."""
        return self.one(selector).text

    def view(self, name):
        """Shows a view."""
        self.one(f"#tab-{name}").click()
        self.until(f'!document.getElementById("{name}").hidden')

    def steps(self):
        """How many steps the list has."""
        return self.js('document.querySelectorAll("#steps li").length')

    def act(self, element):
        """Clicks something that makes one more step."""
        before = self.steps()
        element.click()
        self.until(f'document.querySelectorAll("#steps li").length === {before + 1}')

    def permission(self, name):
        """A permission's button."""
        return self.js('[...document.querySelectorAll(".permission")].find((b) => b.textContent.startsWith(`${arguments[0]} (`))', name)

    def story(self):
        """The two windows of the ward."""
        self.view("try")
        for name in ("Prescribe", "Send_data"):
            self.act(self.one("#open-window"))
            self.act(self.permission(name))

    def saved(self, name):
        """A file that the browser saved."""
        path = os.path.join(self.profile.name, "saved", name)
        limit = time.monotonic() + PATIENCE
        while not os.path.exists(path) or glob.glob(f"{path}*.crdownload"):
            self.assertLess(time.monotonic(), limit, name)
            time.sleep(0.05)
        found = content(path)
        os.remove(path)
        return found

    def clicked(self, selector, condition):
        """The milliseconds from a click until a condition holds and is painted."""
        return self.browser.execute_async_script(CLICKED, selector, condition)


class Policy(Browsing):
    """The policy view."""

    def test_the_ward(self):
        self.open(WARD)
        self.assertEqual((self.text("h1"), self.text(".badge")), ("ward.policy", "accepted"))
        self.one('.node[data-role="0"]').click()
        detail = self.text("#detail")
        self.assertIn("Doctor (0)\ncarries 4 permissions", detail)
        self.assertIn("Read_id (0), Read_health_records (1), Prescribe (2), Read_prescription (3)", detail)
        self.assertNotIn("Data_Manager", detail)
        self.assertIn("3 of 4 combinations are allowed", self.text("#exclusions"))
        self.assertEqual(len(self.all(".matrix td.own")), 6)
        self.assertIn("The policy has no limit", self.text("#limits"))

    def test_a_permission_through_a_junior_in_detail_and_matrix(self):
        self.open(self.path("p.policy", "user A\nrole Head Nurse\npermission P Q\nassign A Head\ngrant Head P\ngrant Nurse Q\nsenior Head Nurse\nlimit Nurse 3\n"))
        self.one('.node[data-role="0"]').click()
        self.assertIn("Through Nurse (1)\nQ (1)", self.text("#detail"))
        self.assertLess(self.one('.node[data-role="0"]').location["y"], self.one('.node[data-role="1"]').location["y"])
        webdriver.ActionChains(self.browser).move_to_element(self.one(".matrix td.through")).perform()
        self.until('document.getElementById("pointed").textContent === "Head (0) carries Q (1) through Nurse (1)."')
        self.assertIn("at most 2 windows at a time", self.text("#limits"))
        self.one('#people .chip[data-role="1"]').click()
        self.assertIn("May be taken by\nnobody by assignment\nand, from a senior role, by\nA (0)", self.text("#detail"))

    def test_the_largest_stays_readable_and_answers_a_click_in_time(self):
        self.open(self.largest())
        self.assertEqual([len(self.all(selector)) for selector in (".node", ".matrix tbody tr", ".matrix thead th", "#people tbody tr", "#exclusions tbody tr")],
                         [64, 256, 64, 64, 32])
        self.assertEqual(self.js('document.documentElement.scrollWidth <= innerWidth'), True)
        narrow = self.js('[...document.querySelectorAll("#hierarchy .node")].every((n) => n.querySelector(".name").getBBox().width <= n.querySelector("rect").getBBox().width)')
        self.assertTrue(narrow)
        times = [self.clicked(f'.node[data-role="{role}"]', f'document.querySelector("#role-{role}").offsetParent !== null') for role in range(TIMES)]
        self.assertLess(min(times), CLICK)
        self.js('document.querySelector(".tall").scrollTo(0, 3000)')
        head, box = self.one(".matrix thead th").location_once_scrolled_into_view, self.one(".tall").location_once_scrolled_into_view
        self.assertLessEqual(abs(head["y"] - box["y"]), 3)

    def test_a_loop_is_red_and_mending_it_shows_the_policy(self):
        path = self.path("loop.policy", LOOP)
        self.open(path)
        self.assertEqual((self.text(".badge"), self.text(".reasons")), ("refused", "line 7: loop: Head over Consultant over Doctor over Head"))
        red = self.js('getComputedStyle(document.querySelector(".edge.loop")).stroke')
        self.assertEqual((red, len(self.all(".edge.loop")), self.text(".source .wrong code")), ("rgb(169, 35, 27)", 3, "senior Doctor Head"))
        self.assertFalse(self.one("#tab-try").is_enabled())
        self.path("loop.policy", LOOP.replace("senior Doctor Head\n", ""))
        self.one("#reload").click()
        self.until('document.querySelector(".badge").textContent === "accepted" && document.body.dataset.ready === "yes"')
        self.assertEqual(len(self.all(".edge.loop")), 0)

    def test_reach_names_the_person(self):
        self.open(self.path("reach.policy", REACH))
        self.assertIn("BERT may switch on 18 roles, and 16 is the most", self.text(".reasons"))
        self.assertEqual(len(self.all(".node.reached")), 18)

    def test_image_and_report_are_saved(self):
        served = self.open(WARD)
        self.one("#save-image").click()
        self.assertEqual(self.saved("policy.img"), served.get("image")[1])
        self.one("#save-report").click()
        self.assertEqual(self.saved("ward.html"), served.get("report")[1])


class Try(Browsing):
    """The try view."""

    def test_the_two_windows_of_the_ward(self):
        self.open(WARD)
        self.story()
        told = "Send_data (4) needs Data_Manager (1), which ms-dmer 2 of Doctor (0), Data_Manager (1) bars while window 0 holds Doctor (0)"
        self.assertEqual(self.text("#answer"), f"ANNA (0) asks in window 1 for Send_data (4)\nRefused (20 none): {told}")
        self.assertEqual(self.text(".window.blocking").split("\n"), ["Window 0", "Doctor (0)", "in the way", "×"])
        self.assertEqual(self.js('[...document.querySelectorAll("#picture .node")].map((n) => n.classList.contains("other"))'), [True, False])
        self.assertTrue("barred" in self.permission("Send_data").get_attribute("class"))
        self.one(".window.blocking .pick").click()
        self.until('document.querySelector(".window.here strong").textContent === "Window 0"')
        self.assertEqual(self.permission("Prescribe").text, "Prescribe (2)\nby Doctor (0)")
        self.assertEqual(self.js('[...document.querySelectorAll("#picture .node")].map((n) => n.classList.contains("lit"))'), [True, False])
        self.act(self.one('[aria-label="Close window 0"]'))
        self.act(self.permission("Send_data"))
        self.assertIn("Done: live: Data_Manager (1)", self.text("#answer"))

    def test_undo_and_start_over(self):
        self.open(WARD)
        self.story()
        for left in (3, 2):
            self.one("#undo").click()
            self.until(f'document.querySelectorAll("#steps li").length === {left}')
        self.assertEqual([card.text.split("\n")[:2] for card in self.all(".window")], [["Window 0", "Doctor (0)"]])
        self.one("#restart").click()
        self.until('document.querySelectorAll("#steps li").length === 0')
        self.assertIn("has no window open", self.text("#windows"))
        self.assertFalse(self.one("#undo").is_enabled())

    def test_a_saved_script_is_played_by_the_program_to_the_same_answers_and_loaded_again(self):
        served = self.open(WARD)
        self.story()
        self.act(self.one('[aria-label="Close window 0"]'))
        self.act(self.permission("Send_data"))
        told = [step["output"] for step in served.post("try", {})[1]["steps"]]
        self.one("#save-script").click()
        script = self.saved("ward.script")
        self.assertEqual(script, b"open 0\nask 0 0 4 1f\nopen 0\nask 0 1 10 1f\nclose 0 0\nask 0 1 10 1f\n")
        self.assertEqual(played(served.get("image")[1], script.decode()), told)
        self.assertEqual([line.split()[1] for line in told], ["0", "0", "0", "20", "0", "0"])
        self.one("#restart").click()
        self.until('document.querySelectorAll("#steps li").length === 0')
        self.one("#load-script").send_keys(self.path("again.script", script.decode()))
        self.until('document.querySelectorAll("#steps li").length === 6')
        self.assertEqual([step["output"] for step in served.post("try", {})[1]["steps"]], told)
        self.expected = ["400 (Bad Request)"]
        self.one("#load-script").send_keys(self.path("bad.script", "open 0\nfly 0\n"))
        self.until('!document.getElementById("notice").hidden')
        self.assertEqual((self.text("#notice"), self.steps()), ("line 2 is no line of a script: fly 0", 6))

    def test_how_it_is_asked(self):
        self.open(CLINIC)
        self.view("try")
        self.act(self.one("#open-window"))
        self.one("#how summary").click()
        self.one("#narrow").click()
        self.act(self.permission("Answer_alarm"))
        self.one("#narrow").click()
        self.one("#add").click()
        Select(self.one("#aim-roles")).select_by_value("2")
        self.act(self.permission("Prescribe"))
        self.assertEqual(self.js('[...document.querySelectorAll("#steps code")].map((c) => c.textContent)'),
                         ["open 0", "ask 0 0 40 40", "ask 0 0 44 1ff 1 2"])

    def test_a_limit_points_at_the_other_persons_window(self):
        self.open(CLINIC)
        self.view("try")
        self.act(self.one("#open-window"))
        self.act(self.permission("Answer_alarm"))
        self.all("#people-list button")[1].click()
        self.until('document.getElementById("whose").textContent === "BERT (1)"')
        self.act(self.one("#open-window"))
        self.act(self.permission("Answer_alarm"))
        self.assertIn("in the way: window 0 of ANNA (0), with On_Call (3)", self.text("#answer"))
        self.assertEqual(self.text("#people-list .blocking"), "ANNA (0)\n1 window")

    def test_the_largest_answers_a_press_in_time(self):
        self.open(self.largest())
        self.view("try")
        self.act(self.one("#open-window"))
        self.assertEqual([len(self.all(selector)) for selector in (".permission", "#people-list button", "#picture .node")], [256, 64, 64])
        times = [self.clicked(f".permission:nth-child({place})", f'document.querySelectorAll("#steps li").length === {place + 1}')
                 for place in range(1, TIMES + 1)]
        self.assertLess(min(times), CLICK)
        self.assertEqual(self.permission("Cardiology_Diagnose").text, "Cardiology_Diagnose (8)\nby Cardiology_Consultant (1) through Cardiology_Doctor (2)")
        shown = self.js('[...document.querySelectorAll("#picture .node")].filter((n) => n.getBoundingClientRect().height > 0).map((n) => Number(n.dataset.role))')
        self.assertTrue(set(range(7)) <= set(shown) and len(shown) < 24, shown)
        self.one("#find-permission").send_keys("surgery_bill")
        self.until('[...document.querySelectorAll(".permission")].filter((b) => !b.hidden).length === 1')


class Compare(Browsing):
    """The compare view."""

    def test_the_ward_a_week_later(self):
        self.open(WARD)
        self.view("try")
        self.act(self.one("#open-window"))
        self.act(self.permission("Send_data"))
        self.view("compare")
        self.assertIn("Choose the new policy", self.text("#compared"))
        self.one("#new").send_keys(NEXT)
        self.until('document.querySelector("#compared .verdict-line") !== null')
        self.assertIn("assign ANNA Data_Manager", self.text("#compared .taken"))
        self.assertIn("grant Nurse Read_id", self.text("#compared .added"))
        rows = [row.text for row in self.all("#compared tbody tr")]
        self.assertEqual(rows, ["ANNA (0) nothing Send_data (4)", "BEN (1) new Read_id (0)Read_prescription (3) nothing"])
        Select(self.one("#ledger-from")).select_by_value("trial")
        self.until('document.getElementById("compared").textContent.includes("ANNA (0) is stopped")')
        self.assertIn("window 0 has Data_Manager, which is not ANNA's", self.text("#compared"))

    def test_the_same_an_image_a_ledger_and_a_refused_file(self):
        served = self.open(WARD)
        self.view("compare")
        image = os.path.join(self.folder, "policy.img")
        with open(image, "wb") as file:
            file.write(served.get("image")[1])
        self.one("#new").send_keys(image)
        self.until('document.getElementById("compared").textContent.includes("mean the same")')
        Select(self.one("#ledger-from")).select_by_value("file")
        self.one("#ledger").send_keys(self.path("ledger", "\0" * 144))
        self.until('document.getElementById("compared").textContent.includes("Nobody is stopped")')
        self.expected = ["400 (Bad Request)"]
        self.one("#new").send_keys(self.path("loop.policy", LOOP))
        self.until('!document.getElementById("notice").hidden')
        self.assertEqual(self.text("#notice"), "loop.policy:7: loop: Head over Consultant over Doctor over Head")

    def test_the_largest_beside_itself(self):
        path = self.largest()
        self.open(path)
        self.view("compare")
        self.one("#new").send_keys(self.path("next.policy", largest.text().replace("grant Surgery_Nurse", "grant Surgery_Clerk")))
        self.until('document.querySelector("#compared tbody tr") !== null')
        self.assertEqual(len(self.all("#compared .taken li")), 5)


class Access(Browsing):
    """Keyboard, zoom, colours, paper, and who is let in."""

    def press(self, *keys):
        """Keys, one behind the other, where the focus is."""
        webdriver.ActionChains(self.browser, duration=0).send_keys(*keys).perform()

    def tab_to(self, condition):
        """Goes on by the tab key until a condition of the focused element holds."""
        for _ in range(60):
            self.press(Keys.TAB)
            if self.js(f"((e) => {condition})(document.activeElement)"):
                return
        self.fail(f"the tab key does not reach {condition}")

    def test_the_keyboard_alone(self):
        self.open(WARD)
        self.tab_to('e.id === "tab-policy"')
        self.tab_to('e.dataset.role === "1" && e.closest("#hierarchy")')
        self.assertNotEqual(self.js('getComputedStyle(document.activeElement.querySelector("rect")).strokeWidth'), "1.5px")
        self.press(Keys.ENTER)
        self.assertIn("Data_Manager (1)\ncarries 2 permissions", self.text("#detail"))
        self.js('document.getElementById("tab-policy").focus()')
        self.press(Keys.ARROW_RIGHT)
        self.until('!document.getElementById("try").hidden && document.querySelectorAll("#people-list button").length === 1')
        for wish in (2, 4):
            before = self.steps()
            self.tab_to('e.id === "open-window"')
            self.assertNotEqual(self.js("getComputedStyle(document.activeElement).outlineStyle"), "none")
            self.press(Keys.ENTER)
            self.until(f'document.querySelectorAll("#steps li").length === {before + 1}')
            self.tab_to(f'e.classList.contains("permission") && e.textContent.includes("({wish})")')
            self.press(Keys.SPACE)
            self.until(f'document.querySelectorAll("#steps li").length === {before + 2}')
            self.js('document.getElementById("tab-try").focus()')
        self.assertIn("Refused (20 none)", self.text("#answer"))
        self.tab_to('e.classList.contains("close")')
        self.press(Keys.ENTER)
        self.until('document.querySelectorAll("#steps li").length === 5')
        self.tab_to('e.id === "undo"')
        self.press(Keys.ENTER)
        self.until('document.querySelectorAll("#steps li").length === 4')
        self.assertEqual(self.js("document.activeElement.id"), "undo")
        self.js('document.getElementById("tab-try").focus()')
        self.press(Keys.ARROW_RIGHT)
        self.tab_to('e.id === "new"')
        self.assertNotEqual(self.js('getComputedStyle(document.activeElement.nextElementSibling).outlineStyle'), "none")

    def media(self, **features):
        """Sets media features, such as the colours that the reader wants."""
        self.browser.execute_cdp_cmd("Emulation.setEmulatedMedia", {"features": [{"name": name.replace("_", "-"), "value": value} for name, value in features.items()]})

    def test_zoomed_to_200_percent_nothing_is_cut_off(self):
        self.addCleanup(self.browser.execute_cdp_cmd, "Emulation.clearDeviceMetricsOverride", {})
        self.browser.execute_cdp_cmd("Emulation.setDeviceMetricsOverride", {"width": 640, "height": 450, "deviceScaleFactor": 2, "mobile": False})
        for path in (CLINIC, self.largest()):
            self.open(path)
            for name in ("policy", "try", "compare"):
                self.view(name)
                self.assertTrue(self.js("document.documentElement.scrollWidth <= document.documentElement.clientWidth"), name)

    def test_light_and_dark(self):
        self.addCleanup(self.media)
        self.open(WARD)
        grounds = []
        for scheme in ("light", "dark"):
            self.media(prefers_color_scheme=scheme)
            grounds.append(self.js("getComputedStyle(document.body).backgroundColor"))
        self.assertEqual(grounds, ["rgb(245, 244, 240)", "rgb(18, 21, 24)"])

    def test_on_paper_every_role_is_there_and_no_button(self):
        self.addCleanup(self.browser.execute_cdp_cmd, "Emulation.setEmulatedMedia", {"media": ""})
        self.open(CLINIC)
        self.browser.execute_cdp_cmd("Emulation.setEmulatedMedia", {"media": "print"})
        shown = self.js('[...document.querySelectorAll("#detail .role")].filter((r) => r.offsetParent !== null).length')
        buttons = self.js('[...document.querySelectorAll("button")].filter((b) => b.offsetParent !== null).length')
        self.assertEqual((shown, buttons), (6, 0))
        self.assertTrue(self.browser.execute_cdp_cmd("Page.printToPDF", {"preferCSSPageSize": True})["data"].startswith("JVBERi"))

    def test_the_secret_and_a_page_of_another_origin(self):
        served = self.open(WARD)
        self.expected = ["403 (Forbidden)", "blocked by CORS", "net::ERR_FAILED", "Refused to", "violates", "Content Security Policy"]
        self.browser.get(f"http://127.0.0.1:{served.port}/")
        self.assertEqual(self.text("body"), "refused: no secret")
        other = Running(CLINIC)
        self.addCleanup(other.end)
        self.browser.get(other.address)
        self.until('document.body.dataset.ready === "yes"')
        script = ("const done = arguments[1]; fetch(arguments[0], {method: 'POST', mode: 'no-cors', body: '{}'}).then(() => done('sent'), () => done('kept back'));")
        self.assertEqual(self.browser.execute_async_script(script, f"{served.address}try"), "kept back")
        self.browser.get("about:blank")
        script = "const done = arguments[1]; fetch(arguments[0]).then((r) => done(r.status), () => done('refused'));"
        self.assertEqual(self.browser.execute_async_script(script, f"{served.address}policy"), "refused")
        self.assertEqual(served.post("try", {})[1]["steps"], [])

    def test_a_desk_that_has_ended_says_so(self):
        served = self.open(WARD)
        self.view("try")
        served.process.terminate()
        served.process.wait()
        self.expected = ["ERR_CONNECTION_REFUSED", "ERR_EMPTY_RESPONSE", "ERR_CONNECTION_RESET"]
        self.one("#open-window").click()
        self.until('!document.getElementById("notice").hidden')
        self.assertEqual(self.text("#notice"), "The desk does not answer. Is it still running?")

    def test_the_report_in_a_browser_needs_nothing(self):
        served = self.open(self.largest())
        path = self.path("report.html", served.get("report")[1].decode())
        self.browser.get(f"file://{path}")
        self.assertEqual([len(self.all(selector)) for selector in (".node", ".matrix tbody tr", ".role")], [64, 256, 64])
        self.assertTrue(self.js('[...document.querySelectorAll(".role")].every((r) => r.offsetParent !== null && r.offsetHeight > 0)'))
        self.assertEqual(self.js("performance.getEntriesByType('resource').length"), 0)
        self.one('.node[data-role="9"]').click()
        self.assertEqual(self.js("location.hash"), "#role-9")


del Browsing

if __name__ == "__main__":
    unittest.main()
