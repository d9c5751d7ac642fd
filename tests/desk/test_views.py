"""The desk's views as data, pages and pictures, without a browser: what they say is what the library says."""

import os
import random
import re
import subprocess
import unittest
from html.parser import HTMLParser

import largest
from nutrameza import calls, policy, why
from nutrameza.desk import compare, drawing, page, report, trial, view
from served import CLINIC, COMMAND, LOOP, NEXT, REACH, ROOT, WARD, Desks, content, played

EVERYTHING = "1f"


def loaded(path):
    """A policy file, loaded."""
    return view.load(os.path.basename(path), content(path))


def said(text, name="p.policy"):
    """A text, loaded."""
    return view.load(name, text.encode())


class Balanced(HTMLParser):
    """A page read strictly: elements that close, ids that are there once, texts and addresses."""

    VOID = {"meta", "link", "br", "input", "img"}

    def __init__(self):
        super().__init__()
        self.open, self.ids, self.tags, self.links = [], [], set(), []

    def handle_starttag(self, tag, attrs):
        found = dict(attrs)
        self.tags.add(tag)
        self.ids += [found["id"]] if "id" in found else []
        self.links += [found[name] for name in ("href", "src") if name in found]
        if tag not in self.VOID:
            self.open.append(tag)

    def handle_startendtag(self, tag, attrs):
        self.handle_starttag(tag, attrs)
        self.handle_endtag(tag)

    def handle_endtag(self, tag):
        if tag not in self.VOID and self.open.pop() != tag:
            raise AssertionError(f"{tag} is not closed in order")


def balanced(text):
    """A page, read strictly."""
    reader = Balanced()
    reader.feed(text)
    reader.close()
    if reader.open or len(set(reader.ids)) != len(reader.ids):
        raise AssertionError((reader.open, [one for one in reader.ids if reader.ids.count(one) > 1]))
    return reader


class PolicyView(unittest.TestCase):
    """The policy view."""

    def test_the_ward(self):
        shown = view.accepted(loaded(WARD))
        self.assertEqual((shown["counts"], shown["words"], shown["names"]["user"]), ([1, 2, 5], 13, ["ANNA"]))
        self.assertEqual(shown["people"], [{"assigned": [0, 1], "reached": [], "permissions": [0, 1, 2, 3, 4]}])
        self.assertEqual(shown["roles"][0], {"assigned": [0], "reached": [], "juniors": [], "seniors": [], "below": [], "granted": [0, 1, 2, 3],
                                             "carried": [0, 1, 2, 3], "through": []})
        self.assertEqual(shown["exclusions"], [{"kind": "ms-dmer", "counts": view.COUNTED["ms-dmer"], "n": 2, "members": [0, 1],
                                                "figure": "3 of 4 combinations are allowed"}])
        self.assertIn("3 of 4 combinations are allowed", page.policy_view(shown))

    def test_a_hierarchy_says_through_which_role_a_permission_comes(self):
        shown = view.accepted(said("user A\nrole Head Nurse Aide\npermission P Q R\nassign A Head\ngrant Head P\ngrant Nurse Q P\ngrant Aide R\n"
                                   "senior Head Nurse\nsenior Nurse Aide\n"))
        self.assertEqual(shown["roles"][0]["through"], [{"role": 1, "permissions": [0, 1]}, {"role": 2, "permissions": [2]}])
        self.assertEqual((shown["roles"][0]["juniors"], shown["roles"][0]["below"], shown["roles"][2]["seniors"]), ([1], [1, 2], [1]))
        self.assertEqual((shown["people"][0]["assigned"], shown["people"][0]["reached"]), ([0], [1, 2]))
        self.assertEqual((shown["roles"][2]["assigned"], shown["roles"][2]["reached"]), ([], [0]))

    def test_on_the_largest_policy_grants_and_ways_give_what_the_library_carries(self):
        made = said(largest.text())
        shown, table = view.accepted(made), calls.table(made.image)
        self.assertEqual(shown["counts"] + [len(shown["exclusions"])], [64, 64, 256, 32])
        self.assertEqual([one["figure"] for one in shown["exclusions"][:4]],
                         [f"{figures} combinations are allowed" for figures in ("3 of 4", "4 of 8", "11 of 16", "3 of 4")])
        for role, one in enumerate(shown["roles"]):
            ways = set(one["granted"]).union(*(way["permissions"] for way in one["through"]))
            self.assertEqual(ways, table.carried_by(role))
        ledger = calls.new_ledger(made.image)
        for user, one in enumerate(shown["people"]):
            self.assertEqual(set(one["assigned"] + one["reached"]), why.Ask(made.image, ledger, made.names, user, 0).own_roles())

    def test_without_the_survey_no_figure_is_told(self):
        kept = os.environ.get("NUTRAMEZA_SURVEY")
        os.environ["NUTRAMEZA_SURVEY"] = "/nowhere"
        try:
            shown = view.accepted(loaded(WARD))
        finally:
            os.environ.pop("NUTRAMEZA_SURVEY")
            if kept is not None:
                os.environ["NUTRAMEZA_SURVEY"] = kept
        self.assertIsNone(shown["exclusions"][0]["figure"])
        self.assertIn(page.NO_SURVEY, page.policy_view(shown))

    def test_limits_and_every_kind_of_exclusion(self):
        shown = view.accepted(loaded(CLINIC))
        self.assertEqual([one["kind"] for one in shown["exclusions"]], ["ss-dmer", "ms-dmer", "ss-hmer", "ms-hmer"])
        self.assertEqual(shown["limits"], [{"role": 3, "t": 2, "people": [0, 1]}])
        self.assertIn("at most 1 window at a time", page.policy_view(shown))

    def test_an_image_takes_its_names_from_elsewhere_or_plain_ones(self):
        image = loaded(WARD).image
        self.assertEqual(view.load("policy.img", image).names["role"], ["role0", "role1"])
        self.assertEqual(view.load("policy.img", image, policy.names_in("role Doctor")).names["role"], ["Doctor", "role1"])

    def test_a_page_is_balanced_and_escapes_names(self):
        text = 'user <b>A&B</b>\nrole "R"\npermission <script>\nassign <b>A&B</b> "R"\ngrant "R" <script>\n'
        html = page.policy_view(view.accepted(said(text)))
        self.assertNotIn("script", balanced(html).tags)
        self.assertIn("&lt;b&gt;A&amp;B&lt;/b&gt;", html)
        for made in (loaded(WARD), loaded(CLINIC), said(largest.text())):
            balanced(page.policy_view(view.accepted(made)))


class Refused(unittest.TestCase):
    """What is told of a policy that is refused."""

    def test_every_error_with_its_line(self):
        shown = view.refused("p.policy", b"user A\nrole R S\npermission P\nassign B R\nexclude ss-dmer 1 R S\n")
        self.assertEqual([(one["line"], one["reason"].split(" (")[0]) for one in shown["errors"]],
                         [(4, "unknown user B"), (5, "n is 1, which bars its roles from everyone")])
        html = page.policy_view(shown)
        balanced(html)
        self.assertIn('<li id="line-4" class=wrong><code>assign B R</code>', html)

    def test_a_loop_is_drawn_in_red(self):
        shown = view.refused("p.policy", LOOP.encode())
        self.assertEqual(([one["line"] for one in shown["errors"]], shown["loop"], shown["refusal"]), ([7], [0, 1, 2, 0], "22 loop"))
        html = page.policy_view(shown)
        self.assertEqual((html.count('class="edge loop"'), html.count('class="edge"'), html.count("node looped")), (3, 1, 3))

    def test_reach_names_the_person(self):
        shown = view.refused("p.policy", REACH.encode())
        self.assertEqual((shown["person"]["name"], shown["person"]["user"], len(shown["person"]["roles"])), ("BERT", 1, 18))
        html = page.policy_view(shown)
        self.assertIn("BERT may switch on 18 roles, and 16 is the most", html)
        self.assertEqual(html.count("node reached"), 18)

    def test_images_with_a_loop_and_with_too_far_a_reach(self):
        for text, mark in ((LOOP, "edge loop"), (REACH, "node reached")):
            judgement = policy.understood(text)[1]
            shown = view.refused("policy.img", judgement.image(judgement.said), policy.names_in(text))
            self.assertIn(mark, page.policy_view(shown))
        self.assertIn("3 bytes", view.refused("policy.img", b"abc")["errors"][0]["reason"])

    def test_a_text_that_is_no_utf8(self):
        shown = view.refused("p.policy", b"user A\nrole \xff\n")
        self.assertEqual(shown["errors"], [{"line": 2, "reason": "not UTF-8 text"}])
        balanced(page.policy_view(shown))


class Drawing(unittest.TestCase):
    """The picture: each role once, seniors above juniors, no box upon another."""

    def boxes(self, roles, pairs):
        """Where each role's box stands: its row of the picture, left and top."""
        html = drawing.hierarchy([drawing.Node(f"R{role}", "", "") for role in range(roles)], pairs)
        balanced(html)
        found = {}
        for row, part in enumerate(html.split("<svg")):
            for role, left, top in re.findall(r'data-role="(\d+)".*?<rect x="([-\d.]+)" y="([-\d.]+)"', part):
                self.assertNotIn(int(role), found)
                found[int(role)] = (row, float(top), float(left))
        self.assertEqual(sorted(found), list(range(roles)))
        return found

    def test_generated_hierarchies(self):
        generator = random.Random(36)
        for _ in range(150):
            roles = generator.randrange(1, 65)
            pairs = sorted({tuple(sorted(generator.sample(range(roles), 2))) for _ in range(generator.randrange(2 * roles))} if roles > 1 else [])
            found = self.boxes(roles, pairs)
            self.assertTrue(all(found[senior][0] == found[junior][0] and found[senior][1] < found[junior][1] for senior, junior in pairs))
            places = sorted(found.values())
            self.assertTrue(all(one[:2] != other[:2] or one[2] + drawing.WIDTH < other[2] for one, other in zip(places, places[1:])))

    def test_loops_are_drawn_too(self):
        self.boxes(3, [(0, 1), (1, 2), (2, 0)])
        self.boxes(64, [(role, (role + 1) % 64) for role in range(64)])


class Try(unittest.TestCase):
    """The scratch ledger."""

    def story(self):
        """The ward's two windows: one prescribes, the other may not send data."""
        tried = trial.Trial(loaded(WARD))
        tried.do(trial.Call("open", 0))
        tried.ask(trial.Wish(0, 0), 2)
        tried.do(trial.Call("open", 0))
        tried.ask(trial.Wish(0, 1), 4)
        return tried

    def test_the_story_of_the_ward(self):
        tried = self.story()
        state = tried.state(trial.Wish(0, 1))
        told = "Send_data (4) needs Data_Manager (1), which ms-dmer 2 of Doctor (0), Data_Manager (1) bars while window 0 holds Doctor (0)"
        self.assertEqual([step["told"] for step in state["steps"]], ["no role is live in it yet", "live: Doctor (0)", "no role is live in it yet", told])
        self.assertEqual(state["in_the_way"], [[0, 0, [0]]])
        self.assertEqual([one["free"] for one in state["permissions"]], [True] * 4 + [False])
        self.assertEqual(tried.state(trial.Wish(0, 0))["permissions"][2], {"free": True, "by": [0, 0]})

    def test_refusals_before_20_have_their_reason(self):
        tried = trial.Trial(loaded(WARD))
        tried.play("open 7\nclose 0 3\nclose 0 9\n" + "open 0\n" * 9 + "ask 0 0 3 1\nask 0 0 20 3f\nask 0 0 1 1f 3 0\nclose 0 0\n")
        told = [(step.answer.number, step.told) for step in tried.steps if not step.answer.done]
        self.assertEqual(told, [
            (10, "there is no user 7"), (13, "window 3 is not open"), (12, "there is no window 9"), (14, "ANNA (0) has 8 windows open, and that is the most"),
            (17, "what is asked for is not within the upper bound"), (16, "permissions are numbered below 5"), (18, "an aim is at most 2")])
        self.assertEqual((tried.steps[0].done, tried.steps[-1].told), ("user7 (7) opens a window", "its roles are off, its past stays"))

    def test_undo_takes_the_last_step_back(self):
        tried = self.story()
        before = list(tried.ledgers)
        tried.do(trial.Call("close", 0, 0))
        tried.undo()
        self.assertEqual((tried.ledgers, len(tried.steps)), (before, 4))
        for _ in range(9):
            tried.undo()
        self.assertEqual((tried.steps, tried.ledgers), ([], [bytes(calls.new_ledger(tried.image))]))

    def test_a_limit_names_the_window_of_another_person(self):
        tried = trial.Trial(loaded(CLINIC))
        tried.play("open 0\nask 0 0 40 1ff\nopen 1\nask 1 0 40 1ff\n")
        self.assertEqual(tried.steps[-1].in_the_way, [(0, 0, frozenset({3}))])
        self.assertIn("window 0 of ANNA (0) holds On_Call (3)", tried.steps[-1].told)

    def test_a_permission_through_a_junior_says_so(self):
        tried = trial.Trial(said("user A\nrole Head Nurse\npermission P Q\nassign A Head\ngrant Head P\ngrant Nurse Q\nsenior Head Nurse\n"))
        tried.do(trial.Call("open", 0))
        tried.ask(trial.Wish(0, 0), 0)
        self.assertEqual([one["by"] for one in tried.state(trial.Wish(0, 0))["permissions"]], [[0, 0], [0, 1]])

    def test_asking_together_with_what_was_asked_last(self):
        tried = trial.Trial(loaded(WARD))
        tried.do(trial.Call("open", 0))
        for permission in (0, 2):
            tried.ask(trial.Wish(0, 0, add=True, narrow=False, aims=(2, 2)), permission)
        self.assertEqual(tried.steps[-1].call.line(), f"ask 0 0 5 {EVERYTHING} 2 2")
        self.assertIn("for Read_id (0) and Prescribe (2), with the most permissions, then the most roles", tried.steps[-1].done)
        tried.ask(trial.Wish(0, 0, narrow=True), 2)
        self.assertEqual((tried.steps[-1].call.line(), tried.steps[-1].answer.number), ("ask 0 0 4 4", 20))

    def test_generated_trials_are_scripts_that_the_program_plays_to_the_same_answers(self):
        generator = random.Random(163)
        for made in (loaded(WARD), loaded(CLINIC), said(largest.text())):
            tried, (users, _, permissions) = trial.Trial(made), made.policy.counts
            for _ in range(250):
                user, window = generator.randrange(min(users, 6)), generator.randrange(3)
                deed = generator.choice(("open", "close", "show", "ask", "ask", "ask", "ask"))
                if deed == "ask":
                    aims = generator.choice((None, None, (0, 0), (2, 2), (1, 2)))
                    tried.ask(trial.Wish(user, window, generator.random() < 0.3, generator.random() < 0.2, aims), generator.randrange(permissions))
                else:
                    tried.do(trial.Call(deed, user, window))
            outputs = [step.output(number) for number, step in enumerate(tried.steps, start=1)]
            self.assertEqual(outputs, played(made.image, tried.script()))
            numbers = {step.answer.number for step in tried.steps}
            self.assertTrue({0, 13, 20} <= numbers, numbers)
            again = trial.Trial(made)
            again.play(tried.script())
            self.assertEqual((again.script(), again.ledgers), (tried.script(), tried.ledgers))

    def test_a_script_with_an_unreadable_line_is_not_played(self):
        tried = self.story()
        for wrong in ("open  0", "open", "open 0 ", "ask 0 0 3", "ask 0 0 3 1f 1", "close 0", "open 1234567890", "ask 0 0 " + "0" * 65 + " 1", "", "open ٣"):
            with self.assertRaisesRegex(trial.Unreadable, "line 2 is no line of a script"):
                tried.play(f"open 0\n{wrong}\nopen 0\n")
        self.assertEqual(len(tried.steps), 4)


class Compare(unittest.TestCase):
    """Two policies beside each other."""

    def test_the_same(self):
        found = compare.compared(loaded(WARD), view.load("tidy.img", calls.tidy(loaded(WARD).image).image, loaded(WARD).names), None)
        self.assertEqual((found["same"], found["people"], found["stopped"], found["moved"]), (True, [], None, []))

    def test_the_ward_a_week_later(self):
        tried = trial.Trial(loaded(WARD))
        tried.play(f"open 0\nask 0 0 10 {EVERYTHING}\n")
        found = compare.compared(loaded(WARD), loaded(NEXT), tried.ledgers[-1])
        self.assertIn("assign ANNA Data_Manager", found["taken"])
        self.assertIn("grant Nurse Read_id", found["added"])
        self.assertEqual([(one["person"], one["more"], one["less"]) for one in found["people"]],
                         [("ANNA (0)", [], ["Send_data (4)"]), ("BEN (1)", ["Read_id (0)", "Read_prescription (3)"], [])])
        self.assertEqual(found["stopped"], {"refused": "", "added": 1, "people": [
            {"person": "ANNA (0)", "reasons": ["window 0 has Data_Manager, which is not ANNA's"]}]})

    def test_numbers_that_are_not_kept_and_people_that_are_gone(self):
        found = compare.compared(loaded(NEXT), loaded(WARD), bytes(144))
        self.assertEqual(found["moved"], ["user BEN had number 1 and is gone", "role Nurse had number 2 and is gone"])
        self.assertTrue(found["people"][1]["gone"])
        self.assertEqual(found["stopped"]["people"], [])
        self.assertIn("100 bytes are no ledger of 1 people", compare.compared(loaded(NEXT), loaded(WARD), bytes(100))["stopped"]["refused"])


class Report(Desks):
    """The file for the record."""

    def run_it(self, *words):
        """The exit status of the command, and what it printed."""
        done = subprocess.run([COMMAND, "report", *words], cwd=self.folder, capture_output=True, text=True, check=False)
        return done.returncode, done.stdout, done.stderr

    def test_it_stands_alone(self):
        for made in (loaded(WARD), said(largest.text(), "largest.policy")):
            text = report.report(made)
            reader = balanced(text)
            self.assertFalse({"script", "link", "iframe", "img", "object"} & reader.tags)
            self.assertTrue(all(link.startswith("#") and link[1:] in reader.ids for link in reader.links))
            self.assertEqual(set(re.findall(r"https?://[^\"' <]*", text)), {"http://www.w3.org/2000/svg"})
            self.assertNotIn("@import", text)
            self.assertNotIn("url(", text)
            self.assertTrue(all(name in text for sort in made.names.values() for name in sort))

    def test_the_command_writes_it_and_overwrites_by_force_alone(self):
        self.assertEqual(self.run_it(WARD, "-o", "ward.html"), (0, f"ward.html: report of {WARD}\n", ""))
        path = os.path.join(self.folder, "ward.html")
        self.assertIn(b"3 of 4 combinations are allowed", content(path))
        self.path("ward.html", "kept")
        status, out, err = self.run_it(WARD, "-o", "ward.html")
        self.assertEqual((status, out, content(path)), (2, "", b"kept"))
        self.assertIn("--force overwrites it", err)
        self.assertEqual(self.run_it(WARD, "-o", "ward.html", "--force")[0], 0)
        self.assertEqual(os.listdir(self.folder), ["ward.html"])

    def test_a_refused_policy_has_none(self):
        path = self.path("loop.policy", LOOP)
        status, out, err = self.run_it(path, "-o", "loop.html")
        self.assertEqual((status, out, os.listdir(self.folder)), (1, "", ["loop.policy"]))
        self.assertEqual(err, f"{path}:7: loop: Head over Consultant over Doctor over Head\n")

    def test_help_has_an_example(self):
        for name, example in (("desk", "nutrameza desk ward.policy"), ("report", "nutrameza report ward.policy -o ward.html")):
            done = subprocess.run([COMMAND, name, "--help"], capture_output=True, text=True, check=True)
            self.assertIn(f"example:\n  {example}\n", done.stdout)


class Sources(unittest.TestCase):
    """The page's own files."""

    def test_nothing_is_named_on_another_host_and_nothing_is_made_of_text(self):
        for name in ("index.html", "desk.css", "desk.js"):
            text = content(os.path.join(ROOT, "python", "nutrameza", "desk", name)).decode()
            self.assertIsNone(re.search(r"https?:|//[a-z]+\.|@import|url\(|innerHTML|eval\(|document\.write", text), name)


if __name__ == "__main__":
    unittest.main()
