#!/usr/bin/env python3
"""Tests of tools/policy and of the module nutrameza.policy behind it. The last line is 'N passed, M failed'."""

import contextlib
import importlib.machinery
import importlib.util
import io
import itertools
import os
import random
import struct
import subprocess
import sys
import unittest

sys.dont_write_bytecode = True
ROOT = os.path.dirname(os.path.dirname(os.path.abspath(__file__)))
TOOL = os.path.join(ROOT, "tools", "policy")
WARD = os.path.join(ROOT, "examples", "ward.policy")
CLINIC = os.path.join(ROOT, "examples", "clinic.policy")
LIBRARY = os.path.join(ROOT, os.environ.get("NUTRAMEZA_LIB") or os.path.join("target", "staticlib"))


def module(name, path):
    """A file of the repository as a module."""
    loader = importlib.machinery.SourceFileLoader(name, path)
    made = importlib.util.module_from_spec(importlib.util.spec_from_loader(name, loader))
    loader.exec_module(made)
    return made


# The tool finds the package and links the library; the rules are the separate judge.
tool = module("tool", TOOL)
rules = module("rules", os.path.join(ROOT, "tests", "host", "rules.py"))
folder = module("folder", os.path.join(ROOT, "tests", "python", "folder.py"))
import nutrameza  # noqa: E402 - found by the tool
from nutrameza import cli, policy, why  # noqa: E402

# Image A of 01, word for word.
A = [0x102080A0, 0x20000000, 0x20010000, 0x30000000, 0x30004000, 0x30008000, 0x3000C000, 0x30404000, 0x30410000, 0x54102000,
     0x60000000, 0x60400000, 0xFB0B9F60]

# An image with two exclusions and two limits, and the same with its entries moved about, the members of each exclusion
# too: `plain` and `turned` of crates/model_tidy/specs/OrderCases.antt.
PLAIN = [0x10210040, 0x20000000, 0x20010000, 0x20020000, 0x20030000, 0x30000000, 0x30804000, 0x54102000, 0x60000000, 0x60400000,
         0x50102000, 0x60800000, 0x60C00000, 0x70004000, 0x70006000, 0xF9B7DFC0]
TURNED = [0x10210040, 0x70006000, 0x20000000, 0x20010000, 0x20020000, 0x20030000, 0x30000000, 0x30804000, 0x50102000, 0x60C00000,
          0x60800000, 0x54102000, 0x60400000, 0x60000000, 0x70004000, 0xF9B7DFC0]

# Two users, three roles, four permissions: what most texts below start with.
START = "user ANNA BERT\nrole Doctor Nurse Clerk\npermission Read Write Send Print\n"


def image(*words):
    """The bytes of these words with an end word that balances them."""
    return policy.to_bytes([*words, policy.end_word(words)])


def words_of(text):
    """The words of a text without head and end."""
    return policy.parse(text, "t")[0].words()[1:-1]


def line_of(active, past):
    """A line whose open sessions have these role sets active and in their past, with the user's past."""
    numbers = [sum(1 << session for session in active), past] + [active.get(session, 0) for session in range(8) for _ in range(2)]
    return b"".join(number.to_bytes(8, "little") for number in numbers)


def ledger_of(*lines):
    return b"".join(lines)


def errors_of(text):
    """The errors of a text, one to a line."""
    try:
        policy.parse(text, "t")
    except policy.Errors as errors:
        return str(errors)
    return ""


def refusal_by(judge, data):
    """Number and extra of an image's refusal by a judge; None if it is accepted."""
    try:
        judge.check(data)
    except judge.Refused as refused:
        return refused.number, refused.extra
    return None


def refusal_of(data):
    """Number and extra of an image's refusal, the same by the library and by the separate judge."""
    told = refusal_by(policy, data)
    assert told == refusal_by(rules, data), (told, refusal_by(rules, data), data)
    return told


def loop_of(pairs):
    """The loop of these senior pairs, the same by the library and by the separate judge; None if there is none."""
    data = looped(*pairs)
    chain = policy.chain_of(data) if nutrameza.check(data).number == 22 else None
    assert chain == rules.find_loop(pairs), (chain, pairs)
    return chain


def looped(*pairs):
    """The bytes of a policy of 64 roles with these senior pairs."""
    return image(policy.encode(1, 1, 64, 1), *(policy.encode(4, *pair) for pair in pairs))


def chains_of(juniors, role):
    """All shortest chains from a role on a loop back to it, by their length."""
    chains = [[role]]
    while True:
        chains = [[*chain, junior] for chain in chains for junior in juniors.get(chain[-1], ())]
        back = [chain for chain in chains if chain[-1] == role]
        if back:
            return back


def random_policy(dice):
    """A policy with entries in any order, with repeats, that an image accepts."""
    counts = [dice.choice([1, 2, 64]), dice.choice([1, 2, 5, 64]), dice.choice([1, 3, 256])]
    entries, roles_of, exclusions, rank = [], {}, 0, dice.sample(range(64), 64)
    for _ in range(dice.choice([0, 1, 40])):
        kind = dice.choice([2, 3, 4, 5, 7])
        user, role, other, permission = (dice.randrange(counts[k]) for k in (0, 1, 1, 2))
        if kind == policy.ASSIGNMENT and len(roles_of.setdefault(user, set()) | {role}) <= 16:
            roles_of[user].add(role)
            entries.append((kind, user, role))
        elif kind == policy.GRANT:
            entries.append((kind, role, permission))
        elif kind == policy.SENIOR and rank[role] < rank[other]:
            entries.append((kind, role, other))
        elif kind == policy.EXCLUSION and exclusions < 32 and counts[1] > 1:
            members = dice.sample(range(counts[1]), dice.randrange(2, counts[1] + 1))
            entries.append((kind, dice.randrange(4), dice.randrange(2, len(members) + 1), members))
            exclusions += 1
        elif kind == policy.LIMIT:
            entries.append((kind, role, dice.choice([2, 3, dice.randrange(2, 257), 256])))
    return policy.Policy(counts, entries)


class Building(unittest.TestCase):
    def test_the_ward_example_is_image_a_byte_for_byte(self):
        with open(WARD, encoding="utf-8") as file:
            self.assertEqual(policy.parse(file.read(), WARD)[0].words(), A)

    def test_numbers_follow_the_order_of_declaration(self):
        self.assertEqual(words_of(START + "assign BERT Clerk\ngrant Nurse Print"), [0x20420000, 0x3040C000])

    def test_declarations_may_stand_after_their_use(self):
        self.assertEqual(words_of("assign ANNA Doctor\nrole Doctor\npermission Read\nuser ANNA"), [0x20000000])

    def test_words_keep_the_order_of_the_lines(self):
        self.assertEqual(words_of(START + "senior Doctor Nurse\nassign ANNA Doctor"), [0x40010000, 0x20000000])

    def test_an_exclusion_is_followed_by_its_members(self):
        self.assertEqual(words_of(START + "exclude MS-HMER 2 Clerk Doctor"), [0x5C102000, 0x60800000, 0x60000000])

    def test_the_four_kinds_have_the_numbers_0_to_3(self):
        for number, kind in enumerate(["ss-dmer", "ms-dmer", "ss-hmer", "ms-hmer"]):
            self.assertEqual(words_of(START + f"exclude {kind} 2 Clerk Nurse")[0] >> 26 & 3, number)

    def test_a_limit_carries_the_role_and_t(self):
        self.assertEqual(words_of(START + "limit Clerk 2\nlimit Doctor 256\nlimit Clerk 017"), [0x70804000, 0x70200000, 0x70822000])

    def test_a_repeated_line_is_written_again(self):
        self.assertEqual(len(words_of(START + "assign ANNA Doctor\nassign ANNA Doctor")), 2)

    def test_comments_and_blank_lines_and_line_ends_of_either_form_are_passed_over(self):
        self.assertEqual(words_of(START.replace("\n", "\r\n") + "\r\n# all\r\n\tassign  ANNA Doctor# one\r\n"), [0x20000000])

    def test_a_user_and_a_role_may_share_a_name(self):
        self.assertEqual(words_of("user X\nrole X\npermission X\nassign X X\ngrant X X"), [0x20000000, 0x30000000])

    def test_the_largest_policy_is_accepted(self):
        lines = [f"{sort} " + " ".join(f"n{k}" for k in range(most)) for sort, most in policy.SORTS.items()]
        lines += [f"assign n{user} " + " ".join(f"n{role}" for role in range(16)) for user in range(64)]
        lines += ["exclude ss-dmer 64 " + " ".join(f"n{role}" for role in range(64))] * 32
        room = 4096 - 2 - 64 * 16 - 32 * 65
        lines += [f"grant n{k % 64} n{k // 64}" for k in range(room)]
        words = policy.parse("\n".join(lines), "t")[0].words()
        self.assertEqual(len(words), 4096)
        self.assertIsNone(refusal_of(policy.to_bytes(words)))
        self.assertIn(f"t:{len(lines) + 1}: too many words", errors_of("\n".join([*lines, "grant n0 n0"])))


class Errors(unittest.TestCase):
    def refuses(self, line, *parts):
        """The text START with this fourth line has one error, which names the line and holds the parts."""
        found = errors_of(START + line)
        self.assertEqual(len(found.split("\n")), 1, found)
        self.assertTrue(found.startswith("t:4: "), found)
        for part in parts:
            self.assertIn(part, found)

    def is_told(self, lines, expected):
        """The text START with these lines has this error and no other."""
        self.assertEqual(errors_of(START + lines), expected)

    def test_refuses_an_unknown_name_and_hints_at_a_known_one(self):
        self.refuses("assign ANA Doctor", "unknown user ANA", "did you mean ANNA?")
        self.refuses("assign ANNA Surgeon", "unknown role Surgeon")
        self.refuses("grant Doctor Wirte", "unknown permission Wirte", "did you mean Write?")
        self.refuses("senior Doctor Read", "unknown role Read", "a permission of that name")
        self.refuses("exclude ss-dmer 2 Doctor Read", "unknown role Read")

    def test_refuses_an_unknown_first_word(self):
        self.refuses("asign ANNA Doctor", "unknown word asign", "did you mean assign?")

    def test_refuses_a_name_declared_twice_and_names_both_lines(self):
        self.refuses("role Porter Nurse", "role Nurse is declared twice", "line 2")

    def test_refuses_a_name_that_is_not_printable(self):
        self.refuses("role Por\0ter", "can't be printed")

    def test_refuses_lines_with_a_word_missing(self):
        for line in ["user", "role", "permission", "assign ANNA", "grant", "senior Doctor", "exclude ss-dmer 2", "exclude"]:
            self.refuses(line, line.split()[0])

    def test_refuses_a_role_senior_over_itself(self):
        self.refuses("senior Nurse Nurse", "Nurse", "itself")

    def test_refuses_a_loop_at_the_line_that_closes_it_and_names_it(self):
        self.is_told("senior Doctor Nurse\nsenior Nurse Clerk\nsenior Clerk Doctor\nsenior Clerk Doctor",
                     "t:6: loop: Doctor over Nurse over Clerk over Doctor")
        self.is_told("senior Nurse Doctor Clerk\nsenior Clerk Nurse", "t:5: loop: Nurse over Clerk over Nurse")
        self.is_told("senior Clerk Nurse Doctor\nsenior Nurse Clerk\nsenior Doctor Clerk",
                     "t:6: loop: Doctor over Clerk over Doctor")

    def test_tells_a_loop_beside_other_errors_in_the_order_of_the_lines(self):
        found = errors_of(START + "assign ANNA X\nsenior Doctor Nurse\nsenior Nurse Doctor\nfoo")
        self.assertEqual([line.split(":")[1] for line in found.split("\n")], ["4", "6", "7"])
        self.assertIn("t:6: loop: Doctor over Nurse over Doctor", found)

    def test_refuses_a_member_twice(self):
        self.refuses("exclude ss-dmer 2 Doctor Nurse Doctor", "Doctor is a member twice")

    def test_refuses_n_out_of_range(self):
        for n in ["0", "3", "000", "999"]:
            self.refuses(f"exclude ss-dmer {n} Doctor Nurse", f"n is {int(n)};", "it is 2 to 2, the number of members")
        for n in ["-1", "two", "1.0", "00000000000000000011", "²", "9" * 5000]:
            self.refuses(f"exclude ss-dmer {n} Doctor Nurse", "a number from 2 to the number of members")

    def test_refuses_n_of_1_at_its_line_and_hints_at_2(self):
        for n in ["1", "01", "001"]:
            self.refuses(f"exclude ms-hmer {n} Doctor Nurse", "n is 1, which bars its roles from everyone", "(did you mean 2?)")
        self.refuses("exclude ms-hmer 1 Doctor", "n is 1, which bars its roles from everyone", "did you mean 2, of more roles?")
        self.is_told("exclude ss-dmer 2 Doctor Nurse\nexclude ss-dmer 1 Nurse Clerk\nexclude ss-dmer 2 Nurse Clerk",
                     "t:5: n is 1, which bars its roles from everyone (did you mean 2?)")

    def test_refuses_a_limit_outside_2_to_256_and_one_without_a_number(self):
        for t in ["0", "257", "512", "999"]:
            self.refuses(f"limit Doctor {t}", f"t is {t};", "it is 2 to 256")
        for t in ["+2", "-2", "2.0", "two", "0x2", "1000", "²", "Nurse"]:
            self.refuses(f"limit Doctor {t}", "a number from 2 to 256")
        for t in ["1", "01"]:
            self.refuses(f"limit Doctor {t}", "t is 1, which bars the role from everyone", "(did you mean 2?)")

    def test_refuses_a_limit_of_another_form(self):
        for line in ["limit", "limit Doctor"]:
            self.refuses(line, "too few words: limit ROLE T")
        self.refuses("limit Doctor Nurse 2", "too many words: limit ROLE T")
        self.refuses("limit Doctr 2", "unknown role Doctr (did you mean Doctor?)")
        self.refuses("limit Read 2", "unknown role Read (there is a permission of that name)")

    def test_refuses_an_exclusion_of_one_role(self):
        for n in ["0", "2", "3"]:
            self.refuses(f"exclude ss-dmer {n} Doctor", "1 member; an exclusion has at least 2")

    def test_refuses_an_unknown_kind_of_exclusion(self):
        self.refuses("exclude dmer 2 Doctor Nurse", "unknown kind dmer", "ss-hmer")

    def test_refuses_a_17th_role_of_a_user(self):
        roles = [f"R{k}" for k in range(17)]
        text = f"user A B\npermission P\nrole {' '.join(roles)}\nassign A {' '.join(roles[:16])}\nassign A R3\nassign B R16\n"
        self.assertEqual(errors_of(text), "")
        self.assertIn("t:7: role R16 is one too many for A", errors_of(text + "assign A R16"))

    def test_refuses_a_33rd_exclusion(self):
        text = START + "exclude ss-dmer 2 Doctor Nurse\n" * 32
        self.assertEqual(errors_of(text), "")
        self.assertIn("t:36: one exclusion too many", errors_of(text + "exclude ss-dmer 2 Doctor Nurse"))

    def test_refuses_one_name_too_many_of_each_sort(self):
        for sort, most in policy.SORTS.items():
            others = "\n".join(f"{other} X" for other in policy.SORTS if other != sort)
            names = "".join(f"{sort} n{k}\n" for k in range(most + 1))
            self.assertEqual(errors_of(names[:-len(f"{sort} n{most}\n")] + others), "")
            self.assertIn(f"t:{most + 1}: {sort} n{most} is one too many", errors_of(names + others))

    def test_refuses_a_text_that_declares_none_of_a_sort(self):
        self.assertEqual(errors_of("role R"), "t: declares no user\nt: declares no permission")

    def test_tells_all_errors_in_the_order_of_the_lines(self):
        found = errors_of(START + "assign ANNA X\nrole Nurse\ngrant Doctor Y\nfoo")
        self.assertEqual([line.split(":")[1] for line in found.split("\n")], ["4", "5", "6", "7"])


class Checking(unittest.TestCase):
    HEAD = 0x1040C080  # two users, three roles, four permissions
    EXCLUSION = [0x50102000, 0x60000000, 0x60400000]  # fewer than 2 of the roles 0 and 1

    def refuses(self, expected, *words):
        self.assertEqual(refusal_of(image(self.HEAD, *words)), expected)

    def test_accepts_image_a(self):
        self.assertIsNone(refusal_of(policy.to_bytes(A)))

    def test_accepts_a_head_and_an_end(self):
        self.assertIsNone(refusal_of(image(self.HEAD)))

    def test_refuses_lengths_by_1(self):
        for length in [0, 4, 9, 10, 11, 16388, 16385]:
            self.assertEqual(refusal_of(bytes(length)), (1, 0))
        self.assertEqual(refusal_of(bytes(16384)), (2, 0))

    def test_refuses_heads_by_2(self):
        wrong = [(0, 1, 1), (65, 1, 1), (1, 0, 1), (1, 65, 1), (1, 1, 0), (1, 1, 257)]
        for head in [0x20408000, self.HEAD | 1, self.HEAD | 16, *(policy.encode(1, *counts) for counts in wrong)]:
            self.assertEqual(refusal_of(image(head)), (2, 0))
        for counts in [(64, 64, 256), (1, 1, 1)]:
            self.assertIsNone(refusal_of(image(policy.encode(1, *counts))))

    def test_refuses_unknown_kinds_by_3(self):
        for kind in [0, 1, *range(8, 15)]:
            self.refuses((3, 1), kind << 28)

    def test_refuses_members_out_of_place_by_3(self):
        self.refuses((3, 1), 0x60000000)
        self.refuses((3, 2), self.EXCLUSION[0], 0x20000000)
        self.refuses((3, 4), *self.EXCLUSION, 0x60800000)
        self.refuses((3, 2), self.EXCLUSION[0])

    def test_refuses_an_early_end_and_a_missing_end_by_3(self):
        self.refuses((3, 1), 0xF0000000)
        self.assertEqual(refusal_of(policy.to_bytes([self.HEAD, 0x20000000])), (3, 1))

    def test_refuses_spare_bits_by_4(self):
        for word, spare in [(0x20000000, 16), (0x30000000, 14), (0x40010000, 16), (0x50102000, 12)]:
            for bit in range(spare):
                self.refuses((4, 1), word | 1 << bit)
        for bit in range(22):
            self.refuses((4, 2), self.EXCLUSION[0], 0x60000000 | 1 << bit)

    def test_refuses_numbers_out_of_range_by_5(self):
        for word in [0x20800000, 0x20030000, 0x30C00000, 0x30010000, 0x40C00000, 0x40030000]:
            self.refuses((5, 1), word)
        self.refuses((5, 2), self.EXCLUSION[0], 0x60C00000)

    def test_refuses_n_and_m_out_of_range_by_5(self):
        for n, m in [(0, 0), (1, 0), (2, 0), (2, 4), (4, 4), (127, 127)]:
            self.refuses((5, 1), policy.encode(5, 0, n, m))

    def test_refuses_n_of_1_as_n_of_0_by_5_after_spare_bits_and_before_a_33rd_exclusion(self):
        for n, m, spare, before in itertools.product(range(5), range(1, 4), (0, 1, 1 << 11), (0, 31, 32)):
            exclusion = [policy.encode(5, 3, n, m) | spare, *(policy.encode(6, role) for role in range(m))]
            number = 4 if spare else 5 if n < 2 or n > m else 7 if before == 32 else None
            told = number and (number, 1 + 3 * before)
            self.assertEqual(refusal_of(image(self.HEAD, *self.EXCLUSION * before, *exclusion)), told, (n, m, spare, before))

    def test_accepts_a_limit_from_2_to_256_of_a_role_that_is_there_and_refuses_others_by_5_after_spare_bits(self):
        for role, t in itertools.product([0, 2, 3, 63], [0, 1, 2, 3, 255, 256, 257, 511]):
            told = None if role < 3 and 2 <= t <= 256 else (5, 1)
            self.assertEqual(refusal_of(image(self.HEAD, policy.encode(7, role, t))), told, (role, t))
            for spare in (1, 1 << 12):
                self.assertEqual(refusal_of(image(self.HEAD, policy.encode(7, role, t) | spare)), (4, 1), (role, t))

    def test_refuses_a_limit_where_a_member_is_due_and_as_the_last_word_by_3(self):
        limit = policy.encode(7, 0, 2)
        for place in (1, 2):
            words = [*self.EXCLUSION[:place], limit, *self.EXCLUSION[place:]]
            self.assertEqual(refusal_of(image(self.HEAD, *words)), (3, 1 + place))
        self.assertEqual(refusal_of(policy.to_bytes([self.HEAD, limit])), (3, 1))
        self.assertIsNone(refusal_of(image(self.HEAD, limit, *self.EXCLUSION, limit, limit)))

    def test_an_image_of_one_role_has_no_exclusion(self):
        for n, m in itertools.product(range(3), range(3)):
            self.assertEqual(refusal_of(image(policy.encode(1, 1, 1, 1), policy.encode(5, 0, n, m), 0x60000000)), (5, 1))

    def test_refuses_repeats_by_6(self):
        self.refuses((6, 1), 0x40410000)
        self.refuses((6, 3), self.EXCLUSION[0], 0x60400000, 0x60400000)

    def test_a_member_of_an_earlier_exclusion_is_no_repeat(self):
        self.assertIsNone(refusal_of(image(self.HEAD, *self.EXCLUSION, *self.EXCLUSION)))

    def test_refuses_a_17th_role_and_a_33rd_exclusion_by_7(self):
        head = policy.encode(1, 2, 20, 1)
        roles = [policy.encode(2, 1, role) for role in range(17)]
        self.assertIsNone(refusal_of(image(head, *roles[:16], roles[3])))
        self.assertEqual(refusal_of(image(head, *roles)), (7, 17))
        self.assertIsNone(refusal_of(image(head, *self.EXCLUSION * 32)))
        self.assertEqual(refusal_of(image(head, *self.EXCLUSION * 33)), (7, 97))

    def test_refuses_a_sum_out_of_balance_by_8_at_the_last_word(self):
        for bit in range(28):
            self.assertEqual(refusal_of(policy.to_bytes([*A[:-1], A[-1] ^ 1 << bit])), (8, 12))

    def test_refuses_a_loop_by_22_and_its_lowest_role(self):
        self.assertEqual(refusal_of(looped((0, 1), (1, 0))), (22, 0))
        self.assertEqual(refusal_of(looped((0, 2), (2, 63), (63, 2))), (22, 2))
        self.assertIsNone(refusal_of(looped((0, 1), (0, 2), (1, 3), (2, 3), (0, 3), (0, 1))))

    def test_refuses_a_loop_after_a_word_out_of_order_and_a_sum_out_of_balance(self):
        words = policy.to_words(looped((0, 1), (1, 0)))
        self.assertEqual(refusal_of(policy.to_bytes([*words[:-1], words[-1] ^ 1])), (8, 3))
        self.assertEqual(refusal_of(image(words[0], *words[1:3], 0x40410000)), (6, 3))

    def test_names_the_lowest_of_all_shortest_chains(self):
        for seed in range(300):
            dice = random.Random(seed)
            roles = dice.choice([2, 3, 5, 7])
            pairs = [dice.sample(range(roles), 2) for _ in range(dice.randrange(1, 2 * roles))]
            juniors = {}
            for senior, junior in pairs:
                juniors.setdefault(senior, []).append(junior)
            found = loop_of(pairs)
            if found is None:
                self.assertIsNone(refusal_of(looped(*pairs)), f"seed {seed}")
            else:
                self.assertEqual(found, min(chains_of(juniors, found[0])), f"seed {seed}")
                self.assertEqual(refusal_of(looped(*pairs)), (22, found[0]), f"seed {seed}")

    def test_finds_loops_of_two_up_to_sixty_four_roles(self):
        for size in range(2, 65):
            roles = random.Random(size).sample(range(64), size)
            pairs = list(zip(roles, [*roles[1:], roles[0]]))
            first = roles.index(min(roles))
            self.assertEqual(loop_of(pairs), [*roles[first:], *roles[:first], min(roles)])

    def test_refuses_a_reach_of_17_roles_by_23_and_its_lowest_user(self):
        for wide, told in ((16, None), (17, (23, 1)), (40, (23, 1))):
            head = policy.encode(1, 3, 64, 1)
            given = [policy.encode(2, 2, 0), policy.encode(2, 1, 0), policy.encode(2, 0, 1)]
            fan = [policy.encode(4, 0, role) for role in range(1, wide)]
            chain = [policy.encode(4, role - 1, role) for role in range(1, wide)]
            self.assertEqual(refusal_of(image(head, *given, *fan)), told)
            self.assertEqual(refusal_of(image(head, *given[:2], *chain)), told)
            self.assertIsNone(refusal_of(image(head, given[2], *fan)))

    def test_refuses_a_reach_after_a_loop(self):
        words = [policy.encode(1, 1, 20, 1), policy.encode(2, 0, 0), *(policy.encode(4, 0, role) for role in range(1, 17))]
        self.assertEqual(refusal_of(image(*words)), (23, 0))
        self.assertEqual(refusal_of(image(*words, policy.encode(4, 18, 19), policy.encode(4, 19, 18))), (22, 18))

    def test_counts_a_role_that_two_ways_lead_to_once(self):
        words = [policy.encode(1, 1, 64, 1), *(policy.encode(2, 0, role) for role in range(8))]
        words += [policy.encode(4, senior, junior) for senior in range(8) for junior in range(8, 16)]
        self.assertIsNone(refusal_of(image(*words)))
        self.assertEqual(refusal_of(image(*words, policy.encode(4, 15, 63))), (23, 0))

    def test_the_earliest_bad_word_decides_then_the_lower_number(self):
        self.refuses((5, 1), 0x20030000, 0x80000000)
        self.refuses((4, 1), 0x20030001)
        self.refuses((3, 2), self.EXCLUSION[0], 0x20030001)
        self.assertEqual(refusal_of(policy.to_bytes([self.HEAD, 0x80000000, 0xF0000001])), (3, 1))


class Listing(unittest.TestCase):
    def again(self, words):
        """The words of the listing of these words."""
        said = policy.read(words)
        return policy.parse(policy.listing(said, policy.plain_names(said.counts)), "t")[0].words()

    def test_image_a_with_its_names_reads_as_the_ward_example(self):
        with open(WARD, encoding="utf-8") as file:
            _, names = policy.parse(file.read(), WARD)
        lines = policy.listing(policy.read(A), names).split("\n")
        self.assertIn("user ANNA  # 0", lines)
        self.assertIn("permission Send_data  # 4", lines)
        self.assertIn("assign ANNA Doctor Data_Manager", lines)
        self.assertIn("grant Data_Manager Read_health_records Send_data", lines)
        self.assertIn("exclude ms-dmer 2 Doctor Data_Manager", lines)

    def test_a_listed_image_builds_again_byte_for_byte(self):
        for seed in range(300):
            words = random_policy(random.Random(seed)).words()
            self.assertIsNone(refusal_of(policy.to_bytes(words)), f"seed {seed}")
            self.assertEqual(self.again(words), words, f"seed {seed}")

    def test_limits_of_one_role_stand_in_lines_of_their_own(self):
        words = policy.to_words(image(*A[:12], 0x70006000, 0x70004000, 0x70004000))
        said = policy.read(words)
        text = policy.listing(said, policy.plain_names(said.counts))
        self.assertTrue(text.endswith("\nlimit role0 3\nlimit role0 2\nlimit role0 2\n"), text)
        self.assertEqual(self.again(words), words)

    def test_long_entries_are_broken_and_keep_their_order(self):
        words = policy.to_words(image(policy.encode(1, 1, 1, 256), *(policy.encode(3, 0, 255 - p) for p in range(256))))
        said = policy.read(words)
        text = policy.listing(said, policy.plain_names(said.counts))
        self.assertLessEqual(max(len(line) for line in text.split("\n")), policy.WIDTH)
        self.assertEqual(self.again(words), words)


def reordered(dice, said):
    """A policy with the entries of another in any order, and the members of each exclusion in any order."""
    entries = dice.sample(said.entries, len(said.entries))
    members = [dice.sample(entry[3], len(entry[3])) if entry[0] == policy.EXCLUSION else None for entry in entries]
    return policy.Policy(said.counts, [entry if own is None else (*entry[:3], own) for entry, own in zip(entries, members)])


def shuffled(dice, said):
    """The same with some of the entries twice."""
    entries = list(said.entries)
    exclusions = sum(entry[0] == policy.EXCLUSION for entry in entries)
    for entry in dice.sample(entries, dice.randrange(len(entries) + 1)):
        if entry[0] != policy.EXCLUSION or exclusions < 32:
            exclusions += entry[0] == policy.EXCLUSION
            entries.append(entry)
    return reordered(dice, policy.Policy(said.counts, entries))


class Tidying(unittest.TestCase):
    HEAD = 0x1040C080  # two users, three roles, four permissions

    def tidy(self, *words):
        """The words between head and end of the tidy image of these."""
        tidy = policy.tidied(policy.read([self.HEAD, *words, policy.end_word([self.HEAD, *words])])).words()
        self.assertIsNone(refusal_of(policy.to_bytes(tidy)))
        self.assertEqual(tidy[0], self.HEAD)
        return tidy[1:-1]

    def test_image_a_is_tidy(self):
        self.assertEqual(policy.tidied(policy.read(A)).words(), A)

    def test_groups_stand_by_kind_and_ascend_by_their_fields(self):
        exclusion = [0x50102000, 0x60000000, 0x60400000]
        words = [*exclusion, 0x40420000, 0x40010000, 0x30804000, 0x30408000, 0x30404000, 0x20420000, 0x20400000, 0x20020000]
        self.assertEqual(self.tidy(*words), [*words[:2:-1], *exclusion])

    def test_limits_stand_behind_the_exclusions_by_role_each_once_with_its_smallest_t(self):
        exclusion = [0x50102000, 0x60000000, 0x60400000]
        self.assertEqual(self.tidy(0x70804000, 0x70008000, 0x70806000, *exclusion, 0x70200000, 0x70806000, 0x30000000),
                         [0x30000000, *exclusion, 0x70008000, 0x70804000])

    def test_nothing_is_repeated(self):
        words = [0x20000000, 0x30000000, 0x40010000, 0x50102000, 0x60000000, 0x60400000]
        self.assertEqual(self.tidy(*words * 5), words)

    def test_exclusions_ascend_by_kind_then_n_then_set_number_and_members_ascend(self):
        head = policy.encode(1, 1, 4, 1)
        ordered = [(0, 2, [0, 1, 2]), (0, 2, [1, 3]), (0, 2, [0, 1, 3]), (0, 3, [0, 1, 2]), (1, 2, [0, 1]), (3, 2, [0, 1, 2, 3])]
        entries = [(policy.EXCLUSION, *exclusion) for exclusion in ordered]
        tidy = policy.Policy([1, 4, 1], entries).words()
        self.assertEqual(tidy[0], head)
        for seed in range(50):
            jumbled = shuffled(random.Random(seed), policy.Policy([1, 4, 1], entries))
            self.assertEqual(policy.tidied(policy.read(jumbled.words())).words(), tidy)

    def test_shuffled_and_repeated_entries_give_one_tidy_image_and_each_entry_less_another(self):
        for seed in range(200):
            dice = random.Random(seed)
            said = random_policy(dice)
            tidy = policy.tidied(said)
            self.assertIsNone(refusal_of(policy.to_bytes(tidy.words())), f"seed {seed}")
            self.assertEqual(policy.tidied(shuffled(dice, said)).words(), tidy.words(), f"seed {seed}")
            self.assertEqual(policy.tidied(tidy).words(), tidy.words(), f"seed {seed}")
            self.assertLessEqual(len(tidy.words()), len(said.words()), f"seed {seed}")
            for place in range(len(tidy.entries)):
                less = policy.Policy(said.counts, tidy.entries[:place] + tidy.entries[place + 1:])
                self.assertNotEqual(policy.tidied(less).words(), tidy.words(), f"seed {seed}")


class Order(unittest.TestCase):
    def test_entries_in_any_order_keep_their_end_word_and_mean_the_same(self):
        moved = 0
        for seed in range(300):
            dice = random.Random(seed)
            said = random_policy(dice)
            other = reordered(dice, said)
            self.assertIsNone(refusal_of(policy.to_bytes(other.words())), f"seed {seed}")
            self.assertEqual(other.words()[-1], said.words()[-1], f"seed {seed}")
            self.assertEqual(policy.differences(said, other, policy.plain_names(said.counts)), [], f"seed {seed}")
            self.assertEqual(policy.tidied(other).words(), policy.tidied(said).words(), f"seed {seed}")
            moved += other.words() != said.words()
        self.assertGreater(moved, 100)

    def test_a_member_out_of_its_exclusion_the_head_moved_and_another_end_word_are_refused(self):
        strayed, headless = [*PLAIN[:12], PLAIN[13], PLAIN[12], *PLAIN[14:]], [PLAIN[1], PLAIN[0], *PLAIN[2:]]
        for words, refusal in [(strayed, (3, 12)), (headless, (2, 0)), ([*PLAIN[:15], PLAIN[15] + 1], (8, 15))]:
            self.assertEqual(refusal_of(policy.to_bytes(words)), refusal)


class Folder(folder.Folder):
    """A folder of its own, and the tool run in it."""

    def run_tool(self, *words, **environment):
        """The exit status of the tool, and what it printed."""
        return self.ran([sys.executable, TOOL, *words], environment)


class Commands(Folder):
    def test_build_writes_policy_img_in_the_working_directory(self):
        status, out, err = self.run_tool("build", WARD)
        self.assertEqual((status, err), (0, ""))
        self.assertEqual(out, "policy.img: 1 user, 2 roles, 5 permissions, 13 words\n")
        with open(self.path("policy.img"), "rb") as file:
            self.assertEqual(file.read(), policy.to_bytes(A))
        self.assertEqual(os.listdir(self.folder.name), ["policy.img"])

    def test_build_writes_nothing_if_the_text_has_an_error(self):
        text = self.path("p.txt", b"user A\nrole R\npermission P\nassign A S\n")
        self.path("policy.img", b"old")
        self.assertEqual(self.run_tool("build", text), (1, "", f"{text}:4: unknown role S\n"))
        with open(self.path("policy.img"), "rb") as file:
            self.assertEqual(file.read(), b"old")

    def test_build_names_the_line_that_is_not_text(self):
        text = self.path("p.txt", b"user A\nrole \xff\n")
        self.assertEqual(self.run_tool("build", text), (1, "", f"{text}:2: not UTF-8 text\n"))

    def test_build_passes_over_a_byte_order_mark(self):
        text = self.path("p.txt", "\ufeffuser A\nrole R\npermission P\n".encode())
        self.assertEqual(self.run_tool("build", text)[0], 0)

    def test_check_prints_number_word_and_place(self):
        good, bad = self.path("good", policy.to_bytes(A)), self.path("bad", policy.to_bytes([*A[:3], 0x30800000, *A[4:]]))
        self.assertEqual(self.run_tool("check", good)[:2], (0, "0 accepted: 1 user, 2 roles, 5 permissions, 13 words\n"))
        status, out, _ = self.run_tool("check", bad)
        self.assertEqual((status, out), (1, "5 range at place 3: role 2 is not below 2 (30800000)\n"))
        barring = self.path("barring", image(*A[:9], 0x54082000, *A[10:12]))
        told = "5 range at place 9: n is 1, which bars its roles from everyone (did you mean 2?) (54082000)\n"
        self.assertEqual(self.run_tool("check", barring), (1, told, ""))

    def test_check_names_a_loop_by_numbers_and_by_the_names_of_a_text(self):
        bad = self.path("bad", looped((5, 7), (7, 9), (9, 5)))
        told = "22 loop at role 5: role5 over role7 over role9 over role5\n"
        self.assertEqual(self.run_tool("check", bad), (1, told, ""))
        names = self.path("names", b"role A B C # and\nfoo\nrole D E Doctor F Consultant\nsenior Doctor Doctor\n")
        told = "22 loop at role 5: Doctor over Consultant over role9 over Doctor\n"
        self.assertEqual(self.run_tool("check", bad, names), (1, told, ""))

    def test_check_names_the_user_of_a_reach_by_number_and_by_the_name_of_a_text(self):
        words = [policy.encode(1, 2, 20, 1), policy.encode(2, 1, 0), *(policy.encode(4, 0, role) for role in range(1, 18))]
        bad = self.path("bad", image(*words))
        self.assertEqual(self.run_tool("check", bad), (1, "23 reach at user 1: user1 may switch on 18 roles, and 16 is the most\n", ""))
        names = self.path("names", b"user ANNA\nuser HEAD\n")
        self.assertEqual(self.run_tool("check", bad, names), (1, "23 reach at user 1: HEAD may switch on 18 roles, and 16 is the most\n", ""))

    def test_build_writes_nothing_for_a_reach_of_17_roles_and_names_the_line(self):
        text = self.path("text", b"user ANNA\nrole Head " + b" ".join(b"R%d" % n for n in range(16)) + b"\npermission P\nassign ANNA Head\n"
                         + b"senior Head " + b" ".join(b"R%d" % n for n in range(15)) + b"\nsenior R3 R15\nsenior R4 R15\n")
        self.assertEqual(self.run_tool("build", text), (1, "", f"{text}:6: reach: ANNA may switch on 17 roles, and 16 is the most\n"))

    def test_build_writes_nothing_for_a_loop(self):
        lines = b"user A\nrole Doctor Consultant\npermission P\nsenior Doctor Consultant\nsenior Consultant Doctor\n"
        text = self.path("p.txt", lines)
        self.assertEqual(self.run_tool("build", text), (1, "", f"{text}:5: loop: Doctor over Consultant over Doctor\n"))
        self.assertEqual(os.listdir(self.folder.name), ["p.txt"])

    def test_list_then_build_gives_the_same_file(self):
        first, text, second = self.path("a.img", policy.to_bytes(A)), self.path("a.txt"), self.path("b.img")
        with open(text, "w", encoding="utf-8") as file:
            file.write(self.run_tool("list", first, WARD)[1])
        self.assertEqual(self.run_tool("build", text, "-o", second)[0], 0)
        with open(second, "rb") as file:
            self.assertEqual(file.read(), policy.to_bytes(A))

    def test_list_and_build_keep_the_order_of_entries_and_of_members(self):
        before = "assign user0 role0 role1 role2 role3\ngrant role0 permission0\ngrant role2 permission1\n"
        plain = f"{before}exclude ms-dmer 2 role0 role1\nexclude ss-dmer 2 role2 role3\nlimit role0 2\nlimit role0 3\n"
        turned = f"limit role0 3\n{before}exclude ss-dmer 2 role3 role2\nexclude ms-dmer 2 role1 role0\nlimit role0 2\n"
        for words, lines in [(PLAIN, plain), (TURNED, turned)]:
            status, text, _ = self.run_tool("list", self.path("first", policy.to_bytes(words)))
            self.assertEqual((status, text.split("\n\n")[-1]), (0, lines))
            self.assertEqual(self.run_tool("build", self.path("text", text.encode()), "-o", self.path("second"))[0], 0)
            with open(self.path("second"), "rb") as file:
                self.assertEqual(file.read(), policy.to_bytes(words))

    def test_list_refuses_a_refused_image(self):
        status, out, err = self.run_tool("list", self.path("bad", b"1234"))
        self.assertEqual((status, out), (1, ""))
        self.assertIn("1 length at place 0", err)

    def test_list_refuses_names_for_another_number_of_roles(self):
        names = self.path("names", b"user A\nrole R\npermission A B C D E\n")
        status, _, err = self.run_tool("list", self.path("a.img", policy.to_bytes(A)), names)
        self.assertEqual((status, err), (1, f"{names}: declares 1 roles, and the image has 2\n"))

    def test_tidy_writes_the_tidy_image(self):
        jumbled = self.path("jumbled", image(A[0], *A[9:12], *A[8:0:-1], *A[1:4]))
        said = self.run_tool("tidy", jumbled, "-o", self.path("tidy"))
        self.assertEqual(said, (0, f"{self.path('tidy')}: 1 user, 2 roles, 5 permissions, 13 words, from 16\n", ""))
        with open(self.path("tidy"), "rb") as file:
            self.assertEqual(file.read(), policy.to_bytes(A))
        self.assertEqual(self.run_tool("tidy", jumbled, "-o", jumbled)[0], 0)
        with open(jumbled, "rb") as file:
            self.assertEqual(file.read(), policy.to_bytes(A))

    def test_tidy_writes_nothing_for_a_refused_image(self):
        bad, out = self.path("bad", looped((0, 1), (1, 0))), self.path("out", b"old")
        self.assertEqual(self.run_tool("tidy", bad, "-o", out), (1, "", f"{bad}: refused: 22 loop at role 0: role0 over role1 over role0\n"))
        with open(out, "rb") as file:
            self.assertEqual(file.read(), b"old")

    def test_same_says_so_whatever_the_order_and_the_repeats(self):
        first, second = self.path("a", policy.to_bytes(A)), self.path("b", image(A[0], A[9], *A[11:9:-1], *A[8:0:-1], *A[1:4]))
        for pair in [(first, second), (second, first), (first, first)]:
            self.assertEqual(self.run_tool("same", *pair), (0, "the same\n", ""))

    def test_same_says_so_of_entries_moved_about_and_not_of_members_moved_across_exclusions(self):
        plain, turned = self.path("plain", policy.to_bytes(PLAIN)), self.path("turned", policy.to_bytes(TURNED))
        self.assertEqual(self.run_tool("same", plain, turned), (0, "the same\n", ""))
        crossed = self.path("crossed", policy.to_bytes([*PLAIN[:9], PLAIN[11], PLAIN[10], PLAIN[9], *PLAIN[12:]]))
        told = ("+ exclude ss-dmer 2 role1 role3\n- exclude ss-dmer 2 role2 role3\n"
                "- exclude ms-dmer 2 role0 role1\n+ exclude ms-dmer 2 role0 role2\n")
        self.assertEqual(self.run_tool("same", plain, crossed), (1, told, ""))
        for seed in range(12):
            dice = random.Random(seed)
            said = random_policy(dice)
            first, second = self.path("first", policy.to_bytes(said.words())), self.path("second", policy.to_bytes(reordered(dice, said).words()))
            self.assertEqual(self.run_tool("same", first, second), (0, "the same\n", ""), f"seed {seed}")

    def test_same_tells_the_entries_that_only_one_image_has(self):
        changed = [A[0], A[1], *A[3:9], 0x30404000, 0x40010000, 0x5C102000, *A[10:12]]
        first, second = self.path("a", policy.to_bytes(A)), self.path("b", image(*changed))
        told = "- assign user0 role1\n+ senior role0 role1\n- exclude ms-dmer 2 role0 role1\n+ exclude ms-hmer 2 role0 role1\n"
        self.assertEqual(self.run_tool("same", first, second), (1, told, ""))
        told = ("- assign ANNA Data_Manager\n+ senior Doctor Data_Manager\n- exclude ms-dmer 2 Doctor Data_Manager\n"
                "+ exclude ms-hmer 2 Doctor Data_Manager\n")
        self.assertEqual(self.run_tool("same", first, second, WARD), (1, told, ""))

    def test_same_counts_the_smallest_limit_of_each_role(self):
        first = self.path("a", image(*A[:12], 0x70006000, 0x70400000 | 9 << 13, 0x70008000))
        second = self.path("b", image(A[0], 0x70400000 | 9 << 13, *A[1:12], 0x70006000))
        self.assertEqual(self.run_tool("same", first, second), (0, "the same\n", ""))
        third = self.path("c", image(*A[:12], 0x70006000, 0x70004000))
        told = "+ limit Doctor 2\n- limit Doctor 3\n- limit Data_Manager 9\n"
        self.assertEqual(self.run_tool("same", first, third, WARD), (1, told, ""))

    def test_same_tells_heads_that_differ(self):
        first, second = self.path("a", policy.to_bytes(A)), self.path("b", image(policy.encode(1, 1, 3, 5), *A[1:12], 0x20020000))
        told = "- 1 user, 2 roles, 5 permissions\n+ 1 user, 3 roles, 5 permissions\n+ assign ANNA role2\n"
        self.assertEqual(self.run_tool("same", first, second, WARD), (1, told, ""))

    def test_same_gives_status_2_for_a_refused_image_on_either_side(self):
        good, bad = self.path("good", policy.to_bytes(A)), self.path("bad", b"1234")
        for pair in [(good, bad), (bad, good)]:
            told = f"{bad}: refused: 1 length at place 0: 4 bytes; an image has 8 to 16384\n"
            self.assertEqual(self.run_tool("same", *pair), (2, "", told))

    def test_same_says_of_texts_whether_every_number_is_kept(self):
        kept = self.path("kept", b"user ANNA BERT CARL\nrole Doctor Nurse Clerk Porter\npermission Read Write Send Print\n")
        start = self.path("start", START.encode())
        self.assertEqual(self.run_tool("same", start, start), (0, "the same\nevery number is kept\n", ""))
        told = "- 2 users, 3 roles, 4 permissions\n+ 3 users, 4 roles, 4 permissions\nevery number is kept\n"
        self.assertEqual(self.run_tool("same", start, kept), (1, told, ""))

    def test_same_tells_each_name_that_has_another_number_or_is_gone(self):
        start = self.path("start", START.encode())
        turned = self.path("turned", b"user BERT ANNA\nrole Doctor Clerk\npermission Read Write Copy Print\n")
        told = ("- 2 users, 3 roles, 4 permissions\n+ 2 users, 2 roles, 4 permissions\nuser ANNA had number 0 and has 1 now\n"
                "user BERT had number 1 and has 0 now\nrole Nurse had number 1 and is gone\nrole Clerk had number 2 and has 1 now\n"
                "permission Send had number 2 and is gone\n")
        self.assertEqual(self.run_tool("same", start, turned), (3, told, ""))

    def test_same_names_what_is_taken_by_the_old_text_and_what_is_added_by_the_new_one(self):
        start = self.path("start", (START + "assign BERT Nurse\n").encode())
        turned = self.path("turned", b"user BERT ANNA\nrole Doctor Clerk Nurse\npermission Read Write Send Print\nassign BERT Clerk\n")
        told = ("+ assign BERT Clerk\n- assign BERT Nurse\nuser ANNA had number 0 and has 1 now\nuser BERT had number 1 and has 0 now\n"
                "role Nurse had number 1 and has 2 now\nrole Clerk had number 2 and has 1 now\n")
        self.assertEqual(self.run_tool("same", start, turned), (3, told, ""))

    def test_same_gives_status_2_for_a_text_with_an_error(self):
        start, bad = self.path("start", START.encode()), self.path("bad", b"user ANNA\nassign ANNA Doctor\n")
        status, out, err = self.run_tool("same", start, bad)
        self.assertEqual((status, out), (2, ""))
        self.assertIn("unknown role Doctor", err)

    def test_stopped_tells_a_role_that_is_no_longer_the_users(self):
        text = self.path("new", (START + "assign ANNA Nurse\nassign BERT Doctor\nsenior Doctor Clerk\n").encode())
        ledger = self.path("ledger", ledger_of(line_of({0: 1}, past=1), line_of({1: 5}, past=5)))
        told = "ANNA (0) is stopped:\n  window 0 has Doctor, which is not ANNA's\n"
        self.assertEqual(self.run_tool("stopped", text, ledger), (1, told, ""))

    def test_stopped_tells_the_exclusions_that_are_not_met(self):
        entries = "assign ANNA Doctor Nurse Clerk\nexclude ms-hmer 2 Doctor Nurse\nexclude ss-dmer 2 Nurse Clerk\nexclude ms-dmer 3 Doctor Nurse Clerk\n"
        text = self.path("new", (START + entries).encode())
        ledger = self.path("ledger", ledger_of(line_of({0: 6}, past=7), bytes(144)))
        told = "ANNA (0) is stopped:\n  exclude ss-dmer 2 Nurse Clerk\n  exclude ms-hmer 2 Doctor Nurse\n"
        self.assertEqual(self.run_tool("stopped", text, ledger), (1, told, ""))

    def test_stopped_tells_a_past_beyond_the_roles_and_a_damaged_line(self):
        text = self.path("new", START.encode())
        ledger = self.path("ledger", ledger_of(line_of({}, past=1 << 5), b"\0\1" + bytes(142)))
        told = ("ANNA (0) is stopped:\n  the past has role 5, and the policy has 3 roles\n"
                "BERT (1) is stopped:\n  the line is damaged: no call leaves such a line\n")
        self.assertEqual(self.run_tool("stopped", text, ledger), (1, told, ""))

    def test_stopped_tells_nobody_and_adds_zero_lines(self):
        ledger = self.path("ledger", ledger_of(line_of({0: 1}, past=1)))
        text = self.path("new", (START + "assign ANNA Doctor\nlimit Doctor 2\n").encode())
        self.assertEqual(self.run_tool("stopped", text, ledger), (0, "1 zero line added for new users\nnobody is stopped\n", ""))
        with open(ledger, "rb") as file:
            self.assertEqual(len(file.read()), 144)

    def test_stopped_takes_an_image_and_its_names(self):
        image_a = self.path("a", policy.to_bytes(A))
        ledger = self.path("ledger", ledger_of(line_of({0: 1, 3: 2}, past=3)))
        told = "ANNA (0) is stopped:\n  exclude ms-dmer 2 Doctor Data_Manager\n"
        self.assertEqual(self.run_tool("stopped", image_a, ledger, WARD), (1, told, ""))
        self.assertEqual(self.run_tool("stopped", image_a, ledger)[1].split("\n")[0], "user0 (0) is stopped:")

    def test_who_is_stopped_goes_on_once_each_reason_is_mended(self):
        rng, told = random.Random(15), {"roles": 0, "exclusions": 0, "damaged": 0, "nobody": 0}
        names = {"user": ["ANNA"], "role": [f"R{k}" for k in range(5)], "permission": ["Read"]}
        for _ in range(400):
            entries = [(policy.ASSIGNMENT, 0, role) for role in range(5) if rng.random() < 0.6]
            entries += [(policy.SENIOR, role, role + 1) for role in range(4) if rng.random() < 0.2]
            entries += [(policy.EXCLUSION, rng.randrange(4), rng.choice((2, 2, 3)), sorted(rng.sample(range(5), 3))) for _ in range(rng.randrange(3))]
            new = policy.Policy([1, 5, 1], entries)
            active = {session: rng.randrange(32) for session in range(8) if rng.random() < 0.2}
            line = line_of(active, past=31 if rng.random() < 0.3 else sum(1 << role for role in range(5) if any(s >> role & 1 for s in active.values())))
            if rng.random() < 0.1:
                line = bytes([line[0]]) + b"\1" + line[2:]
            if not why.stops(new, 0, line):
                told["nobody"] += 1
                continue
            found = why.reasons(new, 0, line, names)
            damaged = found[-1] == "the line is damaged: no call leaves such a line"
            self.assertEqual(damaged, line[1] == 1)
            exclusions = {reason for reason in found if reason.startswith("exclude")}
            windows = [reason for reason in found if reason.startswith("window")]
            roles = {reason.split()[3][:-1] for reason in windows}
            self.assertEqual(len(exclusions) + len(windows) + damaged, len(found))
            kept = [e for e in policy.tidied(new).entries if " ".join(policy.named(e, names)) not in exclusions]
            mended = policy.Policy(new.counts, kept + [(policy.ASSIGNMENT, 0, names["role"].index(role)) for role in roles])
            self.assertIs(why.stops(mended, 0, line), damaged, (found, entries, active))
            for what, seen in (("roles", roles), ("exclusions", exclusions), ("damaged", damaged)):
                told[what] += bool(seen)
        self.assertTrue(all(count >= 20 for count in told.values()), told)

    def test_stopped_gives_status_2_for_a_refused_image_a_misfit_and_a_missing_library(self):
        good, bad = self.path("a", policy.to_bytes(A)), self.path("bad", b"1234")
        ledger, long = self.path("ledger", bytes(144)), self.path("long", bytes(288))
        for words in [(bad, ledger), (good, long), (good, self.path("cut", bytes(143))), (good, "nothing")]:
            status, out, err = self.run_tool("stopped", *words)
            self.assertEqual((status, out), (2, ""), words)
            self.assertNotIn("Traceback", err)
        done = subprocess.run([sys.executable, TOOL, "stopped", good, ledger], env={**os.environ, "NUTRAMEZA_LIB": self.folder.name},
                              capture_output=True, text=True, check=False)
        self.assertEqual((done.returncode, done.stdout), (2, ""))
        self.assertIn("libnutrameza.a is missing", done.stderr)

    def test_a_file_that_is_not_there_and_wrong_usage_give_status_2(self):
        good = self.path("good", policy.to_bytes(A))
        for words in [("build", "nothing"), ("list", "nothing"), ("check", "nothing"), ("foo",), (), ("tidy", good), ("same", good),
                      ("tidy", "nothing", "-o", "out"), ("tidy", good, "-o", "no/folder"), ("same", good, "nothing"), ("same", "nothing", good),
                      ("same", good, good, "nothing"), ("stopped", good)]:
            status, out, err = self.run_tool(*words)
            self.assertEqual((status, out), (2, ""), words)
            self.assertNotIn("Traceback", err)

    def test_help_describes_the_text_form(self):
        with contextlib.redirect_stdout(io.StringIO()) as out, self.assertRaises(SystemExit):
            cli.policy_parser().parse_args(["--help"])
        for word in [*policy.SORTS, *policy.ENTRIES, *policy.EXCLUSION_KINDS, "loop", "22", "reach", "23", "why"]:
            self.assertIn(word, out.getvalue())


def line(past=(), **windows):
    """A user's line: w0=(active, past of the window) and so on, each window's past and these roles in the user's."""
    words, whole = [0] * 18, set(past)
    for window, (active, had) in windows.items():
        number = int(window[1:])
        words[0] |= 1 << number
        words[2 + 2 * number], words[3 + 2 * number] = number_of(active), number_of({*active, *had})
        whole |= {*active, *had}
    words[1] = number_of(whole)
    return struct.pack("<18Q", *words)


def number_of(numbers):
    """A set's number."""
    return sum(1 << number for number in numbers)


FRESH = ((), ())


class Why(Folder):
    """Each sentence as its reader gets it: from the library in NUTRAMEZA_LIB, else in target/staticlib."""

    def ask(self, image, ledger, names, *words):
        """What `why` prints of an ask, and that it left the files as they were."""
        paths = [self.path("image", image), self.path("ledger", ledger), names]
        said = self.run_tool("why", *paths, *words, NUTRAMEZA_LIB=LIBRARY)
        for path, before in zip(paths, (image, ledger)):
            with open(path, "rb") as file:
                self.assertEqual(file.read(), before)
        return said

    def clinic(self, ledger, *words):
        """An ask of the clinic."""
        with open(CLINIC, encoding="utf-8") as file:
            image_of_clinic = policy.to_bytes(policy.parse(file.read(), CLINIC)[0].words())
        return self.ask(image_of_clinic, ledger, CLINIC, *words)

    def of_text(self, text, ledger, *words):
        """An ask under a policy text."""
        return self.ask(policy.to_bytes(policy.parse(text, "t")[0].words()), ledger, self.path("t", text.encode()), *words)

    def says(self, said, sentence):
        self.assertEqual(said, (0, sentence + "\n", ""))

    def test_the_ward_the_window_that_holds_doctor_bars_data_manager(self):
        ledger = line(w0=((0,), ()), w1=FRESH)
        self.says(self.ask(policy.to_bytes(A), ledger, WARD, "ANNA", "1", "Read_health_records", "Send_data"),
                  "Send_data (4) needs Data_Manager (1), which ms-dmer 2 of Doctor (0), Data_Manager (1) bars while window 0 holds Doctor (0)")

    def test_numbers_stand_for_names_and_an_image_without_names_is_told_by_numbers(self):
        ledger, nameless = line(w0=((0,), ()), w1=FRESH), self.path("nameless", b"")
        self.says(self.ask(policy.to_bytes(A), ledger, nameless, "0", "1", "1", "4"),
                  "permission4 (4) needs role1 (1), which ms-dmer 2 of role0 (0), role1 (1) bars while window 0 holds role0 (0)")
        self.says(self.ask(policy.to_bytes(A), ledger, WARD, "0", "0", "4", "1"), "nothing stands in the way")

    def test_a_permission_of_no_role_of_the_user(self):
        self.says(self.clinic(line() + line(w0=FRESH), "BERT", "0", "Read_id", "Prescribe"),
                  "Prescribe (2) needs Doctor (0), which BERT (1) may not switch on")
        self.says(self.of_text(START + "assign ANNA Clerk\ngrant Doctor Read\ngrant Nurse Read\nsenior Doctor Nurse\n",
                               line(w0=FRESH) + line(), "ANNA", "0", "Read"),
                  "Read (0) needs Doctor (0) or Nurse (1), which ANNA (0) may not switch on")

    def test_a_permission_of_no_role_at_all(self):
        self.says(self.of_text(START, line(w0=FRESH) + line(), "ANNA", "0", "Print"), "no role carries Print (3)")

    def test_roles_that_carry_more_than_the_upper_bound(self):
        text = START + "assign ANNA Doctor Nurse\ngrant Doctor Read Write Send\ngrant Nurse Read Print\n"
        ledger = line(w0=FRESH) + line()
        self.says(self.of_text(text, ledger, "ANNA", "0", "Read", "--upper", "Write"),
                  "Read (0) needs Doctor (0) or Nurse (1), and outside the upper bound Doctor (0) carries Send (2) and Nurse (1) carries "
                  "Print (3)")
        self.says(self.of_text(text, ledger, "ANNA", "0", "Read", "--upper", "Read", "Print"), "nothing stands in the way")

    def test_a_limit_with_the_windows_that_hold_the_role_the_users_own_and_others(self):
        self.says(self.clinic(line(w0=FRESH, w1=((3,), ())) + line(w0=FRESH), "BERT", "0", "Answer_alarm"),
                  "Answer_alarm (6) needs On_Call (3), and limit 2 bars On_Call (3) while window 1 of ANNA (0) holds On_Call (3)")
        text = START + "assign ANNA Doctor\nassign BERT Doctor\ngrant Doctor Read\nlimit Doctor 9\nlimit Doctor 3\n"
        self.says(self.of_text(text, line(w2=((0,), ()), w5=FRESH) + line(w7=((0,), ())), "ANNA", "5", "Read"),
                  "Read (0) needs Doctor (0), and limit 3 bars Doctor (0) while window 2 holds Doctor (0) and window 7 of BERT (1) holds "
                  "Doctor (0)")

    def test_an_exclusion_over_the_window_names_what_does_not_go_together(self):
        self.says(self.clinic(line() + line(w0=FRESH), "BERT", "0", "Order_drugs", "Give_drugs", "Answer_alarm"),
                  "Give_drugs (5) and Answer_alarm (6) together need more than ss-dmer 2 of Nurse (2), On_Call (3) allows")

    def test_an_exclusion_over_the_windows_names_each_that_holds_a_counted_role(self):
        text = START + "assign ANNA Doctor Nurse Clerk\ngrant Doctor Read\ngrant Nurse Write\ngrant Clerk Send\nexclude ms-dmer 3 Doctor Nurse Clerk\n"
        ledger = line(w0=FRESH, w3=((0,), ()), w4=((0, 1), ()), w6=((2,), ()))
        self.assertEqual(self.of_text(text, ledger + line(), "ANNA", "0", "Send")[::2], (1, "refused: 11 line: the line of ANNA (0) is not sound\n"))
        ledger = line(w0=FRESH, w3=((0,), ()), w4=((0, 1), ()))
        self.says(self.of_text(text, ledger + line(), "ANNA", "0", "Read", "Send"),
                  "Send (2) needs Clerk (2), which ms-dmer 3 of Doctor (0), Nurse (1), Clerk (2) bars while window 3 holds Doctor (0) and "
                  "window 4 holds Doctor (0) and Nurse (1)")

    def test_an_exclusion_over_the_past_of_a_window_or_of_the_user(self):
        self.says(self.clinic(line(w0=((), (0,))) + line(), "ANNA", "0", "Order_drugs"),
                  "Order_drugs (7) needs Buyer (4), which ss-hmer 2 of Doctor (0), Buyer (4) bars since window 0 has had Doctor (0)")
        self.says(self.clinic(line() + line(past=(4,), w2=FRESH), "BERT", "2", "Approve_order"),
                  "Approve_order (8) needs Approver (5), which ms-hmer 2 of Buyer (4), Approver (5) bars since BERT (1) has had Buyer (4)")

    def test_another_role_that_carries_it_and_is_out_for_another_reason(self):
        text = START + "assign ANNA Doctor Nurse Clerk\ngrant Doctor Read\ngrant Nurse Read Print\ngrant Clerk Send\nexclude ms-hmer 2 Doctor Clerk\n"
        self.says(self.of_text(text, line(past=(2,), w0=FRESH) + line(), "ANNA", "0", "Read", "--upper", "Send"),
                  "Read (0) needs Doctor (0), which ms-hmer 2 of Doctor (0), Clerk (2) bars since ANNA (0) has had Clerk (2); Nurse (1) would "
                  "do, but for another rule or the upper bound")

    def test_nothing_stands_in_the_way(self):
        self.says(self.clinic(line(w0=FRESH) + line(), "ANNA", "0", "Read_id", "Prescribe"), "nothing stands in the way")

    def test_a_refused_call_is_told_by_number_word_and_reason(self):
        good = line(w0=FRESH) + line()
        for ledger, words, told in [
                (good[1:], ("ANNA", "0"), "9 ledger: 287 bytes are no ledger of 2 users"),
                (good, ("2", "0"), "10 person: there is no user 2"),
                (good, (str(2 ** 64 - 1), "0"), f"10 person: there is no user {2 ** 64 - 1}"),
                (b"\xff" * 144 + line(w0=FRESH), ("BERT", "0"), "11 line: the line of ANNA (0) is not sound"),
                (good[:144] + b"\xff" * 144, ("BERT", "0"), "11 line: the line of BERT (1) is not sound"),
                (good, ("ANNA", "8"), "12 session: there is no window 8"),
                (good, ("ANNA", str(2 ** 64 - 1)), f"12 session: there is no window {2 ** 64 - 1}"),
                (good, ("ANNA", "1"), "13 closed: window 1 is not open")]:
            self.assertEqual(self.clinic(ledger, *words, "Read_id"), (1, "", f"refused: {told}\n"))
        self.assertEqual(self.clinic(good, "ANNA", "0", "9"), (1, "", "refused: 16 permission: permissions are numbered below 9\n"))

    def test_a_refused_image_is_told_by_number_word_and_extra(self):
        self.assertEqual(self.ask(b"1234", line(), WARD, "ANNA", "0", "Send_data"), (1, "", "refused: 1 length (0)\n"))
        self.assertEqual(self.ask(policy.to_bytes([*A[:12], A[12] ^ 1]), line(), WARD, "ANNA", "0", "Send_data"),
                         (1, "", "refused: 8 balance (12)\n"))

    def test_unknown_names_and_numbers_beyond_give_status_2(self):
        good = line(w0=FRESH)
        for words, told in [(("ANN", "0", "Send_data"), "unknown user ANN (did you mean ANNA?)\n"),
                            (("ANNA", "0", "Sent_data"), "unknown permission Sent_data (did you mean Send_data?)\n"),
                            (("ANNA", "0", "256"), "unknown permission 256\n"), ((str(2 ** 64), "0", "1"), f"unknown user {2 ** 64}\n")]:
            self.assertEqual(self.ask(policy.to_bytes(A), good, WARD, *words), (2, "", told))
        for words in [("ANNA", "-1", "Send_data"), ("ANNA", "x", "Send_data"), ("ANNA", str(2 ** 64), "Send_data"), ("ANNA", "0")]:
            status, out, err = self.ask(policy.to_bytes(A), good, WARD, *words)
            self.assertEqual((status, out), (2, ""), words)
            self.assertNotIn("Traceback", err)

    def test_without_a_library_or_a_compiler_it_says_so(self):
        image_a, ledger = self.path("image", policy.to_bytes(A)), self.path("ledger", line(w0=FRESH))
        words = ("why", image_a, ledger, WARD, "ANNA", "0", "Send_data")
        nothing = os.path.join(self.folder.name, "libnutrameza.a")
        self.assertEqual(self.run_tool(*words, NUTRAMEZA_LIB=self.folder.name), (2, "", f"{nothing} is missing: make it with 'make lib'\n"))
        self.path("libnutrameza.a", os.urandom(64))
        self.assertEqual(self.run_tool(*words, NUTRAMEZA_LIB=self.folder.name, CC="no-such-compiler"),
                         (2, "", "no-such-compiler: No such file or directory\n"))
        status, out, err = self.run_tool(*words, NUTRAMEZA_LIB=self.folder.name)
        self.assertEqual((status, out), (2, ""))
        self.assertTrue(err.startswith(f"{nothing} can't be linked: "), err)

    def test_something_is_said_exactly_if_the_ask_is_told_20(self):
        seen = {"given": 0, "told": 0}
        for seed in range(400):
            dice = random.Random(seed)
            said = random_policy(dice)
            data = said.image()
            if not nutrameza.check(data).done:
                continue
            ledger, everything = nutrameza.new_ledger(data), set(range(said.counts[2]))
            for _ in range(12):
                user, session = dice.randrange(said.counts[0]), dice.randrange(2)
                nutrameza.open(data, ledger, user)
                lower = set(dice.choices(sorted(everything), k=dice.randrange(1, 4)))
                upper = lower | set(dice.choices(sorted(everything), k=9)) if dice.randrange(3) == 0 else everything
                ask = why.Ask(data, bytes(ledger), policy.no_names(), user, session)
                try:
                    sentence = ask.why(lower, upper)
                except why.CallRefused as refused:
                    self.assertIn("13 closed", str(refused))
                    continue
                number = nutrameza.short_ask(data, ledger, user, session, lower, upper).number
                self.assertEqual((sentence is None, sentence is not None), (number == 0, number == 20), f"seed {seed}")
                seen["told" if sentence else "given"] += 1
                self.assertTrue(sentence is None or any(f"permission{p} ({p})" in sentence for p in lower), sentence)
        self.assertTrue(all(count > 300 for count in seen.values()), seen)


def main():
    result = unittest.TextTestRunner(stream=sys.stdout, verbosity=2).run(unittest.defaultTestLoader.loadTestsFromModule(
        sys.modules[__name__]))
    failed = len({case.id() for case, _ in result.failures + result.errors})
    sys.stdout.flush()
    print(f"{result.testsRun - failed} passed, {failed} failed")
    return 0 if failed == 0 and result.testsRun > 0 else 1


if __name__ == "__main__":
    sys.exit(main())
