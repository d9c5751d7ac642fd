#!/usr/bin/env python3
"""Writes accepted and damaged images into a folder, a file 'expected' with the refusal of each by the rules written
again in rules.py, and the tidy images that these make of the accepted ones.

images.py FOLDER COUNT: the images are FOLDER/00000 and so on; a line of 'expected' is number, word and extra;
FOLDER/tidy has the tidy images, each under the name of its image.
"""

import importlib.machinery
import importlib.util
import os
import random
import sys

sys.dont_write_bytecode = True
TOOLS = os.path.join(os.path.dirname(os.path.abspath(__file__)), "..", "..", "tools")


def module(name, file):
    loader = importlib.machinery.SourceFileLoader(name, os.path.join(TOOLS, file))
    made = importlib.util.module_from_spec(importlib.util.spec_from_loader(name, loader))
    loader.exec_module(made)
    return made


test_policy = module("test_policy", "test_policy.py")
policy = test_policy.policy
rules = test_policy.rules


def damaged(dice, words):
    """The words with one to three of them changed, moved, dropped or doubled; mostly balanced again."""
    words = list(words)
    for _ in range(dice.randrange(1, 4)):
        place = dice.randrange(len(words))
        change = dice.randrange(6)
        if change == 0:
            words[place] ^= 1 << dice.randrange(32)
        elif change == 1:
            words[place] = words[place] & 0x0FFFFFFF | dice.randrange(16) << 28
        elif change == 2:
            words.insert(place, words[dice.randrange(len(words))])
        elif change == 3 and len(words) > 1:
            del words[place]
        elif change == 4:
            other = dice.randrange(len(words))
            words[place], words[other] = words[other], words[place]
        else:
            words[place] = dice.randrange(1 << 32)
    if dice.randrange(4) and words:
        words[-1] = words[-1] & 0xF0000000 | policy.end_word(words[:-1]) & 0x0FFFFFFF
    return words


def sample(dice):
    """The bytes of one image: accepted, damaged by words, or of a wrong length."""
    words = test_policy.random_policy(dice).words()
    choice = dice.randrange(10)
    if choice == 0:
        return policy.to_bytes(words)
    if choice == 1:
        data = policy.to_bytes(words)
        return dice.choice([data[:dice.randrange(len(data))], data + bytes(dice.randrange(1, 4)), data.ljust(16388, b"\0")])
    return policy.to_bytes(damaged(dice, words))


def looped(dice):
    """An image with one or more loops of senior words, mostly."""
    words = [policy.encode(1, 1, 64, 1)]
    for _ in range(dice.randrange(1, 4)):
        roles = dice.sample(range(dice.choice([4, 64])), dice.randrange(2, 5))
        words += [policy.encode(4, senior, junior) for senior, junior in zip(roles, [*roles[1:], dice.choice([roles[0], 0, 63])])
                  if senior != junior]
    return policy.to_bytes([*words, policy.end_word(words)])


def wide(dice):
    """An image whose users reach about 16 roles, each below a role that is assigned or reached before it."""
    words = [policy.encode(1, 3, 64, 1)]
    for user in range(3):
        roles = dice.sample(range(64), dice.choice([1, 15, 16, 17]))
        assigned = dice.randrange(1, min(len(roles), 16) + 1)
        words += [policy.encode(2, user, role) for role in roles[:assigned]]
        if dice.randrange(3):
            words += [policy.encode(4, dice.choice(roles[:place]), roles[place]) for place in range(assigned, len(roles))]
    return policy.to_bytes([*words, policy.end_word(words)])


def crowded(dice):
    """An image with about as many roles of a user and exclusions as may be."""
    words = [policy.encode(1, 2, 20, 3)]
    for _ in range(dice.choice([32, 33])):
        words += [policy.encode(5, dice.randrange(4), 2, 2), *(policy.encode(6, role) for role in dice.sample(range(20), 2))]
    words += [policy.encode(2, 1, role) for role in dice.sample(range(20), dice.choice([16, 17]))]
    return policy.to_bytes([*words, policy.end_word(words)])


def main(folder, count):
    dice = random.Random(1)
    os.makedirs(os.path.join(folder, "tidy"), exist_ok=True)
    with open(os.path.join(folder, "expected"), "w", encoding="ascii") as expected:
        for number in range(count):
            data = {0: crowded, 5: wide, 10: looped}.get(number % 20, sample)(dice)
            with open(os.path.join(folder, f"{number:05}"), "wb") as file:
                file.write(data)
            try:
                tidy = rules.tidied(rules.read(rules.check(data))).words()
                with open(os.path.join(folder, "tidy", f"{number:05}"), "wb") as file:
                    file.write(rules.to_bytes(tidy))
                expected.write("0 done 0\n")
            except rules.Refused as refused:
                expected.write(f"{refused}\n")


if __name__ == "__main__":
    main(sys.argv[1], int(sys.argv[2]))
