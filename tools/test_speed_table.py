#!/usr/bin/env python3
"""tools/speed_table: the lines it makes of an output, and the outputs it refuses. The last line is 'N passed, M
failed'."""
import importlib.machinery
import importlib.util
import os
import sys

HERE = os.path.dirname(os.path.abspath(__file__))
loader = importlib.machinery.SourceFileLoader("speed_table", os.path.join(HERE, "speed_table"))
speed = importlib.util.module_from_spec(importlib.util.spec_from_loader("speed_table", loader))
loader.exec_module(speed)

README = "# Kit\n\nbefore\n\n%s\nold table\n%s\n\nafter\n" % (speed.BEGIN, speed.END)

# a row for every line of the table, as the benchmark prints them
ROWS = """\
check, 13 words                                        49           40    1.20
check, 4,096 words, by kind                          7993         6397    1.26
check, 4,096 words, grants                           4256         4157    1.02
open, 13 words                                         97           90    1.07
close, 4,096 words, in any order                    13294        11797    1.13
ask, 13 words                                         321          161    1.99
short ask, 4,096 words, deep hierarchy              14356        14513    0.99
ask, one role over fifteen                           1049          817    1.28
ask, 64 users, 161 words                             1096          852    1.26
ask, 64 users, 161 words, 16 limits                  4255         2563    1.68
ask, 64 users, 4,096 words, 64 limits               39035        31333    1.24
widen, 1 user, 13 words                               101           74    1.36
narrow, 64 users, 145 words                          1812         1784    1.01
widen, 64 users, 4,096 words, grants                 9236         7908    1.14
loop of 2 roles, 4 words                               45           27    1.68
loop of 64 roles, 4,096 words                       12206        10234    1.19
tidy, 13 words                                        123          124    1.00
tidy, 4,096 words, mostly repeats                    8711         8074    1.08
table, 13 words                                        98           70    1.41
table, 4,096 words, deep hierarchy                  16689        19972    0.85
turn                                                 1429          805    1.80
unturn                                               1447          784    1.84
Plb_bigR 1 0, 10 of 10 done                         12984        15463    0.87         741130   0.018
that_smallR 2 0, 6 of 8 done                        13983        13459    1.05          35883   0.390
text, image A 1 1                                     666          669    0.99          258       388
text, Plb 2 0                                       54179        28402    1.91        32753       605
text, the longest                                 7959009      4977342    1.53      6303153       792
text, the longest, a buffer of its length        13863950      6356371    2.11      6303153       455
obstacle, 13 words, 1 of 1 hindered                   250          200    1.25            300    0.83
obstacle, 4,096 words, grants, 1 of 1 hindered        5100         5000    1.02           5000    1.02
obstacle, the last of 32, 1 of 1 hindered            9000         8000    1.12           3000    3.00
obstacle, Plb_bigR, 0 of 10 hindered                12000        11000    1.09          10000    1.20
obstacle, that, 3 of 8 hindered                     30000        25000    1.20          10000    2.95
C, check, 13 words                                     42           40    1.06
C, ask, 13 words                                      230          185    1.24
C, open, 4,096 words, grants                         4256         4600    0.93
C, ask, 4,096 words, in any order                   13294        14000    0.95
"""
LIMITS = "limit, 4,096 words, grants                         245      8184      4347        17.71         0.55\n"
HEAD = "machine: A processor, 2 cores; 2026-11-17\n\njob       kit ns     plain ns   ratio\n"
PROGRAMS = "nutrameza_script, 1,500,000 short lines on 13 words: 0.25 s, 6.01 million lines a second\n"
WORST = "\nworst ratio: 2.11, over the bar of 1.25: text, the longest, a buffer of its length\n"
OUTPUT = HEAD + ROWS + "\n" + LIMITS + "\n" + PROGRAMS + WORST

# what a case is called, and a line that the table of OUTPUT has
HAS = [
    ("machine, day and worst row", "A processor, 2 cores, 2026-11-17. The worst row is `text, the longest, a buffer of its length` with 2.11."),
    ("one row in nanoseconds", "| check, 13 words | 49 ns | 1.20 |"),
    ("a range in microseconds", "| check, 4,096 words in any order, deep hierarchy | 4.3 to 8.0 µs | 1.02 to 1.26 |"),
    ("a range in milliseconds", "| the longest clause text (6.3 MB), and into a buffer of its length | 8.0 to 14 ms | 1.53 to 2.11 |"),
    ("limits of asks kept apart", "| ask, 64 users, 161 words: no limit | 1.1 µs | 1.26 |"),
    ("turned and turned back", "| turn, unturn | 1.4 µs | 1.80 to 1.84 |"),
    ("beside all subsets", "| the same asks beside plain all-subsets | | 0.018 to 0.39 |"),
    ("obstacles", "| obstacles of 24 families | 12 to 30 µs | 1.09 to 1.20 |"),
    ("beside a short ask", "| the same beside a short ask with the same bounds | | 1.20 to 2.95 times as long |"),
    ("beside plain C", "| beside plain C: check, open, ask, 13 words | 42 to 230 ns | 1.06 to 1.24 |"),
    ("a program", "| `nutrameza_script`, short lines on 13 words | 6.01 million lines a second | |"),
    ("the limit", "| 4,096 words, grants | 245 ns | 8.2 µs | 4.3 µs |"),
]

# what a case is called, README, an output that is refused, words of the complaint
REFUSED = [
    ("a row of no line", README, OUTPUT.replace("turn  ", "twist "), "no line of the table has the row 'twist'"),
    ("a line without a row", README, OUTPUT.replace(ROWS.splitlines(True)[0], ""), "no row for 'check, 13 words'"),
    ("cut short", README, OUTPUT.replace(WORST, ""), "0 lines with the worst ratio"),
    ("two runs", README, OUTPUT + OUTPUT, "2 lines with the machine"),
    ("no machine", README, OUTPUT.replace("machine: ", ""), "0 lines with the machine"),
    ("no limit", README, OUTPUT.replace(LIMITS, ""), "no row for the limit"),
    ("no marks", "# Kit\n", OUTPUT, "marks"),
    ("marks the wrong way round", "%s\n%s\n" % (speed.END, speed.BEGIN), OUTPUT, "marks"),
]


def refusal(readme, output):
    try:
        speed.written(readme, output)
    except speed.Refused as refused:
        return str(refused)
    return ""


def main():
    page = speed.written(README, OUTPUT)
    results = [(name, line in page.splitlines()) for name, line in HAS]
    results += [(name, words in refusal(readme, output)) for name, readme, output, words in REFUSED]
    results.append(("what stands around the marks stays", page.startswith("# Kit\n\nbefore\n\n") and page.endswith("\n\nafter\n")))
    results.append(("what stood between them goes", "old table" not in page))
    results.append(("a second time changes nothing", speed.written(page, OUTPUT) == page))
    failed = [name for name, good in results if not good]
    for name in failed:
        print("FAILED: %s" % name)
    print("%d passed, %d failed" % (len(results) - len(failed), len(failed)))
    return 1 if failed else 0


if __name__ == "__main__":
    sys.exit(main())
