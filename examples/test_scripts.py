#!/usr/bin/env python3
"""Runs the scripts of this folder on files that they can't take, and on some that they can though they are oddly laid out.

Each row has the words of a command, the files that it finds, the code that it ends with, and the one line that it prints: on
standard error where it is refused, and else the first of its output. `run.sh` runs this file; `sfm` stands on the path.
"""
import os
import subprocess
import sys
import tempfile
from collections import namedtuple

HERE = os.path.dirname(os.path.abspath(__file__))
ANSWER = "answer 1\nminimum -3\nleast a\ngreatest a\nslope -3/1 a\nslope 2/1 a b\nat 0/1\nbase 1 -3 2\n"
HEADING = "name,cost,worth,needs\n"
GREYS = "10 20\n30 40\n"

# The words of a command, the text of the file `it` as letters or bytes (None: there is none), the code and the line.
Row = namedtuple("Row", "words text code line")

SHOW = [
    Row("show.py it", None, 3, "it: No such file or directory"),
    Row("show.py .", None, 3, ".: Is a directory"),
    Row("show.py it", ANSWER, 0, "least value -3"),
    Row("show.py it", "\ufeff" + ANSWER, 0, "least value -3"),
    Row("show.py it", ANSWER.replace("\n", "\r\n"), 0, "least value -3"),
    Row("show.py it", ANSWER.replace("answer 1", "weighed 1"), 0, "least value -3"),
    Row("show.py it", "", 2, "it:1: the file is empty, or begins with a blank line"),
    Row("show.py it", "refused 3 law\n", 2, "it:1: this is a refusal and no answer: refused 3 law"),
    Row("show.py it", "valid\n", 2, "it:1: this is a verdict and no answer"),
    Row("show.py it", "sfm 1\nground a\nend\n", 2, "it:1: this is an instance; an answer is what 'sfm solve' writes for it"),
    Row("show.py it", "answer 2\n", 2, "it:1: this is no answer: its first line is not 'answer 1', nor 'weighed 1'"),
    Row("show.py it", "hello\n", 2, "it:1: this is no answer: its first line is not 'answer 1', nor 'weighed 1'"),
    Row("show.py it", "answer 1\nminimum -1.5\n", 2, "it:2: this is no minimum line of an answer"),
    Row("show.py it", ANSWER[:18], 2, "it:2: this is no minimum line of an answer"),
    Row("show.py it", ANSWER[:20], 2, "it:3: a line 'least ..' is due here; has the answer been cut off?"),
    Row("show.py it", ANSWER[:60], 2, "it:6: this is no slope line of an answer"),
    Row("show.py it", ANSWER[:66], 2, "it:7: the proof of an answer is due here, and its first line is 'at 0/1'"),
    Row("show.py it", b"answer 1\nminimum 0\nleast \xfc\n", 2, "it:3: this line is not UTF-8; save the file as UTF-8"),
]

PROJECTS = [
    Row("projects.py it", None, 3, "it: No such file or directory"),
    Row("projects.py it", HEADING + "a,1,3,\n", 0, "1 projects, 1 slopes"),
    Row("projects.py it", "\ufeff" + HEADING + "a,1,3,\n", 0, "1 projects, 1 slopes"),
    Row("projects.py it", "\nName; COST ;Worth;Needs;note\n\na;1;3;;x\n", 0, "1 projects, 1 slopes"),
    Row("projects.py it", HEADING + 'a,1,3,\nb,1,3,"a a"\n\n', 0, "2 projects, 1 slopes"),
    Row("projects.py it", "", 2, "it: no project stands in it"),
    Row("projects.py it", "name,cost,needs\n", 2, "it:1: the heading needs one column 'worth', beside the others of name, cost, worth, needs"),
    Row("projects.py it", HEADING + "a,1,3,\nb,1,3,\na,2,4,\n", 2, "it:4: the name a stands twice, first in line 2"),
    Row("projects.py it", HEADING + "a,1.50,3,\n", 2, "it:2: the cost of a is 1.50: numbers are whole, so multiply all of them by 100"),
    Row("projects.py it", HEADING + "a,1,,\n", 2, "it:2: the worth of a is '', which is no whole number"),
    Row("projects.py it", HEADING + "a,1,9999999999999,\n", 2, "it:2: the worth of a is 9999999999999: numbers go to 1,000,000,000,000 either way"),
    Row("projects.py it", HEADING + "a,1,3\n", 2, "it:2: 3 cells stand here, where the heading has 4"),
    Row("projects.py it", HEADING + "a b,1,3,\n", 2, "it:2: 'a b' is no name: names have 1 to 32 of A-Z a-z 0-9 _"),
    Row("projects.py it", HEADING + "Z\u00fcrich,1,3,\n", 2, "it:2: 'Z\u00fcrich' is no name: names have 1 to 32 of A-Z a-z 0-9 _"),
    Row("projects.py it", HEADING + "a,1,3,b;c\n", 2, "it:2: a needs 'b;c', which is the name of no row (names in 'needs' have a space between)"),
    Row("projects.py it", HEADING + "a,1,3,a\n", 2, "it:2: a needs itself (names in 'needs' have a space between)"),
    Row("projects.py it", HEADING + "".join(f"p{i},1,2,\n" for i in range(257)), 2, "it:258: this is one project more than 256, the most that an instance has"),
    Row("projects.py --svg no/it.svg it", HEADING + "a,1,3,\n", 4, "no/it.svg: No such file or directory"),
]

JOBS = "name,hours,waiting,after\n"
ORDER = [
    Row("order.py it", None, 3, "it: No such file or directory"),
    Row("order.py --all it", JOBS + "a,3,1,\nb,1,9,a\nc,2,0,\n", 0, "3 jobs, 6 hours, 2 groups"),
    Row("order.py it", "After;waiting;HOURS;name\n;1;3;a\na;2;4;b\n", 0, "2 jobs, 7 hours, 1 groups"),
    Row("order.py it", "", 2, "it: no job stands in it"),
    Row("order.py it", "name,hours,after\n", 2, "it:1: the heading needs one column 'waiting', beside the others of name, hours, waiting, after"),
    Row("order.py it", JOBS + "a,3,1,\na,3,1,\n", 2, "it:3: the name a stands twice, first in line 2"),
    Row("order.py it", JOBS + "a,0,1,\n", 2, "it:2: a has 0 hours and a waiting of 1: hours are from 1, and waiting is from 0"),
    Row("order.py it", JOBS + "a,1.5,1,\n", 2, "it:2: 'hours' of a is 1.5: numbers are whole, so multiply all of them by 10"),
    Row("order.py it", JOBS + "a,1,1,b\n", 2, "it:2: a comes after 'b', which is the name of no row"),
    Row("order.py it", JOBS + "c,1,1,\na,1,1,b\nb,1,1,a\n", 2, "it:3: a can't begin: it waits for jobs that wait for one another"),
    Row("order.py it", JOBS + "a,999999,1,\nb,2,1,\n", 2, "it: its jobs take more than 1,000,000 hours together"),
    Row("order.py --all it", JOBS + "".join(f"j{i},1,1,\n" for i in range(19)), 2, "it: it has 19 jobs, and --all takes 18"),
]

TWO = "where an edge has two names with a space between, and its worth behind them"
NETWORK = [
    Row("network.py it", None, 3, "it: No such file or directory"),
    Row("network.py it", "\ufeff# links\n\n a\tb # first\nb c\n", 0, "3 vertices, 2 edges"),
    Row("network.py it", "0 1 {}\n1 2 {}\n0 2 {}\n", 0, "3 vertices, 3 edges"),
    Row("network.py it", "# nothing\n", 2, "it: no edge stands in it"),
    Row("network.py it", "a b\nc\n", 2, f"it:2: one name stands here, {TWO}"),
    Row("network.py it", "a,b\n", 2, f"it:1: one name stands here, {TWO}"),
    Row("network.py it", "a b 3 4\n", 2, f"it:1: 4 words stand here, {TWO}"),
    Row("network.py it", "a b 3\nb c {'weight': 2, 'colour': 'red'}\na c 4.0\n", 0, "3 vertices, 3 edges worth 9"),
    Row("network.py it", "a b 2\nb c\n", 0, "3 vertices, 2 edges worth 3"),
    Row("network.py it", "a b 1.5\n", 2, "it:1: the worth of the edge is 1.5: numbers are whole, so multiply all of them by 10"),
    Row("network.py it", "a b 0\n", 2, "it:1: the worth of the edge is 0, and it is from 1 to 1,000,000"),
    Row("network.py it", "a b 999999\na c 2\n", 2, "it: its edges are worth 1,000,001 together, and 1,000,000 are taken"),
    Row("network.py it", "a b {'weight': }\n", 2, "it:1: {'weight': } is not what networkx writes, such as {'weight': 3}"),
    Row("network.py it", "a b\nb c-d\n", 2, "it:2: 'c-d' is no name: names have 1 to 32 of A-Z a-z 0-9 _"),
    Row("network.py it", "a b\n" * 257, 2, "it:257: this is one edge more than 256, the most that an instance has"),
]

SMALLER = "ImageMagick makes one: convert PICTURE -colorspace Gray -resize 16x16 -depth 8 small.pgm"
PICTURE = [
    Row("picture.py it", None, 3, "it: No such file or directory"),
    Row("picture.py it", "P2 # plain\n2 2\n255\n" + GREYS, 0, "##"),
    Row("picture.py --bright it", "P2\n2 2\n255\n" + GREYS, 0, ".."),
    Row("picture.py --bright it", b"P5\n2 2\n255\n\xff\xff\xff\xff", 0, "##"),
    Row("picture.py it", "P6\n2 2\n255\n", 2, "it:1: this is no PGM with its width, height and greatest grey. " + SMALLER),
    Row("picture.py it", "P2\n17 16\n255\n", 2, "it: it has 17 x 16 pixels, and 1 to 256 are taken. " + SMALLER),
    Row("picture.py it", "P2\n2 2\n65535\n" + GREYS, 2, "it: its greatest grey is 65535, and 1 to 255 are taken. " + SMALLER),
    Row("picture.py it", "P2\n2 2\n255\n10 20\n30 x4\n", 2, "it:5: 'x4' stands where a grey is due, a whole number"),
    Row("picture.py it", "P2\n2 2\n35\n" + GREYS, 2, "it:5: the grey of row 2, column 2 is 40, and the greatest is said to be 35"),
    Row("picture.py it", b"P5\n2 2\n9\n\x01\x02\x03\x0a", 2, "it: the grey of row 2, column 2 is 10, and the greatest is said to be 9"),
    Row("picture.py --out 0,0-1,1 it", "P2\n2 2\n255\n" + GREYS, 0, ".#"),
    Row("picture.py --in 0,0 --in 1,1 --bright it", "P2\n2 2\n255\n" + GREYS, 0, "#."),
    Row("picture.py --in 0,0-0 it", "P2\n2 2\n255\n" + GREYS, 2, "'0,0-0' is no stroke: a pixel is ROW,COLUMN, and a line ROW,COLUMN-ROW,COLUMN"),
    Row("picture.py --in 0,0-1,2 it", "P2\n2 2\n255\n" + GREYS, 2, "'0,0-1,2' leaves the picture, which has 2 rows and 2 columns, counted from 0"),
    Row("picture.py --in 0,0 --out 1,0-0,0 it", "P2\n2 2\n255\n" + GREYS, 2, "the pixel 0,0 is held in and held out"),
    Row("picture.py it", "P2\n2 2\n255\n10 20 30\n", 2, "it: it ends after 3 greys, where 2 x 2 are due"),
]

REGIONS = [
    Row("regions.py it", None, 3, "it: No such file or directory"),
    Row("regions.py it", "P2\n2 2\n255\n" + GREYS, 0, "2 x 2 pixels, 4 regions"),
    Row("regions.py it", "P2\n2 2\n255\n9 9 9 9\n", 0, "2 x 2 pixels, 1 regions"),
    Row("regions.py --regions 3 it", "P2\n2 2\n255\n" + GREYS, 0, "2 x 2 pixels, 3 regions"),
    Row("regions.py it", "P2\n1001 1000\n255\n", 2, "it: it has 1001 x 1000 pixels, and 1 to 1,000,000 are taken. " + SMALLER),
]

EVERY = [
    Row("every_set.py it", None, 3, "it: No such file or directory"),
    Row("every_set.py it", "# one\nsfm 1\nground a\nend\n", 0, "answer 1"),
    Row("every_set.py it", "sfm 1\nground\nend\n", 0, "answer 1"),
    Row("every_set.py it --pins it", "sfm 1\nground in\nend\n", 0, "pinned 1"),
    Row("every_set.py it", "", 2, "it: this is no instance of version 1 or 2"),
    Row("every_set.py it", "sfm 1\nground a\nweight b:1\nend\n", 2, "it: this is no good instance; 'sfm solve' says where its first fault is"),
    Row("every_set.py it", "sfm 1\nground" + 15 * " a" + "\nend\n", 2, "it: it has 15 elements, and at most 14 are taken, as every set is tried"),
]

TWO_NAMES = "sfm 1\nground a b\nweight a:-3 b:2\nneed a b\nend\n"
PRICE = [
    Row("price.py it", None, 3, "it: No such file or directory"),
    Row("price.py it", TWO_NAMES, 0, "least value -1"),
    Row("price.py it nowhere", TWO_NAMES, 3, "nowhere: No such file or directory"),
    Row("price.py it it", TWO_NAMES, 2, "sfm ask ends with 2: pins 1 word"),
    Row("price.py it", "sfm 1\nground\nend\n", 0, "least value 0"),
    Row("price.py it", "sfm 1\nend\n", 2, "sfm ask ends with 2: refused 2 word"),
]

SHELL = [
    Row("array.sh . out", "", 64, "array.sh: SLURM_ARRAY_TASK_ID is '', and . has 0 instances, counted from 1"),
    Row("array.sh .", "", 64, "usage: array.sh INSTANCES ANSWERS"),
    Row("batch.sh . out", "", 3, "batch.sh: no instance (*.sfm) in ."),
    Row("batch.sh nowhere out", "", 3, "batch.sh: nowhere is no folder"),
    Row("batch.sh . out 0", "", 64, "batch.sh: JOBS is '0', and not from 1 to 9999"),
    Row("one.sh it out", "sfm 1\nend\n", 2, "it                           2     -  refused 2 word"),
    Row("one.sh nowhere out", "", 3, "nowhere                      3     -  sfm: read failed"),
    Row("one.sh it out", "sfm 1\nground a\nend\n", 0, "it                           0     0  valid"),
    Row("one.sh it nowhere/out", "", 4, None),
]


def differs(row):
    """What is wrong with a row, or None."""
    script, *words = row.words.split()
    with tempfile.TemporaryDirectory() as folder:
        os.mkdir(os.path.join(folder, "out"))
        if row.text is not None:
            with open(os.path.join(folder, "it"), "wb") as file:
                file.write(row.text if isinstance(row.text, bytes) else row.text.encode())
        program = [sys.executable] if script.endswith(".py") else ["bash"]
        done = subprocess.run([*program, os.path.join(HERE, script), *words], cwd=folder, capture_output=True, text=True)
    out, err = done.stdout.splitlines(), done.stderr.splitlines()
    said = err if err else out[:1]
    if done.returncode != row.code or row.line is not None and said != [row.line]:
        return f"ends with {done.returncode} and says\n" + "\n".join("    " + line for line in said)
    return None


def main():
    os.environ.pop("SLURM_ARRAY_TASK_ID", None)
    os.environ.pop("SLURM_SUBMIT_DIR", None)
    rows = SHOW + PROJECTS + NETWORK + PICTURE + REGIONS + ORDER + EVERY + PRICE + SHELL
    wrong = 0
    for row in rows:
        why = differs(row)
        if why:
            wrong += 1
            print(f"{row.words} on {row.text!r:.60}: {why}")
    print(f"scripts: {len(rows)} rows, {wrong} differ", flush=True)
    return 1 if wrong else 0


if __name__ == "__main__":
    sys.exit(main())
