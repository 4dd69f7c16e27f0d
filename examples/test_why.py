#!/usr/bin/env python3
"""Mistakes in instances and in texts of sizes, of pins and of edits, each with the line that `sfm` prints and the place and sentence
of `why.py`, compared with both.

    python3 test_why.py

`run.sh` runs this file; the program is `sfm` on the path, or the one that SFM names.
"""
import os
import subprocess
import sys
import tempfile
from collections import namedtuple

from why import Edits, Instance, Pins, Sizes, first_fault

# What is wrong, the text of the instance, the line of `sfm`, and that of `why.py` from the column on.
Row = namedtuple("Row", "mistake text line cause")


def whole(*lines):
    return "".join(line + "\n" for line in lines).encode()


def text(line):
    """An instance with this line as its third."""
    return whole("sfm 1", "ground a b c d", line, "end")


def text2(line):
    """The same in version 2."""
    return whole("sfm 2", "ground a b c d", line, "end")


def named(count):
    return " ".join(f"n{number}" for number in range(1, count + 1))


ROWS = [
    Row(
        "a byte order mark",
        b"\xef\xbb\xbfsfm 1\nground a\nend\n",
        "refused 1 bytes",
        "1: a byte order mark stands here: save the file as UTF-8 without it",
    ),
    Row(
        "UTF-16",
        "sfm 1\n".encode("utf-16"),
        "refused 1 bytes",
        "1: the file is saved as UTF-16: save it as plain text",
    ),
    Row(
        "an umlaut",
        "sfm 1\nground Z\u00fcrich Bern\nend\n".encode(),
        "refused 2 bytes",
        "9: ü can stand in a comment line alone: names have 1 to 32 of A-Z a-z 0-9 _",
    ),
    Row(
        "an umlaut in Latin-1",
        "sfm 1\nground Z\u00fcrich Bern\nend\n".encode("latin-1"),
        "refused 2 bytes",
        "9: the byte 252 can stand in a comment line alone: names have 1 to 32 of A-Z a-z 0-9 _",
    ),
    Row(
        "a minus of a word processor",
        "sfm 1\nground a\nweight a:\u22125\nend\n".encode(),
        "refused 3 bytes",
        "10: − is no minus sign: write -",
    ),
    Row(
        "a no-break space",
        "sfm 1\nground a\nweight\u00a0a:5\nend\n".encode(),
        "refused 3 bytes",
        "7: a no-break space stands here: write a plain one",
    ),
    Row(
        "line ends of old Macs",
        b"sfm 1\rground a\rend\r",
        "refused 1 bytes",
        "6: a carriage return stands within the line: lines end in a line feed",
    ),
    Row(
        "an empty file",
        b"",
        "refused 1 short",
        "the text ends here, and 'sfm 1' is still due",
    ),
    Row(
        "comments alone",
        whole("# nothing yet", ""),
        "refused 3 short",
        "the text ends here, and 'sfm 1' is still due",
    ),
    Row(
        "no header",
        whole("ground a b", "end"),
        "refused 1 word",
        "1: the line 'sfm 1' is missing: an instance begins with 'sfm 1' or 'sfm 2'",
    ),
    Row(
        "an answer",
        whole("answer 1", "minimum 0"),
        "refused 1 word",
        "1: this is an answer: an instance begins with 'sfm 1' or 'sfm 2'",
    ),
    Row(
        "another version",
        whole("sfm 3", "ground a", "end"),
        "refused 1 shape",
        "5: 3 stands here, and the first line is 'sfm 1' or 'sfm 2', with nothing behind it",
    ),
    Row(
        "names in place of the ground line",
        whole("sfm 1", "a b c", "end"),
        "refused 2 word",
        "1: a stands here, where 'ground' with the names of all elements is due",
    ),
    Row(
        "a ground line that goes on",
        whole("sfm 1", "ground a b", "  c d", "end"),
        "refused 3 word",
        "3: c begins no line: all names of the ground stand in one line",
    ),
    Row(
        "300 names",
        whole("sfm 1", "ground " + named(300), "end"),
        "refused 2 total",
        "1180: there are 300 names, and 256 are taken",
    ),
    Row(
        "a name twice in the ground",
        whole("sfm 1", "ground a b c a", "end"),
        "refused 2 twice",
        "14: a stands twice in the ground line, first at column 8",
    ),
    Row(
        "commas between names",
        whole("sfm 1", "ground a, b, c", "end"),
        "refused 2 name",
        "8: a, ends in ',': nothing but spaces stands between names",
    ),
    Row(
        "a name with a hyphen",
        whole("sfm 1", "ground new-york", "end"),
        "refused 2 name",
        "8: new-york is no name: names have 1 to 32 of A-Z a-z 0-9 _",
    ),
    Row(
        "a name of 33 letters",
        whole("sfm 1", "ground " + "x" * 33, "end"),
        "refused 2 name",
        "8: xxxxxxxxxxxxxxxxxxxxxxxxxxxxxxxxx is no name: names have 1 to 32 of A-Z a-z 0-9 _, and this one has 33",
    ),
    Row(
        "a capital",
        text("Weight a:1"),
        "refused 3 word",
        "1: Weight begins no line, but weight does",
    ),
    Row(
        "an unknown word",
        text("cost a:1"),
        "refused 3 word",
        "1: cost begins no line: lines begin with weight, cut, need, cover, concave, table, rank, end",
    ),
    Row(
        "no end",
        whole("sfm 1", "ground a", "weight a:1"),
        "refused 4 short",
        "the text ends here, and the line 'end' is still due",
    ),
    Row(
        "a line behind end",
        whole("sfm 1", "ground a", "end", "weight a:1"),
        "refused 4 word",
        "1: weight stands behind 'end', where blank lines and comments alone may follow",
    ),
    Row(
        "two instances",
        whole("sfm 1", "ground a", "end", "sfm 1", "ground a", "end"),
        "refused 4 word",
        "1: sfm stands behind 'end', where blank lines and comments alone may follow",
    ),
    Row(
        "a space in a pair",
        text("weight a: -1 b:2"),
        "refused 3 shape",
        "11: -1 stands alone: write a:-1, without a space",
    ),
    Row(
        "= for a colon",
        text("weight a=-5 b:2"),
        "refused 3 shape",
        "8: a=-5 has = in place of a colon: a pair is name:number",
    ),
    Row(
        "a comment behind a line",
        text("weight a:1 # what it brings"),
        "refused 3 shape",
        "12: a comment has a line of its own, and begins it",
    ),
    Row(
        "a decimal",
        text("weight a:-1.5 b:2"),
        "refused 3 number",
        "10: -1.5 is no whole number: multiply all numbers by 10",
    ),
    Row(
        "a comma in a number",
        text("weight a:1,000"),
        "refused 3 number",
        "10: 1,000 has commas: write 1000",
    ),
    Row(
        "a comma behind a number",
        text("weight a:1, b:2"),
        "refused 3 number",
        "10: 1, ends in ',': nothing but spaces stands between tokens",
    ),
    Row(
        "a plus",
        text("weight a:+5"),
        "refused 3 number",
        "10: +5 has a + or zeros before it: write 5",
    ),
    Row(
        "an exponent",
        text("weight a:1e3"),
        "refused 3 number",
        "10: 1e3 has an exponent: write all digits",
    ),
    Row(
        "a number too large",
        text("weight a:1000000000001"),
        "refused 3 number",
        "10: 1000000000001 is out of range: numbers here are -1,000,000,000,000 to 1,000,000,000,000",
    ),
    Row(
        "a gain in a cut",
        text("cut -3 a b"),
        "refused 3 number",
        "5: -3 is out of range: numbers here are 0 to 1,000,000,000,000",
    ),
    Row(
        "a name that is not there",
        text("weight a:1 e:2"),
        "refused 3 name",
        "12: e is none of the 4 names of the ground line",
    ),
    Row(
        "a name in capitals",
        text("cut 3 A b"),
        "refused 3 name",
        "7: A is none of the 4 names of the ground line; a is",
    ),
    Row(
        "an element twice",
        text("cover 5 a b a"),
        "refused 3 twice",
        "13: a stands twice among the elements of the line, first at column 9",
    ),
    Row(
        "a cut from an element to itself",
        text("cut 3 a a"),
        "refused 3 twice",
        "9: a stands twice among the elements of the line, first at column 7",
    ),
    Row(
        "a cut without its number",
        text("cut a b"),
        "refused 3 shape",
        "8: cut has a number and two names, and 2 tokens here",
    ),
    Row(
        "three names in a cut",
        text("cut 3 a b c"),
        "refused 3 shape",
        "11: cut has a number and two names, and 4 tokens here",
    ),
    Row(
        "need with a number",
        text("need 3 a b"),
        "refused 3 shape",
        "10: need has two names, and 3 tokens here",
    ),
    Row(
        "no space before the colon",
        text("concave 7 11 13: a b c"),
        "refused 3 shape",
        "14: 13: needs spaces round the ':', as concave has numbers, ':' and names",
    ),
    Row(
        "no colon",
        text("concave 7 11 13 a b c"),
        "refused 3 shape",
        "22: there is no ':' in the line, where concave has numbers, ':' and names",
    ),
    Row(
        "fewer numbers than names",
        text("concave 7 11 : a b c"),
        "refused 3 shape",
        "16: 2 numbers and 3 names stand here: concave has as many numbers as names",
    ),
    Row(
        "numbers that rise faster",
        text("concave 1 3 6 : a b c"),
        "refused 3 law",
        "11: number 2 is 3 and rises by 2, where the one before rises by 1: rises must not grow",
    ),
    Row(
        "rounded square roots",
        whole("sfm 1", "ground " + named(12), "concave 10 14 17 20 22 24 26 28 30 32 33 35 : " + named(12), "end"),
        "refused 3 law",
        "42: number 12 is 35 and rises by 2, where the one before rises by 1: rises must not grow",
    ),
    Row(
        "a table of 7 numbers",
        text("table 0 1 1 2 1 2 2 : a b c"),
        "refused 3 shape",
        "23: 7 numbers and 3 names stand here: a table over so many names has 8 numbers",
    ),
    Row(
        "a table of 9 names",
        whole("sfm 1", "ground " + named(9), "table " + "0 " * 512 + ": " + named(9), "end"),
        "refused 3 shape",
        "1057: 512 numbers and 9 names stand here: a table has 1 to 8 names",
    ),
    Row(
        "a table that begins with 1",
        text("table 1 4 3 6 : a b"),
        "refused 3 law",
        "7: the first number is 1: it is the worth of no names, and that is 0",
    ),
    Row(
        "a table that rises",
        text("table 0 1 1 3 : a b"),
        "refused 3 law",
        "13: a adds 1 to none and 2 to b: it must not add more beside others",
    ),
    Row(
        "an unknown rank",
        text("rank 3 partition : a b"),
        "refused 3 shape",
        "8: partition stands here, where one of uniform, laminar, graphic, transversal is due",
    ),
    Row(
        "a rank without its number",
        text("rank uniform 2 : a b"),
        "refused 3 shape",
        "14: 2 stands here, where one of uniform, laminar, graphic, transversal is due",
    ),
    Row(
        "groups that cross",
        text("rank 1 laminar : a b c ; 1 a b ; 1 b c"),
        "refused 3 law",
        "34: group 2 shares b with group 1, and neither holds the other",
    ),
    Row(
        "a group without names",
        text("rank 1 laminar : a b ; 2"),
        "refused 3 shape",
        "24: 2 stands alone in its group, which has a cap and names",
    ),
    Row(
        "a group's name that is no element",
        text("rank 1 laminar : a b ; 1 a c"),
        "refused 3 name",
        "28: c is in a group, and not among the elements before the first ';'",
    ),
    Row(
        "no space before a semicolon",
        text("rank 1 laminar : a b; 1 a b"),
        "refused 3 name",
        "20: b; ends in ';': a space stands before it",
    ),
    Row(
        "an edge without its other end",
        text("rank 1 graphic : a=x b=y-z"),
        "refused 3 shape",
        "20: a=x has 0 hyphens behind =, where an edge name=vertex-vertex is due",
    ),
    Row(
        "a vertex with a hyphen",
        text("rank 1 graphic : a=new-york-boston"),
        "refused 3 shape",
        "20: a=new-york-boston has 2 hyphens behind =, where an edge name=vertex-vertex is due",
    ),
    Row(
        "spaces behind commas",
        text("rank 1 transversal : a=saw, drill b=saw"),
        "refused 3 shape",
        "29: drill stands alone: write a=saw,drill, without a space",
    ),
    Row(
        "a slot twice",
        text("rank 1 transversal : a=saw,saw"),
        "refused 3 twice",
        "28: saw stands twice among the slots of one entry, first at column 24",
    ),
    Row(
        "a comma too many",
        text("rank 1 transversal : a=saw,"),
        "refused 3 name",
        "28: nothing stands where the name of a slot is due: names have 1 to 32 of A-Z a-z 0-9 _",
    ),
    Row(
        "sizes too large",
        whole("sfm 1", "ground a", *["weight a:1000000000000"] * 1001, "end"),
        "refused 1003 total",
        "1: with this line sizes add to 1,001,000,000,000,000, and 1,000,000,000,000,000 are taken: count in a greater unit",
    ),
    Row(
        "too many terms",
        whole("sfm 1", "ground a", *["cover 1 a"] * 4097, "end"),
        "refused 4099 total",
        "1: this is term line 4,097, and 4,096 are taken",
    ),
    Row(
        "too many places",
        whole("sfm 1", "ground " + named(200), *["cover 1 " + named(200)] * 85, "end"),
        "refused 84 total",
        "1: with this line 16,400 names of elements stand, and 16,384 are taken",
    ),
    Row(
        "a number of five thousand digits",
        text("weight a:" + "9" * 5000),
        "refused 3 number",
        "10: " + "9" * 37 + ".. is out of range: numbers here are -1,000,000,000,000 to 1,000,000,000,000",
    ),
    Row(
        "a zero before so many",
        text("weight a:0" + "9" * 5000),
        "refused 3 number",
        "10: 0" + "9" * 36 + ".. has a + or zeros before it: write " + "9" * 37 + "..",
    ),
    Row(
        "so many behind a point",
        text("weight a:1." + "9" * 5000),
        "refused 3 number",
        "10: 1." + "9" * 35 + ".. is no whole number: multiply all numbers by 1 with 5000 zeros",
    ),
    Row(
        "a number too large for version 2",
        text2("weight a:1000000000000001"),
        "refused 3 number",
        "10: 1000000000000001 is out of range: numbers here are -1,000,000,000,000,000 to 1,000,000,000,000,000",
    ),
    Row(
        "a weight of 0",
        text2("rank 1 uniform 1 : a*0 b"),
        "refused 3 number",
        "22: 0 is out of range: numbers here are 1 to 1,000,000,000,000,000",
    ),
    Row(
        "a star and no weight",
        text2("rank 1 graphic : a=u-v* b=u-v"),
        "refused 3 number",
        "24: nothing stands where a number is due, of the range 1 to 1,000,000,000,000,000",
    ),
    Row(
        "a weight that is no whole number",
        text2("rank 1 uniform 1 : a*1.5 b"),
        "refused 3 number",
        "22: 1.5 is no whole number: multiply all numbers by 10",
    ),
    Row(
        "two weights",
        text2("rank 1 uniform 1 : a*2*3 b"),
        "refused 3 shape",
        "20: a*2*3 has 2 stars, and an element has one weight behind one star",
    ),
    Row(
        "a weight and no element",
        text2("rank 1 uniform 1 : a *3"),
        "refused 3 name",
        "22: * is no name: names have 1 to 32 of A-Z a-z 0-9 _",
    ),
    Row(
        "a weight before the ends of an edge",
        text2("rank 1 graphic : a*3=u-v"),
        "refused 3 shape",
        "18: a stands here, where an edge name=vertex-vertex is due",
    ),
    Row(
        "a weight within a group",
        text2("rank 1 laminar : a*2 b ; 1 a*2"),
        "refused 3 name",
        "28: a*2 is no name: names have 1 to 32 of A-Z a-z 0-9 _",
    ),
    Row(
        "a weight that is too large",
        text2("rank 1 uniform 1 : a*1000000000000001"),
        "refused 3 number",
        "22: 1000000000000001 is out of range: numbers here are 1 to 1,000,000,000,000,000",
    ),
    Row(
        "a star in a weight line",
        text2("weight a*2:1"),
        "refused 3 name",
        "8: a*2 is no name: names have 1 to 32 of A-Z a-z 0-9 _",
    ),
    Row(
        "an element twice, with two weights",
        text2("rank 1 uniform 1 : a*2 a*3"),
        "refused 3 twice",
        "24: a stands twice among the elements of the line, first at column 20",
    ),
    Row(
        "groups that cross, beside weights",
        text2("rank 1 laminar : a*2 b c ; 1 a b ; 1 b c"),
        "refused 3 law",
        "36: group 2 shares b with group 1, and neither holds the other",
    ),
    Row(
        "a colon with a weight",
        text2("rank 1 uniform 1 : :*2"),
        "refused 3 shape",
        "20: :*2 stands here, where an element with its weight is due",
    ),
    Row(
        "a semicolon with a weight",
        text2("rank 1 uniform 1 : ;*2"),
        "refused 3 shape",
        "20: ;*2 stands here, where an element with its weight is due",
    ),
    Row(
        "slots behind a weight",
        text2("rank 1 transversal : a=s,t b=s*2,t"),
        "refused 3 number",
        "32: 2,t stands where a number is due, of the range 1 to 1,000,000,000,000,000",
    ),
    Row(
        "weights in version 1",
        text("rank 1 uniform 1 : a*2 b"),
        "refused 3 name",
        "20: a*2 is no name: names have 1 to 32 of A-Z a-z 0-9 _",
    ),
    Row(
        "layers too many",
        whole("sfm 2", "ground " + named(181), "rank 1 uniform 1 : " + " ".join(f"n{i}*{i}" for i in range(1, 182)), "end"),
        "refused 3 total",
        "1: with this line 16,471 names of elements stand, and 16,384 are taken",
    ),
    Row(
        "a layered line that is too large",
        text2("rank 1000000000000000 uniform 1 : a*1000000000000000"),
        "refused 3 total",
        "1: with this line sizes add to 1,000,000,000,000,000,000,000,000,000,000, and 1,000,000,000,000,000,000 are taken: count in a greater unit",
    ),
    Row(
        "sizes too large for version 2",
        whole("sfm 2", "ground a", *["weight a:1000000000000000"] * 1001, "end"),
        "refused 1003 total",
        "1: with this line sizes add to 1,001,000,000,000,000,000, and 1,000,000,000,000,000,000 are taken: count in a greater unit",
    ),
]


# Texts of sizes over the elements a, b, c and d.
SIZES = [
    Row("no text", b"", "sizes 1 short", "the text ends here, and 'sizes 1' is still due"),
    Row("no end", whole("sizes 1", "size a:2"), "sizes 3 short", "the text ends here, and the line 'end' is still due"),
    Row("an instance", text("weight a:1"), "sizes 1 word", "1: sfm stands here: a text of sizes begins with 'sizes 1'"),
    Row(
        "another version",
        whole("sizes 2", "end"),
        "sizes 1 shape",
        "7: 2 stands here, and the first line is 'sizes 1', with nothing behind it",
    ),
    Row(
        "a weight line",
        whole("sizes 1", "weight a:2", "end"),
        "sizes 2 word",
        "1: weight begins no line: lines of sizes begin with size or end",
    ),
    Row(
        "a line behind end",
        whole("sizes 1", "end", "size a:2"),
        "sizes 3 word",
        "1: size stands behind 'end', where blank lines and comments alone may follow",
    ),
    Row(
        "no pair",
        whole("sizes 1", "size", "end"),
        "sizes 2 shape",
        "5: nothing stands here, where pairs name:number are due",
    ),
    Row(
        "a space in a pair",
        whole("sizes 1", "size a: 2", "end"),
        "sizes 2 shape",
        "9: 2 stands alone: write a:2, without a space",
    ),
    Row(
        "a comment behind a line",
        whole("sizes 1", "size a:2 # two", "end"),
        "sizes 2 shape",
        "10: a comment has a line of its own, and begins it",
    ),
    Row(
        "a size of 0",
        whole("sizes 1", "size a:0", "end"),
        "sizes 2 number",
        "8: 0 is out of range: numbers here are 1 to 1,000,000",
    ),
    Row(
        "a decimal",
        whole("sizes 1", "size a:0.5", "end"),
        "sizes 2 number",
        "8: 0.5 is no whole number: multiply all numbers by 10",
    ),
    Row(
        "a bad name and a bad number",
        whole("sizes 1", "size e:0", "end"),
        "sizes 2 number",
        "8: 0 is out of range: numbers here are 1 to 1,000,000",
    ),
    Row(
        "a name that is not there",
        whole("sizes 1", "size e:2", "end"),
        "sizes 2 name",
        "6: e is none of the 4 names of the ground line",
    ),
    Row(
        "an element twice in a line",
        whole("sizes 1", "size a:2 a:3", "end"),
        "sizes 2 twice",
        "10: a stands twice in the line, first at column 6",
    ),
    Row(
        "an element in two lines",
        whole("sizes 1", "size a:2", "size b:1 a:3", "end"),
        "sizes 3 twice",
        "10: a has a size from a line before",
    ),
    Row(
        "too large",
        whole("sizes 1", "size a:999998", "end"),
        "sizes 2 total",
        "6: with this line the sizes of all elements add to 1,000,001, and 1,000,000 are taken",
    ),
    Row(
        "a byte order mark",
        b"\xef\xbb\xbfsizes 1\nend\n",
        "sizes 1 bytes",
        "1: a byte order mark stands here: save the file as UTF-8 without it",
    ),
]

PINS = [
    Row("sizes", whole("sizes 1", "end"), "pins 1 word", "1: sizes stands here: a text of pins begins with 'pins 1'"),
    Row("another word", whole("pins 1", "at a", "end"), "pins 2 word", "1: at begins no line: lines of pins begin with in, out or end"),
    Row("no name", whole("pins 1", "in", "end"), "pins 2 shape", "3: nothing stands here, where a name is due"),
    Row("a colon", whole("pins 1", "in : a", "end"), "pins 2 shape", "4: : stands here, where a name is due"),
    Row("another name", whole("pins 1", "out a e", "end"), "pins 2 name", "7: e is none of the 4 names of the ground line"),
    Row("no name before twice", whole("pins 1", "in e e", "end"), "pins 2 name", "4: e is none of the 4 names of the ground line"),
    Row("twice in a line", whole("pins 1", "in a b a", "end"), "pins 2 twice", "8: a stands twice in the line, first at column 4"),
    Row("in and out", whole("pins 1", "in a", "out b a", "end"), "pins 3 twice", "7: a is held in by a line before"),
    Row("out two times", whole("pins 1", "out a", "out a", "end"), "pins 3 twice", "5: a is held out by a line before"),
    Row("no end", whole("pins 1", "in a"), "pins 3 short", "the text ends here, and the line 'end' is still due"),
    Row("a comment", whole("pins 1", "in a # held", "end"), "pins 2 name", "6: a comment has a line of its own, and begins it"),
]

NO_TERM_LINE = ", without the header, the ground line and comments"
# Texts of edits of an instance over the elements a, b, c and d, with the one term line `weight a:1`.
EDITS = [
    Row("no text", b"", "edits 1 short", "the text ends here, and 'edits 1' is still due"),
    Row("no end", whole("edits 1", "drop 1"), "edits 3 short", "the text ends here, and the line 'end' is still due"),
    Row("pins", whole("pins 1", "end"), "edits 1 word", "1: pins stands here: a text of edits begins with 'edits 1'"),
    Row(
        "another version",
        whole("edits 2", "end"),
        "edits 1 shape",
        "7: 2 stands here, and the first line is 'edits 1', with nothing behind it",
    ),
    Row(
        "another word",
        whole("edits 1", "remove 1", "end"),
        "edits 2 word",
        "1: remove begins no line: lines of edits begin with drop, add or end",
    ),
    Row(
        "a term line alone",
        whole("edits 1", "weight a:2", "end"),
        "edits 2 word",
        "1: weight begins no line of edits: a term line stands behind 'add'",
    ),
    Row(
        "nothing added",
        whole("edits 1", "add", "end"),
        "edits 2 word",
        "4: nothing stands here, where a term line is due behind 'add'",
    ),
    Row(
        "no term line added",
        whole("edits 1", "add cost a:2", "end"),
        "edits 2 word",
        "5: cost begins no term line: they begin with weight, cut, need, cover, concave, table, rank",
    ),
    Row(
        "the end added",
        whole("edits 1", "add end"),
        "edits 2 word",
        "5: end begins no term line: they begin with weight, cut, need, cover, concave, table, rank",
    ),
    Row("a capital", whole("edits 1", "add Cut 1 a b"), "edits 2 word", "5: Cut begins no term line, but cut does"),
    Row(
        "a line behind end",
        whole("edits 1", "end", "drop 1"),
        "edits 3 word",
        "1: drop stands behind 'end', where blank lines and comments alone may follow",
    ),
    Row("no number", whole("edits 1", "drop", "end"), "edits 2 shape", "5: nothing stands here, where drop has the number of a term line"),
    Row(
        "two numbers",
        whole("edits 1", "drop 1 2", "end"),
        "edits 2 shape",
        "8: 2 stands here, where drop has one number: each line that is to go has a line of its own",
    ),
    Row(
        "changed in place",
        whole("edits 1", "drop 1 weight a:2", "end"),
        "edits 2 shape",
        "8: weight stands here, where drop has one number: each line that is to go has a line of its own",
    ),
    Row("a colon", whole("edits 1", "drop :", "end"), "edits 2 shape", "6: : stands here, where drop has the number of a term line"),
    Row(
        "a comment behind a line",
        whole("edits 1", "drop 1 # the weights", "end"),
        "edits 2 shape",
        "8: a comment has a line of its own, and begins it",
    ),
    Row(
        "a comment behind an added line",
        whole("edits 1", "add cut 1 a b # border", "end"),
        "edits 2 shape",
        "15: a comment has a line of its own, and begins it",
    ),
    Row("a word behind end", whole("edits 1", "end 1"), "edits 2 shape", "5: 1 stands here, where nothing follows 'end' in its line"),
    Row(
        "a space in a pair",
        whole("edits 1", "  add weight a: -1", "end"),
        "edits 2 shape",
        "17: -1 stands alone: write a:-1, without a space",
    ),
    Row(
        "counted by the lines of the file",
        whole("edits 1", "drop 3", "end"),
        "edits 2 number",
        "6: there is no term line 3: the list then has 1 term line" + NO_TERM_LINE,
    ),
    Row(
        "dropped two times",
        whole("edits 1", "drop 1", "drop 1", "end"),
        "edits 3 number",
        "6: there is no term line 1: the list then has 0 term lines" + NO_TERM_LINE,
    ),
    Row(
        "counted from 0",
        whole("edits 1", "drop 0", "end"),
        "edits 2 number",
        "6: there is no term line 0: the list then has 1 term line" + NO_TERM_LINE,
    ),
    Row(
        "behind an added line that is not there",
        whole("edits 1", "add cut 1 a b", "drop 3", "end"),
        "edits 3 number",
        "6: there is no term line 3: the list then has 2 term lines" + NO_TERM_LINE,
    ),
    Row(
        "a word for a number",
        whole("edits 1", "drop all", "end"),
        "edits 2 number",
        "6: all stands where a number is due, of the range 1 to 1",
    ),
    Row("zeros", whole("edits 1", "drop 01", "end"), "edits 2 number", "6: 01 has a + or zeros before it: write 1"),
    Row(
        "a gain in an added cut",
        whole("edits 1", "add cut -3 a b", "end"),
        "edits 2 number",
        "9: -3 is out of range: numbers here are 0 to 1,000,000,000,000",
    ),
    Row("another name", whole("edits 1", "add need a e", "end"), "edits 2 name", "12: e is none of the 4 names of the ground line"),
    Row(
        "twice in a line",
        whole("edits 1", "add cover 1 b b", "end"),
        "edits 2 twice",
        "15: b stands twice among the elements of the line, first at column 13",
    ),
    Row(
        "numbers that rise faster",
        whole("edits 1", "add concave 1 3 : a b", "end"),
        "edits 2 law",
        "15: number 2 is 3 and rises by 2, where the one before rises by 1: rises must not grow",
    ),
    Row(
        "groups that cross",
        whole("edits 1", "add rank 1 laminar : a b c ; 1 a b ; 1 b c", "end"),
        "edits 2 law",
        "38: group 2 shares b with group 1, and neither holds the other",
    ),
    Row(
        "too many terms",
        whole("edits 1", "drop 1", *["add cover 1 a"] * 4097, "end"),
        "edits 4099 total",
        "5: this is term line 4,097, and 4,096 are taken",
    ),
    Row(
        "too many terms before some are dropped",
        whole("edits 1", *["add cover 1 a b c d"] * 4096, "drop 1", "end"),
        "edits 4097 total",
        "5: this is term line 4,097, and 4,096 are taken",
    ),
    Row(
        "sizes too large",
        whole("edits 1", "drop 1", "add weight a:2", *["add weight b:1000000000000"] * 1000, "end"),
        "edits 1003 total",
        "5: with this line sizes add to 1,000,000,000,000,002, and 1,000,000,000,000,000 are taken: count in a greater unit",
    ),
    Row(
        "a byte order mark",
        b"\xef\xbb\xbfedits 1\nend\n",
        "edits 1 bytes",
        "1: a byte order mark stands here: save the file as UTF-8 without it",
    ),
    Row(
        "an umlaut in a dropped line",
        "edits 1\ndrop ü\nend\n".encode(),
        "edits 2 bytes",
        "6: ü can stand in a comment line alone: names have 1 to 32 of A-Z a-z 0-9 _",
    ),
]


def good():
    """What is known of an instance with one term line."""
    instance = Instance()
    first_fault(instance, text("weight a:1"))
    return instance


def differs(row, command, files, reading):
    """What is wrong with a row, or None. Its text is the last of the files."""
    with open(files[-1], "wb") as file:
        file.write(row.text)
    done = subprocess.run([os.environ.get("SFM", "sfm"), command, *files], capture_output=True, text=True)
    if done.returncode != 2 or done.stdout != row.line + "\n":
        return f"sfm ends with {done.returncode}: {done.stdout[:60]!r}"
    line, reason, column, cause = first_fault(reading, row.text) or (None, None, None, "there is no fault")
    said = f"{column}: {cause}" if column else cause
    if f"{row.line.split()[0]} {line} {reason}" != row.line or said != row.cause:
        return f"why.py says {line} {reason}, {said}"
    return None


def main():
    wrong = 0
    with tempfile.TemporaryDirectory() as folder:
        one, it = (os.path.join(folder, name) for name in ("one.sfm", "it"))
        with open(one, "wb") as file:
            file.write(text("weight a:1"))
        for row in ROWS + SIZES + PINS + EDITS:
            if row in SIZES:
                difference = differs(row, "weigh", [one, it], Sizes(good().names))
            elif row in PINS:
                difference = differs(row, "ask", [one, it], Pins(good().names))
            elif row in EDITS:
                difference = differs(row, "edit", [one, it], Edits(good()))
            else:
                difference = differs(row, "solve", [it], Instance())
            if difference:
                wrong += 1
                print(f"{row.mistake}: {difference}")
    print(f"mistakes: {len(ROWS + SIZES + PINS + EDITS)} rows, {wrong} differ", flush=True)
    return 1 if wrong else 0


if __name__ == "__main__":
    sys.exit(main())
