#!/usr/bin/env python3
"""Writes texts of the greatest length that an instance may have, runs `PROGRAM solve` on each, and prints how much memory
each run had at most: the greatest resident set that the system counted for it, beside the length of the text. The system
counts a process from before it becomes the program, so the program is started by a small one written in C, which takes
next to nothing; started from here, no run would seem to take less than this script."""
import argparse
import os
import subprocess
import sys
import tempfile

LENGTH = 16_777_216

STARTER = r"""
#include <stdio.h>
#include <stdlib.h>
#include <sys/resource.h>
#include <sys/wait.h>
#include <unistd.h>

/* runs the words behind its own, and prints the exit code and the greatest resident set in KiB */
int main(int count, char **words) {
    int status = 0;
    struct rusage used;
    pid_t child = count > 1 ? fork() : -1;
    if (child == 0) {
        execv(words[1], words + 1);
        _exit(127);
    }
    if (child < 0 || wait4(child, &status, 0, &used) < 0)
        return 1;
    fprintf(stderr, "\nused %d %ld\n", WIFEXITED(status) ? WEXITSTATUS(status) : -WTERMSIG(status), used.ru_maxrss);
    return 0;
}
"""

HEAD = b"sfm 1\nground a b\n"
HEAD2 = b"sfm 2\nground a b\n"

GOOD = HEAD + b"weight a:-3 b:2\nend\n"

# a name, what the text begins with, what is repeated behind it, and what it ends with
TEXTS = [
    ("feeds", "line feeds alone", b"", b"\n", b""),
    ("comment", "one comment line", b"#", b"x", b"\n"),
    ("comment-open", "one comment line that does not end", b"#", b"x", b""),
    ("comments", "comment lines of three bytes", b"", b"#x\n", b""),
    ("padded", "a good instance, and comment lines behind it", GOOD, b"# a comment that counts for nothing\n", b""),
    ("blanks", "one line of spaces", b"", b" ", b"\n"),
    ("header", "a header of one-byte tokens", b"sfm", b" 1", b"\n"),
    ("ground-one", "a ground line of one name again and again", b"sfm 1\nground", b" a", b"\n"),
    ("word", "a line of one-byte tokens that begins with no word", HEAD, b"a ", b"\n"),
    ("weights", "a weight line of one-byte tokens", HEAD + b"weight", b" a", b"\n"),
    ("pairs", "a weight line of one pair again and again", HEAD + b"weight", b" a:1", b"\n"),
    ("cut", "a cut line of one-byte tokens", HEAD + b"cut 1", b" a", b"\n"),
    ("cover", "a cover line of one name again and again", HEAD + b"cover 1", b" a", b"\n"),
    ("table", "a table line of numbers", HEAD + b"table", b" 0", b"\n"),
    ("uniform", "a uniform rank of one name again and again", HEAD + b"rank 1 uniform 1 :", b" a", b"\n"),
    ("groups", "a laminar rank of one group again and again", HEAD + b"rank 1 laminar : a b", b" ; 1 a", b"\nend\n"),
    ("edges", "a graphic rank of one edge again and again", HEAD + b"rank 1 graphic :", b" a=u-v", b"\n"),
    ("slots", "an entry of one slot again and again", HEAD + b"rank 1 transversal : a=s", b",s", b"\n"),
    ("stars", "a uniform rank of one name with a weight again and again", HEAD2 + b"rank 1 uniform 1 :", b" a*2", b"\n"),
    ("stars-edges", "a graphic rank of one edge with a weight again and again", HEAD2 + b"rank 1 graphic :", b" a=u-v*2", b"\n"),
    ("stars-groups", "a layered laminar rank of one group again and again", HEAD2 + b"rank 1 laminar : a*2 b", b" ; 1 a", b"\nend\n"),
    ("stars-alone", "a uniform rank of stars alone", HEAD2 + b"rank 1 uniform 1 :", b" *", b"\n"),
]


# texts of different names: a name, what the text begins with, what stands before each name, and what the text ends with
MANY = [
    ("ground-many", "a ground line of different names", b"sfm 1\nground", b" ", b"\n"),
    ("slots-many", "an entry of different slots, which is a good line", HEAD + b"rank 1 transversal : a=0", b",", b"\nend\n"),
]


def different_names(front, before):
    """The front, and different names, as short as they can be, each behind the piece."""
    letters = b"abcdefghijklmnopqrstuvwxyz"
    yield front
    for size in range(1, 6):
        for number in range(len(letters) ** size):
            name = bytearray()
            for _ in range(size):
                number, letter = divmod(number, len(letters))
                name.append(letters[letter])
            yield before + bytes(name)


def repeated(front, again, end):
    """The front, and the piece again and again, with comment bytes or blanks to the length, and the end."""
    room = LENGTH - len(front) - len(end)
    yield front
    many = again * 4096
    while room >= len(many):
        yield many
        room -= len(many)
    yield again * (room // len(again))
    room %= len(again)
    yield (b"\n" if again.endswith(b"\n") else b" ") * room if again.strip(b"x") else b"x" * room
    yield end


def write(path, pieces, end=b""):
    """Writes as many of the pieces as fit, and the end."""
    size = 0
    with open(path, "wb", buffering=1 << 16) as file:
        for piece in pieces:
            if size + len(piece) + len(end) > LENGTH:
                break
            file.write(piece)
            size += len(piece)
        file.write(end)
    return size + len(end)


def run(starter, program, path):
    """The exit code, the first words of what the program said, and the greatest resident set in KiB."""
    done = subprocess.run([starter, program, "solve", path], stdout=subprocess.PIPE, stderr=subprocess.PIPE, check=True)
    code, kib = done.stderr.decode().rsplit("\nused ", 1)[1].split()
    said = done.stdout.decode().split("\n", 1)[0] or done.stderr.decode().split("\n", 1)[0]
    return int(code), said, int(kib)


def main():
    parser = argparse.ArgumentParser(description=__doc__)
    parser.add_argument("program", help="the program, by its path")
    parser.add_argument("--texts", nargs="*", help="the texts to run, by their names")
    parser.add_argument("--keep", metavar="FOLDER", help="a folder in which the texts stay")
    words = parser.parse_args()
    names = [name for name, *_ in TEXTS + MANY]
    for name in words.texts or []:
        if name not in names:
            parser.error(f"no text {name}: {', '.join(names)}")
    with tempfile.TemporaryDirectory() as folder:
        source = os.path.join(folder, "starter.c")
        starter = os.path.join(folder, "starter")
        with open(source, "w") as file:
            file.write(STARTER)
        subprocess.run(["cc", "-O1", "-o", starter, source], check=True)
        kept = words.keep or folder
        os.makedirs(kept, exist_ok=True)
        program = os.path.abspath(words.program)
        print("| Text | Bytes | Code | Said | MiB | MiB by those of the text |")
        print("|---|---|---|---|---|---|")
        sys.stdout.flush()
        for name in words.texts or names:
            path = os.path.join(kept, f"{name}.sfm")
            title, front, again, end = next(text[1:] for text in TEXTS + MANY if text[0] == name)
            if any(name == text[0] for text in MANY):
                size = write(path, different_names(front, again), end)
            else:
                size = write(path, repeated(front, again, end))
            code, said, kib = run(starter, program, path)
            print(f"| `{name}`: {title} | {size:,} | {code} | {said} | {kib / 1024:.1f} | {kib * 1024 / size:.2f} |")
            sys.stdout.flush()
            if not words.keep:
                os.unlink(path)
    return 0


if __name__ == "__main__":
    sys.exit(main())
