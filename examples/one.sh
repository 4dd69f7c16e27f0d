#!/usr/bin/env bash
# one.sh FILE FOLDER: solves the instance FILE, writes its answer into FOLDER, checks it, and prints one row: the name, the two
# exit codes and the verdict, or what was said instead. It ends with the code of `solve`, or where that is 0 with that of `check`.
# The program is `sfm` on the path, or the one that SFM names.
[ $# -eq 2 ] || { echo "usage: one.sh FILE FOLDER" >&2; exit 64; }
sfm=${SFM:-sfm}
name=$(basename "$1" .sfm)
answer=$2/$name.answer
: >"$answer" || exit 4
said=$("$sfm" solve "$1" 2>&1 >"$answer")
solved=$?
if [ "$solved" -eq 0 ]; then
  said=$("$sfm" check "$1" "$answer" 2>&1)
  checked=$?
  code=$checked
else
  # a refusal stands on standard output, so it is what was written in place of an answer
  said=${said:-$(head -n 1 "$answer")}
  checked=-
  code=$solved
  rm -f "$answer"
fi
printf '%-24s %5s %5s  %s\n' "$name" "$solved" "$checked" "$said"
exit "$code"
