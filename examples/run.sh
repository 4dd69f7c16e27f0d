#!/usr/bin/env bash
# run.sh: runs each command that README.md, docs/GUIDE.md, docs/FORMATS.md and docs/sfm.1 quote, each script of this folder, also on
# files that it can't take, and each instance, and compares what they print and draw with what is stored; then c/test.sh, where a C
# compiler and the archive of the library are there, and python/test.sh. The program is `sfm` on the path, or the one that SFM names.
# Nothing in the repository is changed. With --write what is stored (expected/ and pictures/) is written anew.
# The commands that build the program stand in README.md without a prompt, and are not run.
here=$(cd "$(dirname "$0")" && pwd)
top=$(dirname "$here")
work=$(mktemp -d)
trap 'rm -rf "$work"' EXIT
mkdir "$work/bin" "$work/expected" "$work/pictures"
program=$(command -v "${SFM:-sfm}") || { echo "run.sh: there is no program ${SFM:-sfm}"; exit 3; }
ln -s "$(realpath "$program")" "$work/bin/sfm"
export PATH="$work/bin:$PATH" PYTHONDONTWRITEBYTECODE=1
unset SFM

# The answer of each instance up to its proof, 100 letters of a line, and the verdict on the whole; then of those with sizes; the least
# squares of each; the least split of two instances, and the verdict on the text that tells it; the answer of those with edits, and the
# text on pins of those with pins.
instances() {
  for file in "$here"/*.sfm; do
    echo "$(basename "$file")"
    sfm solve "$file" >"$work/answer"
    sed '/^at /,$d' "$work/answer" | cut -c1-100
    sfm check "$file" "$work/answer"
  done
  for sizes in "$here"/*.sizes; do
    file=${sizes%.sizes}.sfm
    echo "$(basename "$file") $(basename "$sizes")"
    sfm weigh "$file" "$sizes" >"$work/answer"
    sed '/^at /,$d' "$work/answer" | cut -c1-100
    sfm weighed "$file" "$sizes" "$work/answer"
  done
  for file in "$here"/*.sfm; do
    echo "$(basename "$file")"
    sfm level "$file" | head -2
  done
  for right in "$here"/*.right.sfm; do
    file=${right%.right.sfm}.sfm
    echo "$(basename "$file") $(basename "$right")"
    sfm meet "$file" "$right" >"$work/answer"
    head -3 "$work/answer"
    sfm met "$file" "$right" "$work/answer"
  done
  for edits in "$here"/*.edits; do
    file=${edits%.edits}.sfm
    echo "$(basename "$file") $(basename "$edits")"
    sfm edit "$file" "$edits" | sed '/^at /,$d' | cut -c1-100
  done
  for pins in "$here"/*.pins; do
    file=${pins%.pins}.sfm
    echo "$(basename "$file") $(basename "$pins")"
    sfm ask "$file" "$pins"
  done
}

# The lines of outside.txt, each of which has to stand in the answer of its instance, or of its instance with sizes.
outside() {
  local missing=0 count=0
  while IFS='|' read -r file line way; do
    file=${file% } line=${line# } line=${line% } command=solve
    [ "$file" = "${file% *}" ] || command=weigh
    # the name of an instance and that of its sizes stand with a space between
    sfm "$command" $file | grep -Fqx -- "$line" || { missing=$((missing + 1)); echo "$file: no line '$line', found by$way"; }
    count=$((count + 1))
  done < <(grep -v '^#' outside.txt)
  echo "outside.txt: $count lines, $missing missing"
  [ "$missing" -eq 0 ]
}

# A picture in a few regions: what is found by trying every set of them is what sfm says.
regions() {
  python3 regions.py data/lake.pgm --regions 12 --instance "$work/few.sfm" >"$work/few.txt"
  python3 every_set.py "$work/few.sfm" "$work/few.sfm.sizes" >"$work/found"
  sfm weigh "$work/few.sfm" "$work/few.sfm.sizes" | sed '/^at /,$d' | diff - "$work/found" && echo "regions.py: as found by every set"
}

# A picture of 12 pixels with strokes: what is found by trying every set is what sfm says.
strokes() {
  printf 'P2 4 3 255\n90 140 150 100\n130 120 160 125\n200 110 135 60\n' >"$work/few.pgm"
  python3 picture.py "$work/few.pgm" --in 0,1-1,2 --out 2,1 --instance "$work/few.sfm" >"$work/few.txt"
  python3 every_set.py "$work/few.sfm" --pins "$work/few.sfm.pins" >"$work/found"
  sfm ask "$work/few.sfm" "$work/few.sfm.pins" | diff - "$work/found" && echo "picture.py: as found by every set"
}

# The prices of the elements of small instances, by sfm and by every_set.py in its place, which does what `sfm ask` does.
prices() {
  printf '#!/bin/sh\nexec python3 "%s/every_set.py" "$2" --pins "$3"\n' "$here" >"$work/every"
  chmod +x "$work/every"
  local wrong=0 files
  for files in projects.sfm border.sfm "border.sfm border.pins" clash.sfm "clash.sfm clash.pins" attack.sfm licences.sfm; do
    # the name of an instance and that of its pins stand with a space between
    python3 price.py $files | diff - <(SFM="$work/every" python3 price.py $files) || wrong=1
  done
  [ "$wrong" -eq 0 ] && echo "price.py: as found by every set"
}

cd "$here" || exit 3
instances >"$work/expected/instances.txt"
python3 picture.py data/cells.pgm --svg "$work/pictures/cells.svg" >"$work/expected/cells.txt"
python3 picture.py data/cells.pgm --border 30 --in 10,5-10,6 --out 12,12-14,14 --svg "$work/pictures/strokes.svg" \
  >"$work/expected/strokes.txt"
python3 price.py projects.sfm >"$work/expected/price.txt"
python3 regions.py data/lake.pgm --svg "$work/pictures/lake.svg" >"$work/expected/lake.txt"
python3 projects.py data/projects.csv --svg "$work/pictures/projects.svg" >"$work/expected/projects.txt"
python3 order.py data/storm.csv --all --svg "$work/pictures/storm.svg" >"$work/expected/storm.txt"
python3 loads.py data/loads.csv --all --svg "$work/pictures/loads.svg" >"$work/expected/loads.txt"
python3 meet.py data/links.csv --all | grep -v chosen >"$work/expected/links.txt"
for name in karate petersen grid roads; do
  python3 network.py "data/$name.edges" --svg "$work/pictures/$name.svg" >"$work/expected/$name.txt"
done
sfm solve projects.sfm >"$work/answer" && python3 show.py "$work/answer" >"$work/expected/show.txt"
bash batch.sh mistakes "$work/answers" 2 >"$work/expected/batch.txt"
for task in 1 2; do
  SLURM_ARRAY_TASK_ID=$task bash array.sh mistakes "$work/answers"
done >"$work/expected/array.txt"

if [ "$1" = --write ]; then
  mkdir -p expected pictures
  cp "$work"/expected/* expected/
  cp "$work"/pictures/* pictures/
fi
failed=0
for folder in expected pictures; do
  diff -r "$folder" "$work/$folder" >"$work/difference" || { failed=1; head -40 "$work/difference"; }
  echo "examples/$folder: $(ls "$folder" | wc -l) files compared"
done
outside || failed=1
python3 every_set.py --all . || failed=1
regions || failed=1
strokes || failed=1
prices || failed=1
python3 test_scripts.py || failed=1
python3 test_why.py || failed=1
python3 quoted.py "$top" README.md docs/GUIDE.md docs/FORMATS.md docs/sfm.1 || failed=1
python3 "$top/docs/meaning.py" --check || failed=1
if command -v "${CC:-cc}" >"$work/difference" && [ -e "$top/crates/sfm_c/out/libsfm_c.a" ]; then
  bash "$top/c/test.sh" || failed=1
else
  echo "c/test.sh: passed over, as there is no C compiler, or no archive of crates/sfm_c (rt lib)"
fi
if python3 -c "import ensurepip, venv" 2>"$work/difference"; then
  bash "$top/python/test.sh" || failed=1
else
  echo "python/test.sh: passed over, as this Python makes no environments"
fi
[ "$failed" -eq 0 ] && echo "all as stored"
exit "$failed"
