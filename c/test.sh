#!/usr/bin/env bash
# test.sh: builds the library in a folder of its own, installs it there, runs the programs in C and C++ over it, and compares what it
# gives with what the program writes, byte for byte and code for code: on all instances of examples/, right and wrong, and on 500
# random texts, by calls from four threads with small stacks; where cc has them, under the sanitizers of addresses and leaks.
# The program is `sfm` on the path, or the one that SFM names; the proved archive is that of crates/sfm_c (`rt lib`). CC and CXX
# name the compilers. Nothing in the repository is changed.
here=$(cd "$(dirname "$0")" && pwd)
top=$(dirname "$here")
work=$(mktemp -d)
trap 'rm -rf "$work"' EXIT
cc=${CC:-cc} cxx=${CXX:-c++}
program=$(command -v "${SFM:-sfm}") || { echo "test.sh: there is no program ${SFM:-sfm}"; exit 3; }
program=$(realpath "$program")
failed=0
say() { echo "c: $*"; }
fail() { say "$*"; failed=1; }

mkdir "$work/build" "$work/texts" "$work/library" "$work/program"
make -s -C "$here" OUT="$work/build" DESTDIR="$work/to" prefix=/usr install || { say "not built"; exit 3; }
flags="-I$work/to/usr/include -Wall -Wextra -Werror -O1 -g"
lib=$work/to/usr/lib
so="-L$lib -lsfm -Wl,-rpath,$lib"

# The names that each library defines for others.
wanted="sfm_ask sfm_check sfm_edit sfm_level sfm_meet sfm_met sfm_solve sfm_weigh sfm_weighed"
[ "$(nm -D --defined-only "$lib/libsfm.so" | awk '{print $3}' | sort | xargs)" = "$wanted" ] || fail "libsfm.so exports other names"
[ "$(nm -g --defined-only "$lib/libsfm.a" | awk 'NF == 3 {print $3}' | sort | xargs)" = "$wanted" ] || fail "libsfm.a exports other names"
if command -v pkg-config >"$work/null"; then
  found=$(PKG_CONFIG_PATH=$lib/pkgconfig PKG_CONFIG_SYSROOT_DIR=$work/to pkg-config --cflags --libs sfm) || fail "sfm.pc is not found"
  case $found in *-lsfm*) ;; *) fail "sfm.pc names no library" ;; esac
fi

# The towns, in both languages, over both libraries.
"$program" solve "$top/examples/towns.sfm" >"$work/answer"
{ head -6 "$work/answer"; echo valid; echo "invalid $(wc -l <"$work/answer") grammar"; echo "refused 2 twice"; } >"$work/towns"
towns() { # name, compiler and what it is given
  local name=$1
  shift
  if ! "$@" -o "$work/$name"; then
    fail "$name: not compiled"
  elif "$work/$name" >"$work/lines" && diff "$work/lines" "$work/towns"; then
    say "$name: as the program says"
  else
    fail "$name: other lines"
  fi
}
towns towns-c-shared $cc -std=c99 $flags "$here/towns.c" $so
towns towns-c-static $cc -std=c99 $flags "$here/towns.c" "$lib/libsfm.a"
if command -v "$cxx" >"$work/null"; then
  towns towns-cpp-shared $cxx -std=c++11 $flags "$here/towns.cpp" $so
  towns towns-cpp-static $cxx -std=c++11 $flags "$here/towns.cpp" "$lib/libsfm.a"
else
  say "no C++ compiler: towns.cpp passed over"
fi

# What is asked: each line is a call, of the library and of the program.
python3 "$here/texts.py" "$work/texts" 500 || exit 3
list=$work/list
: >"$work/none"
add() { echo "$*" >>"$list"; }
count=0
beside() { # the text of that kind beside a file, or a random one
  if [ -e "${1%.sfm}.$2" ]; then echo "${1%.sfm}.$2"; else echo "$work/texts/$((count % 500)).$2"; fi
}
for file in "$top"/examples/*.sfm "$top"/examples/mistakes/*.sfm "$work"/texts/*.sfm "$work/none"; do
  name=$(basename "$file" .sfm) sizes=${file%.sfm}.sizes
  [ -e "$sizes" ] || sizes=$work/texts/$((count++ % 500)).sizes
  "$program" solve "$file" >"$work/texts/$name.answer"
  "$program" weigh "$file" "$sizes" >"$work/texts/$name.weighed"
  right=$(beside "$file" right.sfm)
  [ -e "$right" ] || right=$(beside "$file" right)
  "$program" meet "$file" "$right" >"$work/texts/$name.met"
  head -c -1 "$work/texts/$name.answer" >"$work/texts/$name.cut"
  sed '0,/[1-8]/s/[1-8]/9/' "$work/texts/$name.answer" >"$work/texts/$name.other"
  sed '$s/[0-8]/9/' "$work/texts/$name.weighed" >"$work/texts/$name.by"
  head -c -1 "$work/texts/$name.met" >"$work/texts/$name.met-cut"
  sed '2s/[0-8]$/9/' "$work/texts/$name.met" >"$work/texts/$name.met-value"
  sed '4s/[0-8]$/9/' "$work/texts/$name.met" >"$work/texts/$name.met-common"
  sed '/^right /s/[0-8]$/9/' "$work/texts/$name.met" >"$work/texts/$name.met-base"
  add solve "$file"
  add weigh "$file" "$sizes"
  add level "$file"
  add ask "$file" "$(beside "$file" pins)"
  add edit "$file" "$(beside "$file" edits)"
  add meet "$file" "$right"
  add meet "$right" "$file"
  for answer in answer cut other weighed; do add check "$file" "$work/texts/$name.$answer"; done
  for answer in weighed by answer; do add weighed "$file" "$sizes" "$work/texts/$name.$answer"; done
  for answer in met met-cut met-value met-common met-base answer; do add met "$file" "$right" "$work/texts/$name.$answer"; done
done
number=0
while read -r words; do
  number=$((number + 1))
  "$program" $words >"$work/program/$number" 2>"$work/null"
  echo $? >"$work/program/$number.code"
done <"$list"

compare() { # how, program
  rm -rf "$work/library" && mkdir "$work/library" && : >"$work/difference"
  if "$2" "$list" "$work/library" 4 && diff -rq "$work/program" "$work/library" >"$work/difference"; then
    say "$1: $number calls as the program's, codes $(cat "$work"/library/*.code | sort | uniq -c | awk '{printf "%s%s x%s", sep, $2, $1; sep = ", "}')"
  else
    fail "$1: other than the program's"
    head -20 "$work/difference"
  fi
}
$cc -std=gnu11 $flags "$here/same.c" $so -pthread -o "$work/same" && compare "shared library" "$work/same" || failed=1
$cc -std=gnu11 $flags "$here/same.c" "$lib/libsfm.a" -pthread -o "$work/same" && compare "static library" "$work/same" || failed=1
echo 'int main(void) { return 0; }' >"$work/empty.c"
if $cc -fsanitize=address,undefined "$work/empty.c" -o "$work/empty" 2>"$work/null" && "$work/empty" 2>"$work/null"; then
  $cc -std=gnu11 $flags -fsanitize=address,undefined -fno-sanitize-recover=all "$here/same.c" "$lib/libsfm.a" -pthread -o "$work/same" &&
    ASAN_OPTIONS=detect_leaks=1 compare "sanitizers of addresses and leaks" "$work/same" || failed=1
else
  say "cc has no sanitizers: passed over"
fi
[ "$failed" -eq 0 ] && say "all as the program"
exit "$failed"
