#!/usr/bin/env bash
# test.sh: installs the package into a new environment without a network, and runs its tests there: the examples of its docstrings and
# of the documents by both engines, library and program compared, answers compared with all sets, faults, limits of time, and the time
# of 10,000 solves. Then the tests of the well-known problems once more by a Python that has networkx and numpy, where there is one.
# The program is `sfm` on the path, or the one that SFM names; the library is built from the proved archive of crates/sfm_c (`rt lib`),
# where it and a C compiler are there. PYTHON names the Python. Nothing in the repository is changed.
here=$(cd "$(dirname "$0")" && pwd)
top=$(dirname "$here")
work=$(mktemp -d)
trap 'rm -rf "$work"' EXIT
program=$(command -v "${SFM:-sfm}") || { echo "test.sh: there is no program ${SFM:-sfm}"; exit 3; }
for name in $(compgen -e LEASTSET_); do unset "$name"; done
export PYTHONDONTWRITEBYTECODE=1 LEASTSET_PROGRAM=$(realpath "$program")
if command -v "${CC:-cc}" >"$work/null" && [ -e "$top/crates/sfm_c/out/libsfm_c.a" ]; then
  make -s -C "$top/c" OUT="$work" || exit 3
  export LEASTSET_LIBRARY=$work/libsfm.so
else
  echo "python: no C compiler, or no archive of crates/sfm_c (rt lib): by the program alone"
fi

# A new environment in the folder $1, by the Python $2 and further words for venv, with the package installed into it.
environment() {
  "$2" -m venv "${@:3}" "$1" || { echo "python: venv makes no environment"; exit 3; }
  local pip=("$1/bin/python" -m pip install --quiet --no-index --disable-pip-version-check --ignore-installed)
  "${pip[@]}" "$here" || { echo "python: not installed"; exit 1; }
  "$1/bin/python" -c 'import leastset, sys; sys.exit(not leastset.__file__.startswith(sys.prefix))' || { echo "python: not the installed one"; exit 1; }
}

cd "$work" || exit 3
failed=0
environment "$work/new" "${PYTHON:-python3}"
"$work/new/bin/python" -m unittest discover --start-directory "$here/tests" "$@" || failed=1

# Graphs of networkx and arrays of numpy, by the first of these that has both.
with=
for other in "${PYTHON:-python3}" python3 /usr/bin/python3; do
  if "$other" -c 'import networkx, numpy' 2>"$work/null"; then
    with=$other
    break
  fi
done
if [ "$with" ]; then
  environment "$work/with" "$with" --system-site-packages
  # networkx warns where it finds no pandas
  "$work/with/bin/python" -W ignore::ImportWarning -m unittest discover --start-directory "$here/tests" -k Models || failed=1
  "$work/with/bin/python" -c 'import networkx, numpy, platform
print(f"python: graphs of networkx {networkx.__version__}, arrays of numpy {numpy.__version__}, on {platform.python_version()}")'
else
  echo "python: no Python here has networkx and numpy: graphs and arrays of these are left out"
fi
[ "$failed" -eq 0 ] && echo "python: all as expected"
exit "$failed"
