#!/usr/bin/env bash
# batch.sh INSTANCES ANSWERS [JOBS]: solves and checks each INSTANCES/*.sfm, JOBS at a time (as many as there are processors),
# writes the answers into the folder ANSWERS, and prints a table of exit codes. It ends with the greatest code of the table: 0 where
# each answer is valid. A folder without instances is code 3.
[ $# -eq 2 ] || [ $# -eq 3 ] || { echo "usage: batch.sh INSTANCES ANSWERS [JOBS]" >&2; exit 64; }
here=$(dirname "$0")
jobs=${3:-$(getconf _NPROCESSORS_ONLN)}
[[ $jobs =~ ^[1-9][0-9]{0,3}$ ]] || { echo "batch.sh: JOBS is '$jobs', and not from 1 to 9999" >&2; exit 64; }
[ -d "$1" ] || { echo "batch.sh: $1 is no folder" >&2; exit 3; }
mkdir -p "$2" || exit 3
rows=$(find "$1" -maxdepth 1 -name '*.sfm' -print0 | xargs -0 -P "$jobs" -I FILE bash "$here/one.sh" FILE "$2" | LC_ALL=C sort)
# with GNU parallel: parallel -j "$jobs" bash "$here/one.sh" {} "$2" ::: "$1"/*.sfm
[ -n "$rows" ] || { echo "batch.sh: no instance (*.sfm) in $1" >&2; exit 3; }
printf '%-24s %5s %5s  %s\n' instance solve check says
printf '%s\n' "$rows"
exit "$(awk '{ for (i = 2; i <= 3; i++) if ($i + 0 > code) code = $i + 0 } END { print code + 0 }' <<<"$rows")"
