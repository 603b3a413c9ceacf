#!/usr/bin/env bash
# Makes a blank drive image, and runs one script on it. Where the proved program isn't built yet, `rt try` compiles
# metad from the same source, without its proofs, and runs it on copies of the files. Ends with status 0 where the run
# told what it must.
set -eu
here=$(cd "$(dirname "$0")" && pwd)
top=$(cd "$here/../.." && pwd)
# shellcheck source=../show.sh source-path=SCRIPTDIR
. "$here/../show.sh"

work=$(mktemp -d)
trap 'rm -rf "$work"' EXIT
cp "$here/drives.tab" "$work"
truncate -s $((16384 * 512)) "$work/d0.img"

if [ -x "$top/crates/metad/out/metad" ]; then
  echo "proved program"
  cd "$work"
  run=("$top/bin/metad" alpha)
else
  echo "unproved build, on copies of the images; compiling it takes about a minute"
  cd "$top/crates/metad"
  run=(rt try --data "drives.tab=$work/drives.tab" --data "d0.img=$work/d0.img" -- alpha)
fi
status=0
"${run[@]}" < "$here/script" > "$work/told" 2> "$work/says" || status=$?

show "$here/script" "$work/told"
echo "status $status"

if [ "$status" -ne 0 ] || ! cmp "$work/told" "$here/replies"; then
  cat "$work/says" >&2
  exit 1
fi
