#!/usr/bin/env bash
# Makes three blank drive images of one host, a stripe, and one more behind it; then a second script clears the volume and makes it again on
# another slice, and a third one gives the first slices to another volume, and clears all. Where the proved program isn't built yet, `rt try`
# compiles metad from the same source, without its proofs, anew for each run. Ends with status 0 where each run told what it must.
set -eu
here=$(cd "$(dirname "$0")" && pwd)
top=$(cd "$here/../.." && pwd)
# shellcheck source=../show.sh source-path=SCRIPTDIR
. "$here/../show.sh"

work=$(mktemp -d)
trap 'rm -rf "$work"' EXIT
cd "$work"
cp "$here/drives.tab" .
truncate -s $((4096 * 512)) d0.img d1.img d2.img
unset METAD_PROGRAM

if [ -x "$top/crates/metad/out/metad" ]; then
  echo "proved program"
  run_metad() {
    "$top/bin/metad" alpha
  }
else
  echo "unproved build; compiling it takes about a minute for each run"
  # It is run in a folder of its own, so its table has the whole paths. What it tells of them is told as the table has it.
  sed "s|\(d[0-2].img\)|$work/\1|" drives.tab > whole.tab
  run_metad() {
    ended=0
    (cd "$top/crates/metad" && rt try --data "drives.tab=$work/whole.tab" -- alpha) 2> all-says || ended=$?
    sed -n "s|^\(c[0-9]*t[0-9]*d[0-9]* \)$work/|\1|p" all-says >&2
    return "$ended"
  }
fi

# The run of that number, whose status has to be that one. What is told beside the replies is told on standard error.
expect() {
  status=0
  run_metad < "$here/script-$1" > told 2> says || status=$?
  show "$here/script-$1" told
  cat says
  echo "status $status"
  if [ "$status" -ne "$2" ] || ! cmp told "$here/replies-$1" || ! cmp says "$here/says-$1"; then
    [ ! -e all-says ] || cat all-says >&2
    exit 1
  fi
}

echo "run 1: a stripe, and one more behind it"
expect 1 1
echo "run 2: the volume is cleared, and made again elsewhere"
expect 2 1
echo "run 3: another volume gets the slices, and all are cleared"
expect 3 0

# Block 0 of the first stripe, block 0 of the slice behind it, and block 0 of the volume that was made again.
[ "$(dd if=d0.img bs=512 skip=0 count=1 status=none | head -c 5)" = first ]
[ "$(dd if=d2.img bs=512 skip=1100 count=1 status=none | head -c 6)" = behind ]
[ "$(dd if=d2.img bs=512 skip=0 count=1 status=none | head -c 4)" = anew ]
echo "the blocks are on the images still"
