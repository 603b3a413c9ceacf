#!/usr/bin/env bash
# Makes four blank drive images of one host, and a database with a replica on three of them; then it runs scripts while one image is
# moved away, while two are, and when all are back; while one is lost for good, and its replica is moved to the fourth; and when it is back
# after all, and the database is deleted and made anew. Where the proved program isn't built yet, `rt try` compiles metad from the same
# source, without its proofs, anew for each run. Ends with status 0 where each run told what it must.
set -eu
here=$(cd "$(dirname "$0")" && pwd)
top=$(cd "$here/../.." && pwd)
# shellcheck source=../show.sh source-path=SCRIPTDIR
. "$here/../show.sh"

work=$(mktemp -d)
trap 'rm -rf "$work"' EXIT
cd "$work"
cp "$here/drives.tab" .
truncate -s $((4096 * 512)) d0.img d1.img d2.img d3.img
unset METAD_PROGRAM

if [ -x "$top/crates/metad/out/metad" ]; then
  echo "proved program"
  run_metad() {
    "$top/bin/metad" alpha
  }
else
  echo "unproved build; compiling it takes about a minute for each run"
  # It is run in a folder of its own, so its table has the whole paths. What it tells of them is told as the table has it.
  sed "s|\(d[0-3].img\)|$work/\1|" drives.tab > whole.tab
  run_metad() {
    ended=0
    (cd "$top/crates/metad" && rt try --data "drives.tab=$work/whole.tab" -- alpha) 2> all-says || ended=$?
    sed -n -e "s|^\(c[0-9]*t[0-9]*d[0-9]* \)$work/|\1|p" -e '/^NoQuorum /p' all-says >&2
    return "$ended"
  }
fi

# The run of that number, whose status has to be that one. What is told beside the replies is told on standard error.
expect() {
  status=0
  run_metad < "$here/script-$1" > told 2> says || status=$?
  show "$here/script-$1" told
  cat says
  echo "status $status"
  if [ "$status" -ne "$2" ] || ! cmp told "$here/replies-$1" || ! cmp says "$here/says-$1"; then
    [ ! -e all-says ] || cat all-says >&2
    exit 1
  fi
}

echo "run 1: a database with three replicas, and a volume"
expect 1 0
mkdir away
mv d2.img away
echo "run 2: one image is moved away"
expect 2 0
mv d1.img away
cp d0.img before.img
echo "run 3: two are"
expect 3 3
cmp d0.img before.img
echo "nothing was written"
mv away/*.img .
echo "run 4: all are back"
expect 4 0
mv d2.img away
echo "run 5: one is lost for good, and its replica moves to another"
expect 5 0
mv d0.img away
echo "run 6: another one is moved away"
expect 6 0
mv away/*.img .
echo "run 7: all are back, the one that was lost too, which gets a replica again; then the database is deleted"
expect 7 1
echo "run 8: another database, by an entry of md.tab"
expect 8 0
