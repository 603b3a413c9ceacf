#!/usr/bin/env bash
# Makes a blank drive image, and kills metad right behind the `ok` of a write. A second run on the same image reads
# the block again. With --proved it proves and builds metad first. Ends with status 0 where both runs told what they must, and the block is on the drive.
# shellcheck source=../begin.sh source-path=SCRIPTDIR
. "$(dirname "$0")/../begin.sh"
begin d0.img 40000

# The script comes through a pipe that stays open, so the first run waits for its next line when it is killed.
mkfifo lines
"$metad" alpha < lines > told-1 &
run=$!
exec 3> lines
cat "$here/script-1" >&3
for _ in $(seq 600); do
  cmp -s told-1 "$here/replies-1" && break
  sleep 0.1
done
kill -9 "$run"
status=0
{ wait "$run"; } 2> wait-says || status=$?
exec 3>&-
echo "run 1, killed behind its last ok (status $status):"
cat told-1
cmp told-1 "$here/replies-1"
test "$status" -eq 137

status=0
"$metad" alpha < "$here/script-2" > told-2 || status=$?
echo "run 2 (status $status):"
cat told-2
cmp told-2 "$here/replies-2"

# Block 5 of d1 is block 5 of its slice, which begins at block 1000 of the drive.
byte=$(od -A n -t x1 -j $(((1000 + 5) * 512)) -N 1 d0.img | tr -d ' ')
echo "block 1005 of the drive begins with $byte"
test "$byte" = cd
