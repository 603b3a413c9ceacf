#!/usr/bin/env bash
# Makes a blank drive image, and runs one script twice: the first run makes a state database, the second
# finds it. With --proved it proves and builds metad first. Ends with status 0 where both told what they must.
# shellcheck source=../begin.sh source-path=SCRIPTDIR
. "$(dirname "$0")/../begin.sh"
begin disk0.img 16384

for run in 1 2; do
  status=0
  "$metad" alpha < "$here/script" > told || status=$?
  echo "run $run: $(cat told) (status $status)"
  cmp told "$here/replies-$run"
done
