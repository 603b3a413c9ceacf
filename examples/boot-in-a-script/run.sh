#!/usr/bin/env bash
# Makes a blank drive image, and runs one script with a line `boot`. With --proved it proves and builds metad
# first. Ends with status 0 where the run told what it must, and the boot wrote its number on the drive.
# shellcheck source=../begin.sh source-path=SCRIPTDIR
. "$(dirname "$0")/../begin.sh"
begin d0.img 40000

status=0
"$metad" hostA < "$here/script" > told || status=$?
while IFS= read -r line <&3 && IFS= read -r reply <&4; do
  printf '%-22s %s\n' "$line" "$reply"
done 3< "$here/script" 4< told
echo "status $status"
cmp told "$here/replies"

# The replica begins at block 16 of the slice. Block 1 of it is the claim, which ends in its number.
claim=$(od -A n -t u1 -j $(((12000 + 16 + 1) * 512 + 15)) -N 1 d0.img | tr -d ' ')
echo "claim $claim"
test "$claim" -eq 2
