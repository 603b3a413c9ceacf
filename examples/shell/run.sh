#!/usr/bin/env bash
# Makes a blank drive image, and types the commands of the file `commands` at a shell prompt. With --proved it proves and
# builds metad first. Where the proved program isn't built yet, `rt try` compiles metad from the same source, without its
# proofs. Ends with status 0 where the session was what it must be.
set -eu
here=$(cd "$(dirname "$0")" && pwd)
top=$(cd "$here/../.." && pwd)
if [ "${1-}" = --proved ]; then
  (cd "$top/crates/metad" && rt run -- --version)
fi

work=$(mktemp -d)
trap 'rm -rf "$work"' EXIT
cp "$here/drives.tab" "$work"
truncate -s $((16384 * 512)) "$work/d0.img"
cd "$work"
PATH=$top/bin:$PATH
unset METAD_DIR METAD_HOST METAD_PROGRAM

# Each command behind a prompt, with all that it tells and each status but 0.
session() {
  while IFS= read -r command <&3; do
    printf '$ %s\n' "$command"
    sh -c "$command" 2>&1 || echo "(status $?)"
  done 3< "$here/commands"
}

# `rt try` compiles anew each time, so one of it runs all lines, each as a run of its own on the same image. For that the
# commands are typed twice: first to a program that keeps their lines, and then to one that tells what metad told to them.
try_unproved() {
  mkdir lines tries
  export METAD_PROGRAM=$work/program
  cat > program << END
#!/bin/sh
cd "$work"
number=\$((10 + \$(ls lines | wc -l)))
cat > lines/\$number
[ ! -e told ] || awk -v head="== \$number" '/^== /{ on = \$0 == head; next } on' told
[ ! -e told ] || exit "\$(sed -n "s/^case=\$number .*status=\([0-9]*\) .*/\1/p" ended)"
END
  chmod +x program
  session > /dev/null
  mv lines/* tries
  sed "s|d0.img|$work/d0.img|" drives.tab > absolute.tab
  if ! (cd "$top/crates/metad" && rt try --data "drives.tab=$work/absolute.tab" --cases "$work/tries" -- alpha) > told 2> ended; then
    cat ended >&2
    exit 1
  fi
}

if [ -x "$top/crates/metad/out/metad" ]; then
  echo "proved program"
else
  echo "unproved build; compiling it takes about a minute"
  try_unproved
fi
session | tee session
cmp session "$here/session"
