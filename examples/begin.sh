# shellcheck shell=bash
# To be read by the examples' scripts: looks for the proved metad, or builds it, and goes to a new folder with the
# example's table of drives and a blank image of so many blocks.
set -eu
here=$(cd "$(dirname "$0")" && pwd)
top=$(cd "$here/../.." && pwd)
[ "${1-}" != --proved ] || unset METAD_PROGRAM
metad=$(realpath -m -- "${METAD_PROGRAM:-$top/crates/metad/out/metad}")

if [ "${1-}" = --proved ]; then
  (cd "$top/crates/metad" && rt run -- --version)
elif [ ! -x "$metad" ]; then
  cat >&2 << END
This example runs the proved metad, which isn't built yet. With --proved it is built first, as it is by

    cd crates/metad && rt run -- --version

That proves each crate that metad stands on, which takes about 25 minutes of processor time the first time.
examples/first-look/run.sh shows metad within two minutes, unproved.
END
  exit 2
fi

begin() {
  work=$(mktemp -d)
  trap 'rm -rf "$work"' EXIT
  cp "$here/drives.tab" "$work"
  truncate -s $(($2 * 512)) "$work/$1"
  cd "$work"
}
