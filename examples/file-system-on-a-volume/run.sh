#!/usr/bin/env bash
# Makes a blank drive image with a volume of 20 MiB, serves it as an NBD export, and copies an ext4 file system in. metad
# is killed while the same image is copied in again, and while another one is: what is copied out must be what was
# answered. Then fio writes and verifies. With --proved it proves and builds metad first; METAD_PROGRAM names another
# program. Ends with status 0 where all of it held.
# shellcheck source=../begin.sh source-path=SCRIPTDIR
. "$(dirname "$0")/../begin.sh"
PATH=$PATH:/usr/sbin:/sbin
missing=
for it in nbdkit:nbdkit nbdcopy:libnbd-bin mke2fs:e2fsprogs e2fsck:e2fsprogs fio:fio python3:python3; do
  command -v "${it%:*}" > /dev/null || missing="$missing ${it#*:}"
done
if [ -n "$missing" ]; then
  echo "packages are missing:$missing. On Debian, as root: apt-get install nbdkit nbdkit-plugin-python libnbd-bin e2fsprogs fio python3" >&2
  exit 2
fi
begin d0.img 49184
: > log
export METAD_PROGRAM=$metad
unset METAD_DIR METAD_HOST

server=
end() {
  [ -z "$server" ] || kill "$server" || :
  wait
  rm -rf "$work"
}
trap end EXIT

fail() {
  echo "BROKEN: $*" >&2
  cat log >&2
  exit 1
}

serve() {
  : > told
  : > log
  "$top/bridge/nbd/serve" d0 > told 2> log &
  server=$!
  for _ in $(seq 600); do
    [ ! -s told ] || break
    kill -0 "$server" 2> wait-says || fail "nothing is served"
    sleep 0.1
  done
  uri=$(head -n 1 told)
}

# The server has to end with this status, now that it was told to, or metad is gone.
served() {
  status=0
  wait "$server" || status=$?
  server=
  [ "$status" -eq "$1" ] || fail "the server's status is $status in place of $1"
}

stop() {
  kill "$server"
  served 0
}

# Kills metad once it has written so many bytes, the replies among them.
kill_behind() {
  for _ in $(seq 30000); do
    metad_is=$(sed -n 's/^bridge: metad is process //p' log)
    if [ -n "$metad_is" ]; then
      written=$(sed -n 's/^wchar: //p' "/proc/$metad_is/io") || fail "metad is gone"
      [ "$written" -lt "$1" ] || break
    fi
    sleep 0.01
  done
  kill -9 "$metad_is"
}

printf '%s\n' 'metadb -a -f c0t0d0s7' 'metainit d0 1 1 c0t0d0s0' | "$top/bin/metad" alpha > made
printf '%s\n' ok ok | cmp - made
mke2fs -q -t ext4 -d "$top/docs" first 20M > make-says 2>&1 || fail "$(cat make-says)"
head -c 20M /dev/urandom > second

serve
nbdcopy first "$uri" || fail "the image isn't copied in"
echo "an ext4 file system of $(stat -c %s first) bytes is copied in"
stop

serve
nbdcopy first "$uri" 2> copy-says &
copy=$!
kill_behind 6000000
status=0
wait "$copy" || status=$?
[ "$status" -ne 0 ] || fail "a copy is told to be done, and metad was killed"
served 1
echo "metad is killed while it is copied in again: the copy fails, and the server ends"

serve
nbdcopy "$uri" out || fail "the volume isn't copied out"
stop
cmp first out || fail "the volume isn't the image"
e2fsck -fn out > check-says 2>&1 || fail "$(cat check-says)"
echo "served again and copied out it is the same byte for byte, and e2fsck finds it clean"

serve
python3 "$here/write-noted" second d0.sock noted &
writer=$!
kill_behind 6000000
wait "$writer" || fail "the writer doesn't end as it must"
served 1
serve
nbdcopy "$uri" out || fail "the volume isn't copied out"
stop
python3 "$here/compare" first second out noted || fail "what was answered isn't what is there"

serve
fio --name=verified --ioengine=nbd --uri="$uri" --rw=randwrite --bs=4k --size=8m --iodepth=8 --verify=crc32c \
  --output=fio-says || fail "$(cat fio-says)"
stop
echo "fio reads each of 2048 writes again, by their checksums"
