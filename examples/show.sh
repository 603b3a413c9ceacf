# shellcheck shell=bash
# To be read by the examples' scripts: shows what a script was told.

# Each line of the script, and beside it its reply, of which `ok` or a refusal is the last line. The lines of a `tab` block have one reply, beside its `end`.
show() {
  while IFS= read -r line <&3; do
    if [ "$line" = tab ]; then
      while [ "$line" != end ]; do
        printf '%s\n' "$line"
        IFS= read -r line <&3
      done
    fi
    while IFS= read -r reply <&4; do
      printf '%-26s %s\n' "$line" "$reply"
      line=
      case $reply in ok | refused*) break ;; esac
    done
  done 3< "$1" 4< "$2"
}
