#!/usr/bin/env bash
# Installs the program below folders whose names have blanks and quotes, runs it from elsewhere, and removes it again: each file is where it has to
# be, and neither a file nor an empty folder is left. The last line counts the checks; the exit status is 1 where one failed.
set -uo pipefail
top=$(dirname "$(dirname "$(readlink -f "${BASH_SOURCE[0]}")")")
room=$(mktemp -d)
trap 'rm -rf "$room"' EXIT
version=$(sed -n 's/^VERSION = //p' "$top/Makefile")
passed=0
failed=0

# Compares a text with the one that is due.
same() {
  if [ "$2" = "$3" ]; then
    passed=$((passed + 1))
  else
    failed=$((failed + 1))
    printf '%s: %s in place of %s\n' "$1" "$2" "$3"
  fi
}

# The files, or what else is asked for, below a folder.
found() {
  (cd "$1" && find . "${@:2}" | LC_ALL=C sort | tr '\n' ' ')
}

files='./bin/pyast ./share/bash-completion/completions/pyast ./share/fish/vendor_completions.d/pyast.fish ./share/man/man1/pyast.1 ./share/zsh/site-functions/_pyast '
cd / || exit
for place in "|$room/usr" "|$room/a prefix with 'quotes'" "$room/a stage|/usr/local" "$room/another \"stage\"|/opt/its own"; do
  words=(DESTDIR="${place%%|*}" PREFIX="${place#*|}")
  to=${place%%|*}${place#*|}
  make -s -C "$top" install "${words[@]}" || failed=$((failed + 1))
  same "$to: version" "$("$to/bin/pyast" --version)" "pyast $version"
  same "$to: dump" "$(printf 'x = 1\n' | "$to/bin/pyast" dump --bare)" "Module([Assign([Name('x', Store())], Constant(1))], [])"
  same "$to: files" "$(found "$to" -type f)" "$files"
  make -s -C "$top" uninstall "${words[@]}" || failed=$((failed + 1))
  [ -z "${place%%|*}" ] || rmdir "${place%%|*}"
  same "$to: what is left" "$(found "$room" -mindepth 1)" ''
done
make -s -C "$top" install PREFIX="$room/usr" && touch "$room/usr/share/man/man1/other.1"
make -s -C "$top" uninstall PREFIX="$room/usr"
same 'what others installed' "$(found "$room/usr" -type f)" './share/man/man1/other.1 '
echo "$passed passed, $failed failed"
[ "$failed" -eq 0 ]
