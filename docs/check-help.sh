#!/bin/sh
# Compares the text of help in docs/FORMATS.md with the table of the program: no output and status 0 where they agree.
cd "$(dirname "$0")/.." || exit 1
table=$(mktemp) && page=$(mktemp) || exit 1
trap 'rm -f "$table" "$page"' EXIT
sed -n '/^pub const ALL: &str = /,/^";$/p' crates/answers/src/pages.rt | sed '1d;$d' >"$table"
sed -n '/^```help$/,/^```$/p' docs/FORMATS.md | sed '1d;$d' >"$page"
test -s "$table" && diff "$table" "$page"
