#!/bin/sh
# Runs the examples of the C library: examples/library/run.sh FOLDER, where FOLDER is what tools/build_library.sh made.
# C and Python are run; so is Go where it is installed.
set -eu
if [ $# -ne 1 ]; then
	echo "usage: examples/library/run.sh FOLDER" >&2
	exit 2
fi
here=$(cd "$(dirname "$0")" && pwd)
folder=$(cd "$1" && pwd)
image=$here/../c/filter_first_byte.bin
rules=$here/../rules/route_by_first_byte.rules
batches=$here/../orders.log
text='A first line
B second line

A third line'

"${CC:-cc}" -std=c99 -O2 -Wall -Wextra -pedantic -Werror -I"$folder" "$here/lines.c" "$folder/libklog.a" \
	-o "$folder/lines"
"${CC:-cc}" -std=c99 -O2 -Wall -Wextra -pedantic -Werror -I"$folder" "$here/segment.c" "$folder/libklog.a" \
	-o "$folder/segment"
"${CC:-cc}" -std=c99 -O2 -Wall -Wextra -pedantic -Werror -I"$folder" "$here/rules.c" "$folder/libklog.a" \
	-o "$folder/rules"
echo "C:"
echo "$text" | "$folder/lines" "$image"
echo "$text" | "$folder/rules" "$rules"
"$folder/segment" "$image" "$batches" "$folder/out_c"
echo "Python:"
echo "$text" | python3 "$here/lines.py" "$folder/libklog.so" "$image"
python3 "$here/segment.py" "$folder/libklog.so" "$image" "$batches" "$folder/out_python"
if command -v go >/dev/null; then
	echo "Go:"
	export CGO_CFLAGS="-I$folder" CGO_LDFLAGS="$folder/libklog.a" GO111MODULE=off
	(cd "$here/go" && go build -o "$folder/lines_go" lines.go engine.go &&
		go build -o "$folder/segment_go" segment.go engine.go)
	echo "$text" | "$folder/lines_go" "$image"
	"$folder/segment_go" "$image" "$batches" "$folder/out_go"
else
	echo "Go: not installed"
fi
