#!/bin/sh
# Makes the C library of klog's engine: tools/build_library.sh FOLDER [ARCHIVE]
#
# FOLDER gets libklog.a, libklog.so with its name of the major version, klog_engine.h and klog.pc for pkg-config. Both
# libraries have the names of klog_engine.h and no others. ARCHIVE is a libklog_c.a that was made before, of which this
# script does not know what was proved; without it `rt lib` proves and makes that one. CC is the C compiler, cc if it is
# not set.
set -eu

if [ $# -lt 1 ] || [ $# -gt 2 ]; then
	echo "usage: tools/build_library.sh FOLDER [ARCHIVE]" >&2
	exit 2
fi
top=$(cd "$(dirname "$0")/.." && pwd)
mkdir -p "$1"
folder=$(cd "$1" && pwd)
case $folder in
*" "*)
	echo "$folder has a space, which klog.pc and Go's flags can't have" >&2
	exit 2
	;;
esac
cc=${CC:-cc}
kit=$(dirname "$(rt doc)")
if [ $# -eq 2 ]; then
	archive=$(cd "$(dirname "$2")" && pwd)/$(basename "$2")
else
	(cd "$top/crates/klog_c" && rt lib)
	archive=$top/crates/klog_c/out/libklog_c.a
fi

version() {
	sed -n "s/^enum { KLOG_VERSION = \\([0-9]*\\) };.*/\\1/p" "$top/include/klog_engine.h"
}
major=$(($(version) / 1000))
minor=$(($(version) % 1000))

parts=$(mktemp -d)
trap 'rm -rf "$parts"' EXIT
cd "$parts"
ar x "$archive"
ar x "$kit/c/liblibc_c.a"
"$cc" -std=c99 -O2 -fPIC -Wall -Wextra -pedantic -Werror -I"$top/include" \
	-c "$top/include/klog_engine.c" -o klog_engine.o

sed -n 's/^[a-z].* \**\(klog_[a-z_]*\)(.*/\1/p' "$top/include/klog_engine.h" >names
"$cc" -r -nostdlib -o klog.part ./*.o
objcopy --keep-global-symbols=names klog.part
rm ./*.o
mv klog.part klog.o

rm -f "$folder/libklog.a" "$folder/libklog.so" "$folder/libklog.so".*
ar rcs "$folder/libklog.a" klog.o
{ echo '{ global:' && sed 's/$/;/' names && echo 'local: *; };'; } >exported
"$cc" -shared -Wl,-soname,"libklog.so.$major" -Wl,--version-script=exported -Wl,-z,defs -o "$folder/libklog.so.$major" klog.o
ln -s "libklog.so.$major" "$folder/libklog.so"
cp "$top/include/klog_engine.h" "$folder/"
cat >"$folder/klog.pc" <<END
prefix=$folder
Name: klog
Description: klog's proved eBPF engine for records
Version: $major.$minor
Cflags: -I\${prefix}
Libs: -L\${prefix} -lklog
END

if [ $# -eq 2 ]; then
	echo "given: $archive, of which this call proved nothing"
else
	echo "proved: crates/klog_c"
fi
echo "not proved: include/klog_engine.c, which looks at pointers"
echo "of the kit: $(ar t "$kit/c/liblibc_c.a" | tr '\n' ' ')with its calls of malloc, realloc and free"
echo "allocator: malloc, realloc and free of the program that links the library"
echo "made in $folder: libklog.a libklog.so libklog.so.$major klog_engine.h klog.pc"
