#!/bin/sh
# Installs klog: tools/install.sh KLOG FOLDER
#
# KLOG is a built program, as crates/klog/out/klog, and FOLDER what tools/build_library.sh made. All goes below PREFIX, which
# is /usr/local if not set: the program and klogc, the library with its header and klog.pc, the man page, and in share/klog
# and share/doc/klog what klogc needs, the examples and the pages. DESTDIR is put before PREFIX, as builders of packages
# want it. klog.pc finds its folders from its own place, so what was installed may be moved.
set -eu

if [ $# -ne 2 ]; then
	echo "usage: [PREFIX=/usr/local] [DESTDIR=] tools/install.sh KLOG FOLDER" >&2
	exit 2
fi
top=$(cd "$(dirname "$0")/.." && pwd)
for needed in "$1" "$2/libklog.a" "$2/libklog.so" "$2/klog_engine.h" "$2/klog.pc"; do
	[ -f "$needed" ] || { echo "install: there is no $needed" >&2 && exit 1; }
done
root=${DESTDIR-}${PREFIX-/usr/local}
shared=$(readlink "$2/libklog.so")

install -d "$root/bin" "$root/include" "$root/lib/pkgconfig" "$root/share/man/man1" "$root/share/klog/include" \
	"$root/share/klog/tools/dev" "$root/share/doc/klog"
install -m 755 "$1" "$root/bin/klog"
ln -sf ../share/klog/tools/klogc/klogc "$root/bin/klogc"
install -m 644 "$2/klog_engine.h" "$root/include/klog_engine.h"
install -m 644 "$2/libklog.a" "$root/lib/libklog.a"
install -m 755 "$2/$shared" "$root/lib/$shared"
ln -sf "$shared" "$root/lib/libklog.so"
sed -e 's|^prefix=.*|prefix=${pcfiledir}/../..|' -e 's|^Cflags:.*|Cflags: -I${prefix}/include|' \
	-e 's|^Libs:.*|Libs: -L${prefix}/lib -lklog|' "$2/klog.pc" >"$root/lib/pkgconfig/klog.pc"
"$top/tools/dev/man_page.py" >"$root/share/man/man1/klog.1"

# Copies to a folder what git has of some paths, so that nothing built comes along.
copy() {
	target=$1
	shift
	(cd "$top" && git ls-files -z -- "$@" | tar -cf - --null -T -) | tar -xf - -C "$target"
}
copy "$root/share/klog" tools/klogc tools/bpf_object tools/dev/program_files.py 'tools/dev/second_*.py' include/klog.h \
	include/klog_parts.h examples ':!tools/klogc/tests'
copy "$root/share/doc/klog" README.md CHANGELOG.md SECURITY.md CONTRIBUTING.md docs
echo "installed in $root: klog, klogc, libklog.a, $shared, klog_engine.h, klog.pc, klog.1, examples and pages"
