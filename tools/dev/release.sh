#!/bin/sh
# Makes a release: tools/dev/release.sh GATE KLOG FOLDER
#
# GATE is what `rt ci` printed for this commit, KLOG the proved program crates/klog/out/klog, and FOLDER what
# tools/build_library.sh made of the proved library. It leaves in out/release a tarball of what tools/install.sh installs,
# with the gate's last lines, the commit and the checksums of its files in share/doc/klog, and the tarball's own checksum
# beside it. The same inputs give the same bytes.
#
# It refuses a tree with changes, a gate whose last line has a failure or that is missing, and versions that differ: those
# of KLOG, klog_engine.h and CHANGELOG.md. That GATE, KLOG and FOLDER are of this commit is up to whoever calls.
set -eu

stop() {
	echo "release: $1" >&2
	exit 1
}

if [ $# -ne 3 ]; then
	echo "usage: tools/dev/release.sh GATE KLOG FOLDER" >&2
	exit 2
fi
top=$(cd "$(dirname "$0")/../.." && pwd)
cd "$top"
[ -z "$(git status --porcelain)" ] || stop "the tree has changes that are no commit"
tail -n 1 "$1" | grep -q '^[1-9][0-9]* passed, 0 failed$' || stop "the last line of $1 is not that of a gate that passed"

version=$(sed -n 's/^## \([0-9.]*\).*/\1/p' CHANGELOG.md | head -n 1)
number=$(sed -n 's/^enum { KLOG_VERSION = \([0-9]*\) };.*/\1/p' "$3/klog_engine.h")
[ "$("$2" version)" = "klog $version" ] || stop "$2 has another version than $version"
case $version in
$((number / 1000)).$((number % 1000)).*) ;;
*) stop "klog_engine.h has another version than $version" ;;
esac

name=klog-$version-$(uname -s | tr 'A-Z' 'a-z')-$(uname -m)
made=$top/out/release
stage=$(mktemp -d)
trap 'rm -rf "$stage"' EXIT
mkdir -p "$made"
umask 022
DESTDIR=$stage/$name PREFIX= tools/install.sh "$2" "$3" >/dev/null
pages=$stage/$name/share/doc/klog
tail -n 20 "$1" >"$pages/GATE"
git rev-parse HEAD >"$pages/COMMIT"
(cd "$stage/$name" && find . -type f ! -name SHA256SUMS | LC_ALL=C sort | xargs sha256sum >share/doc/klog/SHA256SUMS)
tar -C "$stage" --sort=name --owner=0 --group=0 --numeric-owner --mtime="@$(git log -1 --format=%ct)" -cf - "$name" |
	gzip -n -9 >"$made/$name.tar.gz"
(cd "$made" && sha256sum "$name.tar.gz" | tee "$name.tar.gz.sha256")
