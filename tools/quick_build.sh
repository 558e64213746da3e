#!/bin/sh
# Builds klog without a proof, in a minute or two: tools/quick_build.sh
#
# It leaves the program as out/klog at the top of the repository, and nothing else. `rt run` in crates/klog proves klog.
set -eu

if [ $# -ne 0 ]; then
	echo "usage: tools/quick_build.sh" >&2
	exit 2
fi
if ! command -v rt >/dev/null; then
	echo "quick_build: there is no rt on the path; it comes with the Rattle kit" >&2
	exit 1
fi
top=$(cd "$(dirname "$0")/.." && pwd)
mkdir -p "$top/out"
echo "compiling klog, which takes a minute or two"
python3 -B "$top/tools/dev/compile_unproved.py" klog "$top/out/klog"
echo "made: $top/out/klog"
echo "proved: nothing; run-time checks stand in for the proofs, and make klog several times slower"
