#!/bin/sh
# Compiles the C library for fuzz/run.sh and tools/dev/check_all.sh, where its sources changed: fuzz/build.sh
#
# out/fuzz gets libklog_c.a, which tools/build_library.sh takes, and an object for each set of sanitizers: address.o and
# thread.o. All are without a proof, and have run-time checks. The status is 1 where they can't be compiled.
set -eu

top=$(cd "$(dirname "$0")/.." && pwd)
if ! command -v rt >/dev/null; then
	echo "fuzz: there is no rt on the path; it comes with the Rattle kit" >&2
	exit 1
fi
mkdir -p "$top/out/fuzz"
cd "$top/out/fuzz"
if [ -e made ] && [ -z "$(find "$top/crates" "$top/tools/dev/compile_unproved.py" -type f \
	\( -name '*.rt' -o -name '*.py' \) -newer made)" ]; then
	exit 0
fi
echo "compiling the library, without a proof: some minutes"
rm -f made
touch making
python3 -B "$top/tools/dev/compile_unproved.py" klog_c libklog_c.a address.o=address,fuzzer-no-link thread.o=thread
mv making made
