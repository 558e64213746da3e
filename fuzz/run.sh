#!/bin/sh
# Looks for faults of the C library: fuzz/run.sh MINUTES [THREAD_MINUTES]
#
# For MINUTES it runs two targets side by side, guided by coverage, under the sanitizers of addresses and of undefined
# behaviour: transform_fuzz.c and calls_fuzz.c, whose heads say what they compare. Then it runs tools/dev/library_driver.c
# with four threads under the thread sanitizer, for THREAD_MINUTES, or a sixth of MINUTES, at least one.
#
# The library is that of fuzz/build.sh, without a proof and with run-time checks, so that the sanitizers see into it. All
# is left in out/fuzz: the inputs found so far, with which the next call goes on, the logs, and the input of a fault.
# The status is 0 if there was no fault, 1 if there was one, and 2 if nothing could be run.
set -eu

fail() {
	echo "fuzz: $1" >&2
	exit 2
}

is_number() {
	case $1 in
	'' | 0 | *[!0-9]* | ??????*) return 1 ;;
	esac
}

[ $# -eq 1 ] || [ $# -eq 2 ] || fail "usage: fuzz/run.sh MINUTES [THREAD_MINUTES]"
minutes=$1
is_number "$minutes" || fail "MINUTES is a number from 1 on, and not $minutes"
threads=${2:-$(((minutes + 5) / 6))}
is_number "$threads" || fail "THREAD_MINUTES is a number from 1 on, and not $threads"

top=$(cd "$(dirname "$0")/.." && pwd)
out=$top/out/fuzz
clang=${CLANG:-clang}
command -v "$clang" >/dev/null || fail "there is no $clang: install Debian's clang, or set CLANG"
runtime=$("$clang" -print-runtime-dir)
[ -e "$runtime/libclang_rt.fuzzer-x86_64.a" ] || runtime=$("$clang" -print-resource-dir)/lib/linux
[ -e "$runtime/libclang_rt.fuzzer-x86_64.a" ] || fail "$clang has no libFuzzer: install Debian's libclang-rt-14-dev"

"$top/fuzz/build.sh" || fail "the library was not compiled"
memory=$(dirname "$(rt doc)")/c/liblibc_c.a
cd "$out"

words="-g -O1 -std=c11 -Wall -Wextra -Werror -I$top/include -I$top/fuzz"
checked="-fsanitize=address,undefined -fno-sanitize-recover=all"
"$clang" $words $checked,fuzzer-no-link -c "$top/include/klog_engine.c" -o engine.o
parts="plain program_file refusal"
for name in $parts loading rows samples transform_fuzz calls_fuzz; do
	"$clang" $words $checked -c "$top/fuzz/$name.c" -o "$name.o"
done
link_target() {
	target=$1_fuzz
	shift
	"$clang" -fsanitize=address,undefined,fuzzer "$target.o" $(printf '%s.o ' "$@" $parts engine address) "$memory" \
		-Wl,--wrap=malloc -Wl,--wrap=realloc -o "$target"
}
link_target transform loading rows
link_target calls samples
"$clang" $words -c "$top/fuzz/thread_calls.c" -o thread_calls.o
# The driver itself is not watched: its long loops would push the library's accesses out of the sanitizer's history.
"$clang" $words -D_POSIX_C_SOURCE=200809L -pthread -c "$top/tools/dev/library_driver.c" -o library_driver.o
"$clang" $words -fsanitize=thread -pthread library_driver.o "$top/include/klog_engine.c" thread.o thread_calls.o "$memory" \
	-o library_driver
python3 -B "$top/fuzz/seeds.py" inputs || fail "the seeds were not made"

run_target() {
	"./${1}_fuzz" -max_total_time=$((minutes * 60)) -max_len=4096 -timeout=600 -artifact_prefix="fault-$1-" \
		-print_final_stats=1 "inputs/$1" >"$1.log" 2>&1
}

# What a target counted, and whether it found a fault.
tell_target() {
	grep -E '^(compared|called): ' "$1.log" || true
	if [ "$2" -ne 0 ]; then
		echo "$1: FAULT; the end of $out/$1.log:"
		tail -n 30 "$1.log"
		return
	fi
	runs=$(sed -n 's/^stat::number_of_executed_units: *//p' "$1.log")
	edges=$(sed -n 's/.* cov: \([0-9]*\) ft: .*/\1/p' "$1.log" | tail -n 1)
	echo "$1: no fault in $runs runs, which reach $edges edges"
}

echo "running the targets: $minutes min"
run_target transform &
transform=$!
trap 'kill $transform 2>/dev/null; exit 1' INT TERM
calls_status=0
run_target calls || calls_status=$?
transform_status=0
wait $transform || transform_status=$?
tell_target transform $transform_status
tell_target calls $calls_status

echo "running the threads: $threads min"
driver_status=0
# The longest history: a race is told only where the other access is still in it.
TSAN_OPTIONS=history_size=7:halt_on_error=1 ./library_driver $((threads * 60)) 4 1 "$top/examples/forward.bin" \
	"$top"/examples/c/*.bin inputs/files/* >threads.log 2>&1 || driver_status=$?
if [ $driver_status -eq 0 ]; then
	echo "threads: $(tail -n 1 threads.log)"
else
	echo "threads: FAULT; the end of $out/threads.log:"
	tail -n 30 threads.log
fi

echo "the library was compiled without a proof, by tools/dev/compile_unproved.py"
[ $transform_status -eq 0 ] && [ $calls_status -eq 0 ] && [ $driver_status -eq 0 ] || exit 1
