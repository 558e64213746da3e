#!/bin/sh
# Runs what the gate does not: tools/dev/check_all.sh [KLOG [FOLDER]]
#
# Documents, tools, examples, the C library, a minute of fuzzing, Kafka's clients, and short comparisons with the second
# implementation. KLOG is a built program: where none is named, crates/klog/out/klog, which `rt run` leaves there, else
# out/klog, which tools/quick_build.sh makes. FOLDER is what tools/build_library.sh made: where none is named, it is made
# of the library of fuzz/build.sh, without a proof.
#
# Each check has a line: passed with the last line that it printed, FAILED with the end of its output, or skipped with the
# Debian package that it lacks. What each printed is in out/checks. The status is 1 if one failed.
set -u

if [ $# -gt 2 ]; then
	echo "usage: tools/dev/check_all.sh [KLOG [FOLDER]]" >&2
	exit 2
fi
top=$(cd "$(dirname "$0")/../.." && pwd)
logs=$top/out/checks
python=/usr/bin/python3
passed=0
failed=0
skipped=0

absolute() {
	echo "$(cd "$(dirname "$1")" && pwd)/$(basename "$1")"
}

# The Debian package that is lacking for a need, or nothing.
lacking() {
	case $1 in
	cc) command -v "${CC:-cc}" >/dev/null || echo gcc ;;
	clang) command -v clang >/dev/null || echo clang ;;
	fuzzer) ls "$(clang -print-resource-dir 2>/dev/null)"/lib/*/libclang_rt.fuzzer*.a >/dev/null 2>&1 || echo libclang-rt-14-dev ;;
	xxd) command -v xxd >/dev/null || echo xxd ;;
	rt) command -v rt >/dev/null || echo "the Rattle kit, which is no package" ;;
	kafka) "$python" -c "import kafka" 2>/dev/null || echo python3-kafka ;;
	confluent) "$python" -c "import confluent_kafka" 2>/dev/null || echo python3-confluent-kafka ;;
	sarama)
		command -v go >/dev/null || echo golang-go
		[ -d /usr/share/gocode/src/github.com/Shopify/sarama ] || echo golang-github-shopify-sarama-dev
		;;
	library) [ -e "$folder/libklog.so" ] || echo "the library, which was not made" ;;
	esac
}

# check NAME NEEDS COMMAND ..: runs a command, where what it needs is there.
check() {
	name=$1
	lacks=$(for need in $2; do lacking "$need"; done | paste -s -d , -)
	shift 2
	if [ -n "$lacks" ]; then
		echo "skipped $name: lacks $lacks"
		skipped=$((skipped + 1))
		return 1
	fi
	start=$(date +%s)
	if "$@" >"$logs/$name.log" 2>&1 </dev/null; then
		echo "passed $name, $(($(date +%s) - start)) s: $(tail -n 1 "$logs/$name.log" | cut -c 1-160)"
		passed=$((passed + 1))
		return 0
	fi
	echo "FAILED $name, $(($(date +%s) - start)) s; the end of out/checks/$name.log:"
	tail -n 8 "$logs/$name.log" | sed 's/^/    /'
	failed=$((failed + 1))
	return 1
}

make_library() {
	fuzz/build.sh && tools/build_library.sh "$folder" out/fuzz/libklog_c.a
}

refuse_library_memory() {
	"${CC:-cc}" -std=c99 -I"$folder" tools/dev/library_memory.c "$folder/libklog.a" -o "$folder/library_memory" &&
		tools/dev/refuse_each.py "$folder/library_memory"
}

# Installs klog, and builds and runs transforms by what is installed.
use_installed() {
	rm -rf "$logs/installed"
	PREFIX=$logs/installed DESTDIR='' tools/install.sh "$klog" "$folder" &&
		(cd "$logs/installed/share/klog/examples/c" && PATH="$logs/installed/bin:$PATH" klogc table parts)
}

klog=$top/crates/klog/out/klog
if [ $# -gt 0 ]; then
	[ -x "$1" ] || { echo "check_all: $1 is no program" >&2 && exit 2; }
	klog=$(absolute "$1")
fi
folder=$top/out/library
[ $# -lt 2 ] || folder=$(cd "$2" && pwd) || exit 2
cd "$top" || exit 2
mkdir -p "$logs"

if [ ! -x "$klog" ]; then
	klog=$top/out/klog
	check program "rt" tools/quick_build.sh || { echo "check_all: there is no klog to check" >&2 && exit 1; }
fi
[ $# -eq 2 ] || check library "rt cc" make_library

check documents "clang xxd" tools/dev/check_docs.py "$klog"
check comments "rt" tools/dev/doc_examples.py
check limits "" tools/dev/limits_once.py
check rules "" tools/dev/rules_meaning_test.py
check klogc "clang" python3 -B -m unittest discover -s tools/klogc/tests -t tools
check graphs "" tools/dev/graph_test.py --klog "$klog"
check transforms "clang" tools/klogc/klogc table examples/c/transforms --klog "$klog"
check meanings "clang" tools/klogc/tests/compare.py --seed 1 --programs 75
check damaged "clang" tools/klogc/tests/damaged.py --seed 1 --objects 200
check scripts "" tools/dev/compare.py "$klog" 300
check texts "" tools/dev/compare_texts.py "$klog" 300
check outputs "" tools/dev/cut_output.py "$klog"
check files "" tools/dev/file_attacks.py "$klog" 50
check examples "cc library" examples/library/run.sh "$folder"
check calls "library" tools/dev/compare_library.py "$folder/libklog.so" 300 7 "$klog"
check memory "cc library" refuse_library_memory
check installed "clang library" use_installed
check stack "cc library" tools/dev/library_stack.py "$folder"
check fuzz "rt clang fuzzer" fuzz/run.sh 1
check clients "kafka confluent sarama" "$python" tools/dev/kafka_clients.py "$klog"
check fetched "kafka" "$python" tools/dev/read_fetched.py "$klog" 50
check transformed "kafka confluent" "$python" tools/dev/read_transformed.py "$klog" 8
check kafka "kafka confluent sarama library" tools/dev/check_kafka.sh "$klog" "$folder" 1

echo "$passed passed, $failed failed, $skipped skipped"
[ "$failed" -eq 0 ]
