#!/bin/sh
# Runs all that stands between klog and Kafka: tools/dev/check_kafka.sh KLOG FOLDER [RUNS]
#
# KLOG is a built klog, FOLDER what tools/build_library.sh made. It builds the member in C and plain, and runs their tests,
# those of lines.py, one run of the group test of the member in Python and RUNS runs (2) of that in C, and the tables of
# rates. With 50 runs it takes some two hours, most of them waiting. All it needs is of Debian 12:
#
#	apt-get install make gcc libc6-dev pkg-config librdkafka-dev libssl-dev golang-go golang-github-shopify-sarama-dev \
#	    golang-github-klauspost-compress-dev python3-kafka python3-confluent-kafka python3-snappy python3-lz4 \
#	    python3-zstandard kcat zstd lz4
set -eu

if [ $# -lt 2 ] || [ $# -gt 3 ]; then
	echo "usage: tools/dev/check_kafka.sh KLOG FOLDER [RUNS]" >&2
	exit 2
fi
klog=$(realpath "$1")
folder=$(realpath "$2")
runs=${3:-2}
tools=$(dirname "$(realpath "$0")")
made=$(mktemp -d)
trap 'rm -rf "$made"' EXIT
export PYTHONDONTWRITEBYTECODE=1

python() {
	script=$1
	shift
	echo "== $script $*"
	/usr/bin/python3 "$tools/$script" "$@"
}

make -s -C "$tools/../../examples/kafka" KLOG="$folder" OUT="$made"
python kafka_plain_test.py "$klog"
python kafka_plain_speed.py
python kafka_lines_test.py "$folder/libklog.so"
python kafka_poison_test.py "$made/member"
python kafka_scaling.py "$folder/libklog.so" --member "$made/member" --mebibytes 1 rates
python kafka_group_test.py "$folder/libklog.so" --runs 1
python kafka_group_test.py "$folder/libklog.so" --member "$made/member" --runs "$runs"
echo "all as it should be"
