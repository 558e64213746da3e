// What a user would write instead of a klog program and `klog transform`: record batches in, a native filter or router,
// record batches out, by sarama's codec, on one core. transform_speed.py builds it, with the codec's entries exported.
//
// transform_peer forward|keep|key|value IN OUT ..
// transform_peer forward|keep|key|value    times a batch in memory, and prints the nanoseconds a record
package main

import (
	"bufio"
	"bytes"
	"encoding/binary"
	"fmt"
	"io"
	"os"
	"runtime"
	"time"

	"github.com/Shopify/sarama"
)

// An output: its file, and the next offset.
type output struct {
	file *bufio.Writer
	next int64
}

func check(err error) {
	if err != nil {
		fmt.Fprintln(os.Stderr, err)
		os.Exit(1)
	}
}

// write makes a batch of records of one batch.
func (o *output) write(from *sarama.RecordBatch, records []*sarama.Record) {
	if len(records) == 0 {
		return
	}
	batch := &sarama.RecordBatch{FirstOffset: o.next, Version: 2, FirstTimestamp: from.FirstTimestamp,
		MaxTimestamp: from.MaxTimestamp, ProducerID: -1, ProducerEpoch: -1, FirstSequence: -1,
		LastOffsetDelta: int32(len(records) - 1), Records: records}
	for i, r := range records {
		r.OffsetDelta = int64(i)
	}
	raw, err := sarama.EncodeBatch(batch)
	check(err)
	_, err = o.file.Write(raw)
	check(err)
	o.next += int64(len(records))
}

// byKey is what examples/c/route_by_hash.c does: FNV-1a, in 64 bits, of the first 16 bytes of the key.
func byKey(r *sarama.Record) int {
	key := r.Key
	hash := uint64(0xcbf29ce484222325)
	if len(key) > 16 {
		key = key[:16]
	}
	for _, c := range key {
		hash = (hash ^ uint64(c)) * 0x100000001b3
	}
	return int((hash ^ hash>>32) % 4)
}

// byValue is what examples/c/route_by_value.c does: FNV-1a, in 32 bits, of the first 8 bytes of the value.
func byValue(r *sarama.Record) int {
	value := r.Value
	hash := uint32(0x811c9dc5)
	if len(value) > 8 {
		value = value[:8]
	}
	for _, c := range value {
		hash = (hash ^ uint32(c)) * 0x01000193
	}
	return int(hash % 4)
}

// kept has the records whose value begins with 'A', as examples/c/filter_first_byte.c.
func kept(records []*sarama.Record) []*sarama.Record {
	some := make([]*sarama.Record, 0, len(records))
	for _, r := range records {
		if len(r.Value) > 0 && r.Value[0] == 'A' {
			some = append(some, r)
		}
	}
	return some
}

// next reads a batch; nil at the end.
func next(in io.Reader) *sarama.RecordBatch {
	head := make([]byte, 12)
	if _, err := io.ReadFull(in, head); err == io.EOF {
		return nil
	} else {
		check(err)
	}
	raw := make([]byte, 12+binary.BigEndian.Uint32(head[8:]))
	copy(raw, head)
	_, err := io.ReadFull(in, raw[12:])
	check(err)
	batch, err := sarama.DecodeBatch(raw)
	check(err)
	return batch
}

// transform routes, filters or forwards the records of a batch.
func transform(kind string, batch *sarama.RecordBatch, outs []*output) {
	if kind == "forward" {
		outs[0].write(batch, batch.Records)
		return
	}
	if kind == "keep" {
		outs[0].write(batch, kept(batch.Records))
		return
	}
	routed := byKey
	if kind == "value" {
		routed = byValue
	}
	var parts [4][]*sarama.Record
	for _, r := range batch.Records {
		q := routed(r)
		parts[q] = append(parts[q], r)
	}
	for q, records := range parts {
		outs[q].write(batch, records)
	}
}

// made is a batch of 10,000 records of 64 bytes and a key, as bench_path's first shape.
func made() []byte {
	batch := &sarama.RecordBatch{Version: 2, ProducerID: -1, ProducerEpoch: -1, FirstSequence: -1, LastOffsetDelta: 9999,
		FirstTimestamp: time.UnixMilli(1700000000000), MaxTimestamp: time.UnixMilli(1700000000000)}
	for i := 0; i < 10000; i++ {
		value := bytes.Repeat([]byte{"AB"[i%2]}, 64)
		batch.Records = append(batch.Records, &sarama.Record{OffsetDelta: int64(i), Key: []byte(fmt.Sprintf("%08d", i)), Value: value})
	}
	raw, err := sarama.EncodeBatch(batch)
	check(err)
	return raw
}

// timed prints how long a record of a batch in memory takes in the best of the turns of two seconds.
func timed(kind string) {
	raw, best, outs := made(), time.Hour, []*output{}
	for q := 0; q < 4; q++ {
		outs = append(outs, &output{bufio.NewWriter(io.Discard), 0})
	}
	for end := time.Now().Add(2 * time.Second); time.Now().Before(end); {
		start := time.Now()
		for i := 0; i < 8; i++ {
			batch, err := sarama.DecodeBatch(raw)
			check(err)
			transform(kind, batch, outs)
		}
		if turn := time.Since(start); turn < best {
			best = turn
		}
	}
	fmt.Printf("%.1f\n", float64(best.Nanoseconds())/80000)
}

func main() {
	runtime.GOMAXPROCS(1)
	if len(os.Args) == 2 {
		timed(os.Args[1])
		return
	}
	file, err := os.Open(os.Args[2])
	check(err)
	in := bufio.NewReaderSize(file, 65536)
	outs := []*output{}
	for _, name := range os.Args[3:] {
		file, err := os.Create(name)
		check(err)
		outs = append(outs, &output{bufio.NewWriterSize(file, 65536), 0})
	}
	for batch := next(in); batch != nil; batch = next(in) {
		transform(os.Args[1], batch, outs)
	}
	for _, o := range outs {
		check(o.file.Flush())
	}
}
