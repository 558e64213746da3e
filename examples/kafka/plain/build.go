package main

import (
	"bufio"
	"encoding/binary"
	"hash/crc32"
	"io"
)

// klog's limits of a batch.
const mostRecords, mostBytes = 10000, 4194304

// builder makes batches of records. It writes them where they are kept, and not before. Their offsets go on from batch to
// batch.
type builder struct {
	to                *bufio.Writer
	bytes             []byte // whole batches, and the one that is being made
	start             int    // where that one begins
	count             int    // how many records it has
	baseTime, maxTime int64
	isBegun           bool
	next, kept        int64 // the offset of its first record, and what that was when all was kept
}

func newBuilder(to io.Writer) *builder {
	return &builder{to: bufio.NewWriterSize(to, 1<<20)}
}

// begin is where the offsets begin.
func (b *builder) begin(offset int64) {
	if !b.isBegun {
		b.next, b.kept, b.isBegun = offset, offset, true
	}
}

// add adds a record to the batch, or to another one where it doesn't fit.
func (b *builder) add(time int64, rest []byte) {
	if b.count == mostRecords {
		b.seal()
	}
	length, size := b.sizes(time, rest)
	if b.count > 0 && len(b.bytes)-b.start+size > mostBytes {
		b.seal()
		length, _ = b.sizes(time, rest)
	}
	if b.count == 0 {
		b.bytes = append(b.bytes, make([]byte, headerSize)...)
		b.baseTime, b.maxTime = time, time
	}
	if time > b.maxTime {
		b.maxTime = time
	}
	b.bytes = binary.AppendVarint(b.bytes, int64(length))
	b.bytes = append(b.bytes, 0)
	b.bytes = binary.AppendVarint(b.bytes, time-b.baseTime)
	b.bytes = binary.AppendVarint(b.bytes, int64(b.count))
	b.bytes = append(b.bytes, rest...)
	b.count++
}

// sizes are a record's length field, and how many bytes it takes with that.
func (b *builder) sizes(time int64, rest []byte) (length, size int) {
	delta := int64(0)
	if b.count > 0 {
		delta = time - b.baseTime
	}
	length = 1 + varintSize(delta) + varintSize(int64(b.count)) + len(rest)
	return length, varintSize(int64(length)) + length
}

// seal writes the header of the batch that is being made, if it has records.
func (b *builder) seal() {
	if b.count == 0 {
		return
	}
	batch := b.bytes[b.start:]
	binary.BigEndian.PutUint64(batch, uint64(b.next))
	binary.BigEndian.PutUint32(batch[lengthAt:], uint32(len(batch)-frontSize))
	batch[magicAt] = 2
	binary.BigEndian.PutUint32(batch[lastDeltaAt:], uint32(b.count-1))
	binary.BigEndian.PutUint64(batch[baseTimeAt:], uint64(b.baseTime))
	binary.BigEndian.PutUint64(batch[maxTimeAt:], uint64(b.maxTime))
	binary.BigEndian.PutUint64(batch[producerAt:], ^uint64(0))
	binary.BigEndian.PutUint16(batch[epochAt:], ^uint16(0))
	binary.BigEndian.PutUint32(batch[sequenceAt:], ^uint32(0))
	binary.BigEndian.PutUint32(batch[countAt:], uint32(b.count))
	binary.BigEndian.PutUint32(batch[crcAt:], crc32.Checksum(batch[attributesAt:], castagnoli))
	b.next += int64(b.count)
	b.start, b.count = len(b.bytes), 0
}

// keep writes all batches, and tells how many records they have.
func (b *builder) keep() (records int64, err error) {
	b.seal()
	_, err = b.to.Write(b.bytes)
	records = b.next - b.kept
	b.kept = b.next
	b.bytes, b.start = b.bytes[:0], 0
	return records, err
}

func varintSize(value int64) int {
	size := 1
	for zigzag := uint64(value<<1) ^ uint64(value>>63); zigzag >= 128; zigzag >>= 7 {
		size++
	}
	return size
}
