package main

import (
	"bytes"
	"encoding/binary"
	"fmt"
	"hash/crc32"
	"io"
)

// The fields of a batch's header, by their first byte; docs/reference/wire.md has the table.
const (
	lengthAt, magicAt, crcAt, attributesAt, lastDeltaAt    = 8, 16, 17, 21, 23
	baseTimeAt, maxTimeAt, producerAt, epochAt, sequenceAt = 27, 35, 43, 51, 53
	countAt, headerSize                                    = 57, 61
	frontSize                                              = 12 // up to the end of the length, which counts what follows
)

// Bits of a batch's attributes. The horizon is of compacted topics: the base timestamp is a date of deletion then, and the
// records' deltas count from it all the same.
const (
	codecBits, appendTimeBit, transactionBit, controlBit, horizonBit = 7, 8, 16, 32, 64
	knownBits                                                        = 127
)

// most is how many bytes a batch may have, as it is read and decompressed.
const most = 256 << 20

var castagnoli = crc32.MakeTable(crc32.Castagnoli)

// batch is a batch of the input, whose records are still as they came.
type batch struct {
	number            int64 // from 0
	at                int64 // its first byte in the input
	base              int64
	attributes        int
	baseTime, maxTime int64
	producer          int64
	count             int
	body              []byte
}

func (b *batch) fault(form string, words ...any) error {
	return fmt.Errorf("batch %d at byte %d: %s", b.number, b.at, fmt.Sprintf(form, words...))
}

// reader reads batches one after the other.
type reader struct {
	from   io.Reader
	number int64
	at     int64
	bytes  bytes.Buffer
	zeros  int64 // bytes after the last batch
}

// next is the next batch, nil at the end. It is good until the next call.
func (r *reader) next() (*batch, error) {
	b := &batch{number: r.number, at: r.at}
	r.bytes.Reset()
	front, err := r.read(frontSize)
	if err != nil {
		return nil, b.fault("%v", err)
	}
	if len(front) == 0 {
		return nil, nil
	}
	if bytes.Equal(front, make([]byte, len(front))) {
		return nil, r.end(b, len(front))
	}
	if len(front) < frontSize {
		return nil, b.fault("the input ends within it")
	}
	length := int64(int32(binary.BigEndian.Uint32(front[lengthAt:])))
	if length < headerSize-frontSize || length > most-frontSize {
		return nil, b.fault("its length field is %d: the bytes are no batch, or begin at the wrong place", length)
	}
	rest, err := r.read(length)
	if err != nil {
		return nil, b.fault("%v", err)
	}
	if int64(len(rest)) < length {
		return nil, b.fault("the input ends within it")
	}
	r.number++
	r.at += frontSize + length
	return b, b.take(r.bytes.Bytes())
}

// read reads so many bytes more, or fewer at the end. Memory grows with what is there, not with what was announced.
func (r *reader) read(count int64) ([]byte, error) {
	before := r.bytes.Len()
	_, err := io.CopyN(&r.bytes, r.from, count)
	if err == io.EOF {
		err = nil
	}
	return r.bytes.Bytes()[before:], err
}

// end reads to the end of the input, where only zeros may be: a broker makes a segment's file longer beforehand.
func (r *reader) end(b *batch, count int) error {
	r.zeros = int64(count)
	piece := make([]byte, 1<<16)
	zero := make([]byte, len(piece))
	for {
		n, err := r.from.Read(piece)
		if !bytes.Equal(piece[:n], zero[:n]) {
			return b.fault("12 bytes of zero are no batch, and other bytes follow")
		}
		r.zeros += int64(n)
		if err == io.EOF {
			return nil
		}
		if err != nil {
			return b.fault("%v", err)
		}
	}
}

// take reads the header, and looks whether the batch is whole.
func (b *batch) take(raw []byte) error {
	if magic := raw[magicAt]; magic != 2 {
		return b.fault("it has magic %d, of a Kafka before 0.11; copy it to a topic of a later one", magic)
	}
	if found := crc32.Checksum(raw[attributesAt:], castagnoli); found != binary.BigEndian.Uint32(raw[crcAt:]) {
		return b.fault("its checksum is another one than its bytes have: they changed on the way")
	}
	b.base = int64(binary.BigEndian.Uint64(raw))
	b.attributes = int(binary.BigEndian.Uint16(raw[attributesAt:]))
	b.baseTime = int64(binary.BigEndian.Uint64(raw[baseTimeAt:]))
	b.maxTime = int64(binary.BigEndian.Uint64(raw[maxTimeAt:]))
	b.producer = int64(binary.BigEndian.Uint64(raw[producerAt:]))
	b.count = int(int32(binary.BigEndian.Uint32(raw[countAt:])))
	b.body = raw[headerSize:]
	if b.attributes&^knownBits != 0 {
		return b.fault("its attributes are %#x, which has bits that this program does not know", b.attributes)
	}
	if b.count < 0 {
		return b.fault("it has %d records", b.count)
	}
	return nil
}
