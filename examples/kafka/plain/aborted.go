package main

import (
	"encoding/binary"
	"fmt"
	"os"
	"sort"
)

// An entry of a segment's index of aborted transactions: a version (16 bits, 0), and 64 bits each of the producer, the
// transaction's first offset, its last one, and the last stable offset, which is not needed here.
const entrySize = 34

// span is a range of offsets, both ends in it.
type span struct{ first, last int64 }

// index has the aborted transactions of each producer, which has one at a time, in their order.
type index map[int64][]span

// add reads a file of entries.
func (i *index) add(name string) error {
	raw, err := os.ReadFile(name)
	if err != nil {
		return err
	}
	if *i == nil {
		*i = index{}
	}
	if len(raw)%entrySize != 0 {
		return fmt.Errorf("%s: it has %d bytes, and an entry of aborted transactions has %d", name, len(raw), entrySize)
	}
	for at := 0; at < len(raw); at += entrySize {
		entry := raw[at : at+entrySize]
		version := binary.BigEndian.Uint16(entry)
		producer, first := int64(binary.BigEndian.Uint64(entry[2:])), int64(binary.BigEndian.Uint64(entry[10:]))
		last := int64(binary.BigEndian.Uint64(entry[18:]))
		if version != 0 || producer < 0 || first < 0 || last < first {
			return fmt.Errorf("%s: at byte %d is no entry of an aborted transaction", name, at)
		}
		(*i)[producer] = append((*i)[producer], span{first, last})
	}
	for _, spans := range *i {
		sort.Slice(spans, func(x, y int) bool { return spans[x].last < spans[y].last })
	}
	return nil
}

// has tells whether a batch of a producer is of an aborted transaction.
func (i index) has(producer, offset int64) bool {
	spans := i[producer]
	at := sort.Search(len(spans), func(k int) bool { return spans[k].last >= offset })
	return at < len(spans) && spans[at].first <= offset
}
