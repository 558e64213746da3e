package main

import (
	"fmt"
	"io"
	"math"
	"os"
)

// converter reads batches and writes them anew.
type converter struct {
	codecs  codecs
	aborted index
	out     *builder
	beyond  *builder // nil without -beyond
	named   []string // records of this batch that are beyond the limits
	told    counts
}

func (c *converter) convert(from io.Reader) error {
	r := reader{from: from}
	for {
		b, err := r.next()
		if err != nil {
			return err
		}
		if b == nil {
			c.told.zeros = r.zeros
			return nil
		}
		if err := c.take(b); err != nil {
			return err
		}
	}
}

// take writes what is to be kept of a batch. Of one that is faulty nothing is written.
func (c *converter) take(b *batch) error {
	c.told.batches++
	if b.attributes&controlBit != 0 {
		c.told.control++
		return nil
	}
	c.told.records += int64(b.count)
	if b.attributes&transactionBit != 0 {
		if c.aborted.has(b.producer, b.base) {
			c.told.aborted += int64(b.count)
			return nil
		}
		c.told.transactions += int64(b.count)
	}
	codec := b.attributes & codecBits
	if codec != none {
		c.told.compressed++
	}
	if b.attributes&appendTimeBit != 0 {
		c.told.stamped++
	}
	body, err := c.codecs.decompress(codec, b.body)
	if err != nil {
		return b.fault("its records can't be decompressed: %v", err)
	}
	if err := c.takeRecords(b, body); err != nil {
		return err
	}
	return c.keep()
}

// keep writes what was made of a batch.
func (c *converter) keep() error {
	count, err := c.out.keep()
	c.told.written += count
	if err != nil || c.beyond == nil {
		return err
	}
	count, err = c.beyond.keep()
	c.told.beyond += count
	for _, line := range c.named {
		fmt.Fprintln(os.Stderr, line)
	}
	c.named = c.named[:0]
	return err
}

func (c *converter) takeRecords(b *batch, body []byte) error {
	c.out.begin(b.base)
	left := fields{left: body}
	last := int64(-1)
	isClosed := false
	for k := 0; k < b.count; k++ {
		r, err := nextRecord(&left)
		if err == nil && r.offset <= last {
			err = errRange
		}
		if err != nil {
			return b.fault("record %d: %v", k, err)
		}
		isClosed = isClosed || r.offset != last+1
		last = r.offset
		if err := c.takeRecord(b, k, &r); err != nil {
			return err
		}
	}
	if isClosed {
		c.told.closed++
	}
	if len(left.left) > 0 {
		return b.fault("after its %d records are %d bytes more", b.count, len(left.left))
	}
	return nil
}

// takeRecord writes a record, or puts it among those beyond the limits.
func (c *converter) takeRecord(b *batch, number int, r *record) error {
	time := b.maxTime
	if b.attributes&appendTimeBit == 0 {
		if (r.time > 0 && b.baseTime > math.MaxInt64-r.time) || (r.time < 0 && b.baseTime < math.MinInt64-r.time) {
			return b.fault("record %d: its timestamp is beyond 64 bits", number)
		}
		time = b.baseTime + r.time
	}
	why, err := r.beyond(time)
	switch {
	case err != nil:
		return b.fault("record %d: %v", number, err)
	case why == "":
		c.out.add(time, r.rest)
		return nil
	case c.beyond == nil:
		return b.fault("record %d, offset %d: %s; with -beyond FILE such records go there", number, b.base+r.offset, why)
	}
	c.named = append(c.named, fmt.Sprintf("plain: offset %d is beyond klog's limits: %s", b.base+r.offset, why))
	c.beyond.begin(b.base + r.offset)
	c.beyond.add(time, r.rest)
	return nil
}
