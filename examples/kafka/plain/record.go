package main

import (
	"encoding/binary"
	"errors"
	"fmt"
	"math"
	"unicode/utf8"
)

// klog's limits of a record, as docs/reference/wire.md has them.
const (
	mostKey, mostValue             = 4096, 1048576
	mostHeaders                    = 16
	mostHeaderKey, mostHeaderValue = 255, 4096
	mostTime                       = 1<<62 - 1
)

var (
	errCut     = errors.New("it is cut")
	errSpelled = errors.New("a number is spelled longer than it needs")
	errRange   = errors.New("a length is out of its range")
)

// record is a record of a batch: its deltas, and the bytes from its key on.
type record struct {
	time, offset int64
	rest         []byte
}

// fields reads varints and parts from the front of bytes.
type fields struct {
	left []byte
	err  error
}

func (f *fields) number() int64 {
	value, size := binary.Varint(f.left)
	switch {
	case f.err != nil:
		return 0
	case size == 0:
		f.err = errCut
		return 0
	case size < 0:
		f.err = errRange
		return 0
	case size > 1 && f.left[size-1] == 0:
		f.err = errSpelled
		return 0
	}
	f.left = f.left[size:]
	return value
}

// part is a length, which is at least `least`, and so many bytes; null for -1.
func (f *fields) part(least int64) []byte {
	length := f.number()
	switch {
	case f.err != nil:
	case length < least || length > math.MaxInt32:
		f.err = errRange
	case length > int64(len(f.left)):
		f.err = errCut
	case length >= 0:
		part := f.left[:length]
		f.left = f.left[length:]
		return part
	}
	return nil
}

// nextRecord takes a record off the front of a batch's records.
func nextRecord(body *fields) (r record, err error) {
	whole := fields{left: body.part(1)}
	if body.err != nil {
		return r, body.err
	}
	whole.left = whole.left[1:] // the attributes, which have no meaning
	r.time, r.offset = whole.number(), whole.number()
	if whole.err == nil && (r.offset < 0 || r.offset > math.MaxInt32) {
		whole.err = errRange
	}
	r.rest = whole.left
	return r, whole.err
}

// beyond says why klog doesn't take a record, with this timestamp, or nothing if it does.
func (r *record) beyond(time int64) (string, error) {
	f := fields{left: r.rest}
	key, value, count := f.part(-1), f.part(-1), f.number()
	if f.err == nil && (count < 0 || count > math.MaxInt32) {
		f.err = errRange
	}
	why := ""
	for k := int64(0); k < count && f.err == nil; k++ {
		name, text := f.part(0), f.part(-1)
		if why == "" {
			why = headerBeyond(k, name, text)
		}
	}
	if f.err == nil && len(f.left) > 0 {
		f.err = errors.New("bytes are left over")
	}
	switch {
	case len(key) > mostKey:
		why = fmt.Sprintf("a key of %d bytes, and %d is the most", len(key), mostKey)
	case len(value) > mostValue:
		why = fmt.Sprintf("a value of %d bytes, and %d is the most", len(value), mostValue)
	case count > mostHeaders:
		why = fmt.Sprintf("%d headers, and %d is the most", count, mostHeaders)
	case time == -1:
		why = "no timestamp"
	case time < 0 || time > mostTime:
		why = fmt.Sprintf("the timestamp %d, and 0 to 2^62 - 1 is the range", time)
	}
	return why, f.err
}

func headerBeyond(number int64, name, text []byte) string {
	switch {
	case len(name) > mostHeaderKey:
		return fmt.Sprintf("header %d with a key of %d bytes, and %d is the most", number, len(name), mostHeaderKey)
	case len(text) > mostHeaderValue:
		return fmt.Sprintf("header %d with a value of %d bytes, and %d is the most", number, len(text), mostHeaderValue)
	case !utf8.Valid(name):
		return fmt.Sprintf("header %d with a key that is not UTF-8", number)
	}
	return ""
}
