package main

import (
	"bytes"
	"encoding/binary"
	"fmt"
	"io"

	xerial "github.com/eapache/go-xerial-snappy"
	"github.com/golang/snappy"
	"github.com/klauspost/compress/gzip"
	"github.com/klauspost/compress/zstd"
	"github.com/pierrec/lz4"
)

// Kafka's numbers of codecs.
const (
	none = iota
	gzipped
	snapped
	lz4ed
	zstded
)

// codecs decompress the records of batches. What one call returns is good until the next.
type codecs struct {
	gzip *gzip.Reader
	lz4  *lz4.Reader
	zstd *zstd.Decoder
	room bytes.Buffer
	into []byte
}

func (c *codecs) decompress(codec int, data []byte) ([]byte, error) {
	switch codec {
	case none:
		return data, nil
	case gzipped:
		return c.gunzip(data)
	case snapped:
		return c.unsnap(data)
	case lz4ed:
		if c.lz4 == nil {
			c.lz4 = lz4.NewReader(nil)
		}
		c.lz4.Reset(bytes.NewReader(data))
		return c.drained(c.lz4)
	case zstded:
		return c.unzstd(data)
	}
	return nil, fmt.Errorf("codec %d is none of gzip, snappy, lz4, zstd", codec)
}

func (c *codecs) gunzip(data []byte) (made []byte, err error) {
	if c.gzip == nil {
		c.gzip, err = gzip.NewReader(bytes.NewReader(data))
	} else {
		err = c.gzip.Reset(bytes.NewReader(data))
	}
	if err != nil {
		return nil, err
	}
	return c.drained(c.gzip)
}

// drained is all that a decompressing reader gives, if it isn't too much.
func (c *codecs) drained(from io.Reader) ([]byte, error) {
	c.room.Reset()
	_, err := c.room.ReadFrom(io.LimitReader(from, most+1))
	if err == nil && c.room.Len() > most {
		err = tooLong()
	}
	return c.room.Bytes(), err
}

func (c *codecs) unzstd(data []byte) (made []byte, err error) {
	if c.zstd == nil {
		c.zstd, err = zstd.NewReader(nil, zstd.WithDecoderMaxMemory(most), zstd.WithDecoderConcurrency(1))
		if err != nil {
			return nil, err
		}
	}
	made, err = c.zstd.DecodeAll(data, c.into[:0])
	if err == nil {
		c.into = made
	}
	return made, err
}

// unsnap reads a block of snappy, or Java's framing of several. The library takes as much memory as a block announces, so
// what they announce is summed up before.
func (c *codecs) unsnap(data []byte) ([]byte, error) {
	size, err := announced(data)
	if err != nil {
		return nil, err
	}
	if size > most {
		return nil, tooLong()
	}
	made, err := xerial.DecodeInto(c.into, data)
	if err == nil {
		c.into = made[:cap(made)]
	}
	return made, err
}

// announced is how many bytes the blocks of snappy say that they become.
func announced(data []byte) (int, error) {
	const magic, front = "\x82SNAPPY\x00", 16
	if !bytes.HasPrefix(data, []byte(magic)) {
		return snappy.DecodedLen(data)
	}
	sum := 0
	for at := front; at+4 <= len(data) && sum <= most; {
		length := int(binary.BigEndian.Uint32(data[at:]))
		if length > len(data)-at-4 {
			return 0, xerial.ErrMalformed
		}
		size, err := snappy.DecodedLen(data[at+4 : at+4+length])
		if err != nil {
			return 0, err
		}
		sum, at = sum+size, at+4+length
	}
	return sum, nil
}

func tooLong() error {
	return fmt.Errorf("its records have more than %d bytes when decompressed", most)
}
