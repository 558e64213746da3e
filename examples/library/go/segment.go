// Runs a program on each record batch of a file, as a segment of a Kafka log has them, and writes the batches of each
// output partition to a file of its own.
package main

import (
	"bufio"
	"encoding/binary"
	"errors"
	"fmt"
	"io"
	"os"
)

const mostBytes = 4194304 // of a batch

// upTo reads this many bytes, or those that are left.
func upTo(in io.Reader, count int64) ([]byte, error) {
	return io.ReadAll(io.LimitReader(in, count))
}

// next reads a batch, of a cut one what is there; no bytes at the end.
func next(in io.Reader) ([]byte, error) {
	front, err := upTo(in, 12)
	if err != nil || len(front) < 12 {
		return front, err
	}
	length := int64(binary.BigEndian.Uint32(front[8:]))
	if length > mostBytes {
		length = mostBytes
	}
	rest, err := upTo(in, length)
	return append(front, rest...), err
}

// renumber gives the rows of batches offsets from one on, as a broker does: the checksum of a batch does not cover its
// first eight bytes.
func renumber(batches []byte, offset uint64) {
	for len(batches) > 0 {
		binary.BigEndian.PutUint64(batches, offset)
		offset += uint64(binary.BigEndian.Uint32(batches[57:]))
		batches = batches[12+binary.BigEndian.Uint32(batches[8:]):]
	}
}

func transformFile(program *Program, in io.Reader, outs []*bufio.Writer) error {
	offset, rows, rejected := uint64(0), make([]uint64, len(outs)), uint64(0)
	batches, bytes := 0, 0
	batch, err := next(in)
	for ; len(batch) > 0 && err == nil; batch, err = next(in) {
		made, err := program.Transform(batch, offset, 0, len(outs))
		var refused *BatchFault
		if errors.As(err, &refused) {
			return &BatchFault{batches, bytes, refused.Text}
		} else if err != nil {
			return err
		}
		offset, rejected = offset+made.Records, rejected+made.Records-made.Kept
		batches, bytes = batches+1, bytes+len(batch)
		for k, output := range made.Outputs {
			renumber(output.Batches, rows[k])
			rows[k] += output.Rows
			if _, err := outs[k].Write(output.Batches); err != nil {
				return err
			}
		}
	}
	fmt.Printf("records %d rejected %d rows %v\n", offset, rejected, rows)
	return err
}

func run() error {
	image, err := os.ReadFile(os.Args[1])
	if err != nil {
		return err
	}
	var program Program
	defer program.Free()
	if err := program.Load(image, 0); err != nil {
		return err
	}
	in, err := os.Open(os.Args[2])
	if err != nil {
		return err
	}
	outs := []*bufio.Writer{}
	for _, name := range os.Args[3:] {
		file, err := os.Create(name)
		if err != nil {
			return err
		}
		defer file.Close()
		outs = append(outs, bufio.NewWriterSize(file, 1<<20))
	}
	err = transformFile(&program, bufio.NewReaderSize(in, 1<<20), outs)
	for _, out := range outs {
		if failed := out.Flush(); err == nil {
			err = failed
		}
	}
	return err
}

func main() {
	if len(os.Args) < 4 {
		fmt.Fprintln(os.Stderr, "usage: segment IMAGE FILE OUT ..")
		os.Exit(2)
	}
	if err := run(); err != nil {
		fmt.Fprintf(os.Stderr, "%s: %v\n", os.Args[1], err)
		os.Exit(1)
	}
}
