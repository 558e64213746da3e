// Times the C library from Go, as library_speed.c does: each record batch of a file by a call of its own, with a copy
// of each output's batches. library_speed.py builds it with examples/library/go/engine.go.
//
// library_speed_go IMAGE FILE OUTPUTS SECONDS
package main

import (
	"encoding/binary"
	"fmt"
	"os"
	"strconv"
	"syscall"
)

func check(err error) {
	if err != nil {
		fmt.Fprintln(os.Stderr, err)
		os.Exit(1)
	}
}

// processorSeconds is what the process has used, the collector of garbage among it.
func processorSeconds() float64 {
	var used syscall.Rusage
	check(syscall.Getrusage(syscall.RUSAGE_SELF, &used))
	micros := used.Utime.Sec*1000000 + used.Utime.Usec + used.Stime.Sec*1000000 + used.Stime.Usec
	return float64(micros) / 1e6
}

func main() {
	image, err := os.ReadFile(os.Args[1])
	check(err)
	bytes, err := os.ReadFile(os.Args[2])
	check(err)
	outputs, err := strconv.Atoi(os.Args[3])
	check(err)
	seconds, err := strconv.ParseFloat(os.Args[4], 64)
	check(err)
	var program Program
	check(program.Load(image, 1))
	records, start := uint64(0), processorSeconds()
	for processorSeconds() < start+seconds {
		for rest := bytes; len(rest) > 0; {
			size := 12 + binary.BigEndian.Uint32(rest[8:])
			made, err := program.Transform(rest[:size], records, 0, outputs)
			check(err)
			records, rest = records+made.Records, rest[size:]
		}
	}
	fmt.Printf("%.0f\n", float64(records)/(processorSeconds()-start))
	program.Free()
}
