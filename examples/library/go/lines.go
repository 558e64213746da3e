// Runs a program on each line of standard input as a value with a null key and a header, and prints what it makes of it.
package main

import (
	"bufio"
	"bytes"
	"fmt"
	"io"
	"os"
)

func shown(part []byte) string {
	if part == nil {
		return "null"
	}
	return string(part)
}

func run() error {
	image, err := os.ReadFile(os.Args[1])
	if err != nil {
		return err
	}
	var program Program
	defer program.Free()
	if err := program.Load(image, 0); err != nil {
		return err
	}
	lines := bufio.NewReader(os.Stdin)
	line, end := lines.ReadBytes('\n')
	for offset := uint64(0); len(line) > 0; offset++ {
		line = bytes.TrimSuffix(line, []byte("\n"))
		header := Header{"line", fmt.Appendf(nil, "%d", offset+1)}
		code, emissions, err := program.Run(&Record{Value: line, Offset: offset, Headers: []Header{header}}, 2)
		if err != nil {
			return err
		}
		if code != 0 {
			fmt.Printf("%s: rejected with code %d\n", line, code)
		} else {
			fmt.Printf("%s: kept, emissions %d\n", line, len(emissions))
		}
		for _, e := range emissions {
			fmt.Printf("  to %d key %s value %s\n", e.Output, shown(e.Key), shown(e.Value))
			for _, h := range e.Headers {
				fmt.Printf("    header %s %s\n", h.Key, shown(h.Value))
			}
		}
		line, end = lines.ReadBytes('\n')
	}
	if end == io.EOF {
		return nil
	}
	return end
}

func main() {
	if len(os.Args) != 2 {
		fmt.Fprintln(os.Stderr, "usage: lines IMAGE < TEXT")
		os.Exit(2)
	}
	if err := run(); err != nil {
		fmt.Fprintf(os.Stderr, "%s: %v\n", os.Args[1], err)
		os.Exit(1)
	}
}
