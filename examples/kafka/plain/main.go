// plain reads record batches as Kafka's brokers keep them (magic 2) and writes them as klog takes them.
//
//	plain [-aborted FILE].. [-beyond FILE] < 00000000000000000000.log | klog transform IMAGE stdin OUT
//
// Compressed records are decompressed; control batches, and with -aborted the records of aborted transactions, are left
// out; a broker's append time becomes the records' time; offsets that are missing are closed up; a batch with too many
// records, or too long, becomes several. docs/guide/formats.md says more.
package main

import (
	"bufio"
	"flag"
	"fmt"
	"io"
	"os"
)

// names are the values of an option that may be given several times.
type names []string

func (n *names) String() string { return fmt.Sprint([]string(*n)) }

func (n *names) Set(name string) error {
	*n = append(*n, name)
	return nil
}

const usage = "usage: plain [-aborted FILE].. [-beyond FILE] < BATCHES > BATCHES\n"

func main() {
	var aborted names
	var beyond string
	flag.Var(&aborted, "aborted", "a `FILE` of aborted transactions, as the .txnindex beside a segment; may be given again")
	flag.StringVar(&beyond, "beyond", "", "the `FILE` that gets records beyond klog's limits; else the first one ends all")
	flag.Usage = func() {
		fmt.Fprint(os.Stderr, usage)
		flag.PrintDefaults()
	}
	flag.Parse()
	if flag.NArg() > 0 {
		flag.Usage()
		os.Exit(2)
	}
	if err := run(aborted, beyond); err != nil {
		fmt.Fprintln(os.Stderr, "plain:", err)
		os.Exit(1)
	}
}

func run(aborted names, beyond string) error {
	c := &converter{out: newBuilder(os.Stdout)}
	for _, name := range aborted {
		if err := c.aborted.add(name); err != nil {
			return err
		}
	}
	if beyond != "" {
		file, err := os.Create(beyond)
		if err != nil {
			return err
		}
		defer file.Close()
		c.beyond = newBuilder(file)
	}
	err := c.convert(bufio.NewReaderSize(os.Stdin, 1<<20))
	for _, made := range []*builder{c.out, c.beyond} {
		if made == nil {
			continue
		}
		if flushed := made.to.Flush(); err == nil {
			err = flushed
		}
	}
	c.told.report(os.Stderr, len(aborted) > 0)
	return err
}

// counts are what was read and left out.
type counts struct {
	batches, records, written           int64
	control, aborted, transactions      int64
	beyond, compressed, stamped, closed int64
	zeros                               int64
}

func (n *counts) report(to io.Writer, hasIndex bool) {
	fmt.Fprintf(to, "plain: batches %d, records %d, written %d\n", n.batches, n.records, n.written)
	rows := []struct {
		count int64
		what  string
	}{
		{n.compressed, "batches were compressed"},
		{n.control, "control batches are left out"},
		{n.aborted, "records of aborted transactions are left out"},
		{n.stamped, "batches had the broker's append time, which is their records' time now"},
		{n.closed, "batches lacked offsets, which are closed up"},
		{n.beyond, "records are beyond klog's limits"},
		{n.zeros, "bytes of zero at the end are left out"},
	}
	for _, row := range rows {
		if row.count > 0 {
			fmt.Fprintf(to, "plain: %d %s\n", row.count, row.what)
		}
	}
	if n.transactions > 0 && !hasIndex {
		fmt.Fprintf(to, "plain: %d records of transactions are kept; which of them were aborted is not known without -aborted FILE\n",
			n.transactions)
	}
}
