// klog's engine in Go: a loaded program, its runs on records and on record batches. CGO_CFLAGS names the folder of
// klog_engine.h and CGO_LDFLAGS the library, as in ../run.sh.
package main

/*
#include <klog_engine.h>

static const uint8_t no_bytes[1];

// A record gets its addresses here, since cgo passes C no Go memory with addresses of Go memory in it.
static uint32_t run(klog_handle *program, klog_record record, const uint8_t *key, const uint8_t *value, int nulls,
		    klog_handle *headers, klog_handle *outcome)
{
	record.key = key || nulls & KLOG_NULL_KEY ? key : no_bytes;
	record.value = value || nulls & KLOG_NULL_VALUE ? value : no_bytes;
	record.headers = headers;
	return klog_run(program, &record, outcome);
}

static uint32_t add_header(klog_handle *headers, const uint8_t *key, size_t key_length, const uint8_t *value,
			   size_t value_length, int is_null)
{
	return klog_add_header(headers, key, key_length, is_null || value ? value : no_bytes, value_length);
}
*/
import "C"

import (
	"fmt"
	"unsafe"
)

// bytesAt is the address of some bytes, nil where there are none.
func bytesAt(bytes []byte) *C.uint8_t {
	if len(bytes) == 0 {
		return nil
	}
	return (*C.uint8_t)(unsafe.Pointer(&bytes[0]))
}

func fault(number C.uint32_t, place C.size_t) error {
	if number == C.KLOG_OK {
		return nil
	}
	var text [64]C.char
	var length C.size_t
	C.klog_fault_text(number, place, &text[0], C.size_t(len(text)), &length)
	return fmt.Errorf("%s", C.GoStringN(&text[0], C.int(length)))
}

// Header is a header of a record; a nil value is null.
type Header struct {
	Key   string
	Value []byte
}

// Record is a record, and where it is; a nil slice is null.
type Record struct {
	Key, Value        []byte
	Offset, Timestamp uint64
	Partition         int
	Headers           []Header
}

// Emission is what a program gives to an output partition; a nil slice is null.
type Emission struct {
	Output     int
	Key, Value []byte
	Headers    []Header
}

// Program is a loaded program, with room for headers, an outcome and batches. A goroutine at a time calls it.
type Program struct {
	program, headers, outcome, batches C.klog_handle
}

// Load loads an image by helper table 1 or 2, or a program file; by 0 an image by table 1, and a file by its own.
func (p *Program) Load(image []byte, table int) error {
	var place C.size_t
	number := C.klog_load(bytesAt(image), C.size_t(len(image)), C.uint32_t(table), &p.program, &place)
	return fault(number, place)
}

func (p *Program) Free() {
	C.klog_free(&p.outcome)
	C.klog_free(&p.batches)
	C.klog_free(&p.headers)
	C.klog_free(&p.program)
}

// addHeaders makes the handle one of these headers alone.
func (p *Program) addHeaders(headers []Header) error {
	C.klog_free(&p.headers)
	for _, header := range headers {
		key, isNull := []byte(header.Key), C.int(0)
		if header.Value == nil {
			isNull = 1
		}
		number := C.add_header(&p.headers, bytesAt(key), C.size_t(len(key)), bytesAt(header.Value),
			C.size_t(len(header.Value)), isNull)
		if err := fault(number, 0); err != nil {
			return err
		}
	}
	return nil
}

// Run runs the program on a record: the reject code, 0 where it is kept, and the emissions.
func (p *Program) Run(record *Record, outputs int) (uint64, []Emission, error) {
	if err := p.addHeaders(record.Headers); err != nil {
		return 0, nil, err
	}
	given := C.klog_record{key_length: C.size_t(len(record.Key)), value_length: C.size_t(len(record.Value)),
		offset: C.uint64_t(record.Offset), timestamp: C.uint64_t(record.Timestamp),
		partition: C.size_t(record.Partition), outputs: C.size_t(outputs)}
	nulls := C.int(0)
	if record.Key == nil {
		nulls |= C.KLOG_NULL_KEY
	}
	if record.Value == nil {
		nulls |= C.KLOG_NULL_VALUE
	}
	number := C.run(&p.program, given, bytesAt(record.Key), bytesAt(record.Value), nulls, &p.headers, &p.outcome)
	if err := fault(number, 0); err != nil {
		return 0, nil, err
	}
	var code C.uint64_t
	var count C.size_t
	if err := fault(C.klog_outcome(&p.outcome, &code, &count), 0); err != nil {
		return 0, nil, err
	}
	emissions := make([]Emission, count)
	for k := range emissions {
		if err := p.emission(C.size_t(k), &emissions[k]); err != nil {
			return 0, nil, err
		}
	}
	return uint64(code), emissions, nil
}

func (p *Program) emission(number C.size_t, to *Emission) error {
	var sizes C.klog_emission
	if err := fault(C.klog_emission_at(&p.outcome, number, &sizes), 0); err != nil {
		return err
	}
	to.Output = int(sizes.output)
	key, value := make([]byte, sizes.key_length), make([]byte, sizes.value_length)
	if err := fault(C.klog_emission_key(&p.outcome, number, bytesAt(key), sizes.key_length), 0); err != nil {
		return err
	}
	if err := fault(C.klog_emission_value(&p.outcome, number, bytesAt(value), sizes.value_length), 0); err != nil {
		return err
	}
	if sizes.nulls&C.KLOG_NULL_KEY == 0 {
		to.Key = key
	}
	if sizes.nulls&C.KLOG_NULL_VALUE == 0 {
		to.Value = value
	}
	to.Headers = make([]Header, sizes.header_count)
	for k := range to.Headers {
		if err := p.header(number, C.size_t(k), &to.Headers[k]); err != nil {
			return err
		}
	}
	return nil
}

func (p *Program) header(number, at C.size_t, to *Header) error {
	var sizes C.klog_header
	if err := fault(C.klog_emission_header(&p.outcome, number, at, &sizes), 0); err != nil {
		return err
	}
	key, value := make([]byte, sizes.key_length), make([]byte, sizes.value_length)
	if err := fault(C.klog_emission_header_key(&p.outcome, number, at, bytesAt(key), sizes.key_length), 0); err != nil {
		return err
	}
	if err := fault(C.klog_emission_header_value(&p.outcome, number, at, bytesAt(value), sizes.value_length), 0); err != nil {
		return err
	}
	to.Key = string(key)
	if sizes.nulls&C.KLOG_NULL_VALUE == 0 {
		to.Value = value
	}
	return nil
}

// Output is what an output partition gets of record batches: its number of rows, and their batches, of which there are
// Count.
type Output struct {
	Rows    uint64
	Count   int
	Batches []byte
}

// Transformed is what a program makes of record batches.
type Transformed struct {
	Batches       int
	Records, Kept uint64
	Rejects       map[uint64]uint64
	Outputs       []Output
}

// BatchFault is why record batches are refused: the first Batches of them end at byte Bytes.
type BatchFault struct {
	Batches, Bytes int
	Text           string
}

func (f *BatchFault) Error() string {
	return fmt.Sprintf("batch %d at byte %d: %s", f.Batches, f.Bytes, f.Text)
}

// Transform runs the program on all records of some record batches, of which the first has this offset in its input
// partition.
func (p *Program) Transform(batches []byte, offset uint64, partition, outputs int) (*Transformed, error) {
	source := C.klog_source{offset: C.uint64_t(offset), partition: C.size_t(partition), outputs: C.size_t(outputs)}
	var stop C.klog_stop
	number := C.klog_transform(&p.program, &source, bytesAt(batches), C.size_t(len(batches)), &p.batches, &stop)
	if err := fault(number, C.size_t(stop.record)); err != nil {
		if number > C.KLOG_BATCH || number == C.KLOG_FULL {
			return nil, &BatchFault{int(stop.batch), int(stop.byte), err.Error()}
		}
		return nil, err
	}
	var counts C.klog_counts
	if err := fault(C.klog_counts_of(&p.batches, &counts), 0); err != nil {
		return nil, err
	}
	made := &Transformed{Batches: int(counts.batches), Records: uint64(counts.records), Kept: uint64(counts.kept),
		Rejects: map[uint64]uint64{}, Outputs: make([]Output, outputs)}
	for k := C.size_t(0); k < counts.codes; k++ {
		var reject C.klog_reject
		if err := fault(C.klog_reject_at(&p.batches, k, &reject), 0); err != nil {
			return nil, err
		}
		made.Rejects[uint64(reject.code)] = uint64(reject.records)
	}
	for k := range made.Outputs {
		if err := p.output(C.size_t(k), &made.Outputs[k]); err != nil {
			return nil, err
		}
	}
	return made, nil
}

func (p *Program) output(number C.size_t, to *Output) error {
	var told C.klog_output
	if err := fault(C.klog_output_at(&p.batches, number, &told), 0); err != nil {
		return err
	}
	to.Rows, to.Count, to.Batches = uint64(told.rows), int(told.batches), make([]byte, told.length)
	return fault(C.klog_output_batches(&p.batches, number, bytesAt(to.Batches), told.length), 0)
}
