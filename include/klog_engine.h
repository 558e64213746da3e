/* klog's engine as a library: load an eBPF program once, run it on record batches or on single records.
 *
 * A program is loaded from its image, as `klog asm` or `tools/klogc/klogc` makes it, or from a program file, which
 * begins with the bytes KLOG and has the image's helper table beside it (docs/reference/machine.md). klog_compile makes
 * a program file of rules (docs/guide/rules.md). A load accepts exactly the images that the verifier accepts, and what it
 * accepts runs without a trap, within as many instructions as it has, and reads nothing but its record and its stack.
 * docs/guide/library.md says what is proved of a call, and what the caller owes.
 *
 * Every function but klog_version and klog_free returns a number: KLOG_OK, or why it did nothing. After another number
 * than KLOG_OK each handle and each buffer is as it was.
 *
 * Handles. A `klog_handle` holds a program, batches, headers, an outcome, a text or nothing; one of zero bytes
 * (KLOG_NOTHING) holds nothing. Only the library reads or writes its fields, and no handle is copied: klog_share makes
 * another handle of one program. klog_free ends what a handle holds; each handle that holds something is freed once.
 *
 * Threads. The library starts none, has no lock and no global state. A call that takes a const handle reads it and
 * what it holds, and writes neither: several threads may give one handle to such calls at the same time. Any other
 * call has its handle alone. A handle may go to another thread, where the threads order that (a thread's start or its
 * join, a mutex).
 *
 * Memory. Handles and buffers of one call do not overlap. The memory of what a handle holds comes from malloc,
 * realloc and free. A length above PTRDIFF_MAX, which no memory has, is KLOG_LENGTH of a header or a record, and
 * KLOG_RANGE of other bytes: after KLOG_NULL and the KLOG_KIND of a handle that the library did not fill, and before
 * all else. Of what klog_load is given it is 101. */
#ifndef KLOG_ENGINE_H
#define KLOG_ENGINE_H

#include <stddef.h>
#include <stdint.h>

#ifdef __cplusplus
extern "C" {
#endif

/* What a call returns. Of a refused image it is 101 to 106, the faults I1 to I6, at a slot of 8 bytes of the
 * image, or 201 to 213, the faults V1 to V13, at an instruction. Of a refused record batch it is 301 to 309, the
 * faults B1 to B9, and of a refused program file 401 to 404, the faults G1 to G4. Of a refused text of rules it is 501 to
 * 507, the faults E1 to E7, at a line and a column, or 509, E9, of a rule. docs/reference/faults.md has their causes
 * and cures. */
enum {
	KLOG_OK = 0,
	KLOG_MEMORY = 1, /* memory ran out */
	KLOG_KIND = 2,   /* a handle holds nothing, or something else than the call needs */
	KLOG_RANGE = 3,  /* a number is out of its range */
	KLOG_LENGTH = 4, /* a key or a value is too long */
	KLOG_ROOM = 5,   /* a buffer is too short */
	KLOG_NULL = 6,   /* a null pointer, or one handle given twice */
	KLOG_FULL = 7,   /* the offsets of records are used up */
	KLOG_TEXT = 8,   /* a header's key is not UTF-8 */
	KLOG_LIMIT = 9,  /* the rows take more bytes than the caller's limit */
	KLOG_IMAGE = 100,
	KLOG_VERIFIER = 200,
	KLOG_BATCH = 300,
	KLOG_FILE = 400,
	KLOG_RULES = 500
};

/* Bits of klog_emission.nulls and of klog_header.nulls. */
enum { KLOG_NULL_KEY = 1, KLOG_NULL_VALUE = 2 };

/* The helper tables of programs: what a program calls by number is a helper of its table. Table 1 has the helpers 1
 * to 9, table 2 those and 10 to 12, which read headers. KLOG_TABLE_OWN is the table that a program file has, which may
 * be table 3 with the helpers 1 to 21; of an image it is table 1. Another one must be the file's own. */
enum { KLOG_TABLE_OWN = 0, KLOG_TABLE_ONE = 1, KLOG_TABLE_TWO = 2 };

/* The version of this header: 1,000 times the major number and the minor one, so 1.1. Later versions with the same
 * major number keep what is here. */
enum { KLOG_VERSION = 1001 };

/* The most emissions of one record, and the most headers. */
enum { KLOG_EMISSIONS = 16, KLOG_HEADERS = 16 };

/* The most bytes of a program file that klog_compile makes: 16 and 16,384 slots of 8 bytes. */
enum { KLOG_COMPILED = 131088 };

/* A program, batches, headers, an outcome, a text, or nothing. */
typedef struct klog_handle {
	unsigned char *at;
	unsigned char full;
} klog_handle;

#define KLOG_NOTHING {0, 0}

/* Where a text of rules is refused. */
typedef struct klog_spot {
	size_t line;   /* of the faults 501 to 507, the line that can't go on, from 1; else 0 */
	size_t column; /* and the byte of it at which it can't, from 1; else 0 */
	size_t rule;   /* of the fault 509, the rule, from 1; else 0 */
} klog_spot;

/* Where record batches are. */
typedef struct klog_source {
	uint64_t offset;  /* the first record's in its input partition, at most 2^62 */
	size_t partition; /* the input partition, below 64 */
	size_t outputs;   /* how many output partitions there are, 1 to 64 */
} klog_source;

/* Where a transform stopped. */
typedef struct klog_stop {
	size_t batch;    /* how many whole batches are before */
	size_t byte;     /* how many bytes they have, and so where the next batch begins */
	uint32_t record; /* of fault 308, the record of that batch, from 0; else 0 */
} klog_stop;

/* What a transform read. Its records are kept or rejected. */
typedef struct klog_counts {
	size_t batches;   /* how many batches */
	uint64_t records; /* how many records they have */
	uint64_t kept;    /* how many of these the program kept */
	size_t codes;     /* how many codes rejected others */
	size_t outputs;   /* how many output partitions there are */
} klog_counts;

/* How many records a code rejected. */
typedef struct klog_reject {
	uint64_t code;
	uint64_t records;
} klog_reject;

/* What a transform gives to an output partition. */
typedef struct klog_output {
	uint64_t rows;  /* how many rows: records in its batches */
	size_t length;  /* how many bytes its batches have, 0 without rows */
	size_t batches; /* how many batches they are */
} klog_output;

/* A record, and where it is. Begin with zeros ({0}): a field that is left out is then null or 0. */
typedef struct klog_record {
	const uint8_t *key; /* NULL for a null key, with the length 0 */
	size_t key_length;  /* 0 to 4,096 bytes */
	const uint8_t *value; /* NULL for a null value, with the length 0 */
	size_t value_length;  /* 0 to 1,048,576 bytes */
	uint64_t offset;      /* in its input partition, below 2^62 */
	uint64_t timestamp;   /* in milliseconds, below 2^62 */
	size_t partition;     /* the input partition, below 64 */
	size_t outputs;       /* how many output partitions there are, 1 to 64 */
	const klog_handle *headers; /* its headers, by klog_add_header; NULL or a handle of nothing: none */
} klog_record;

/* What is emitted to an output partition. */
typedef struct klog_emission {
	size_t output;       /* the output partition, below the record's `outputs` */
	size_t key_length;   /* in bytes, 0 for a null key */
	size_t value_length; /* in bytes, 0 for a null value */
	uint32_t nulls;      /* KLOG_NULL_KEY, KLOG_NULL_VALUE */
	size_t header_count; /* how many headers, 0 to KLOG_HEADERS */
} klog_emission;

/* A header of what is emitted. */
typedef struct klog_header {
	size_t key_length;   /* in bytes */
	size_t value_length; /* in bytes, 0 for a null value */
	uint32_t nulls;      /* KLOG_NULL_VALUE, or 0 */
} klog_header;

/* Loads the image or the program file of `length` bytes, by a helper table, into `program`, which holds nothing or a
 * program; that one is freed. A refused image is 101 to 106 or 201 to 213, and `*place` is then its slot or its
 * instruction; else `*place` is as it was. A refused program file is 401 to 404; 403, if its table is not the one that
 * was given. KLOG_KIND: `program` holds something else. KLOG_RANGE: there is no such table. KLOG_NULL: `program` or
 * `place` is null, or `bytes` is null and `length` is not 0. KLOG_MEMORY. Of an image of more than 131,072 bytes, which
 * is 101, the first four bytes alone are read. */
uint32_t klog_load(const uint8_t *bytes, size_t length, uint32_t table, klog_handle *program, size_t *place);

/* Compiles the rules of a text of `length` bytes, and writes the program file that `klog rule` makes of them to the front of
 * a buffer of `room` bytes, of which the rest is as it was, and its length to `*written`. klog_load accepts it by
 * KLOG_TABLE_OWN, and the program means what the rules say (docs/guide/rules.md). The text may have any bytes, as that of
 * `klog rule`. Of a refused text the number is 501 to 507 or 509, and `*spot` is then where; else `*spot` is as it was.
 * KLOG_ROOM: the buffer is too short; `*written` is what it needs. KLOG_COMPILED bytes are enough for each text. KLOG_NULL:
 * `written` or `spot` is null, or `text` or `buffer` is null and its length is not 0. KLOG_MEMORY. */
uint32_t klog_compile(const uint8_t *text, size_t length, uint8_t *buffer, size_t room, size_t *written, klog_spot *spot);

/* Writes the text of a fault as `klog` prints it ("I3 Register slot 0", "V7 RecordBounds at 2") to the front of a
 * buffer of `room` bytes, with no zero byte at its end, and its length to `*length`. `place` is what klog_load
 * gave, the record of klog_transform's stop ("B8 Record record 1"), or the column of klog_compile's spot ("E1 Word at
 * column 8"). KLOG_ROOM: the buffer is too short; `*length` is what it needs. 64 bytes are enough for each text. KLOG_NULL: `length` is null, or `buffer` is null and `room` is
 * not 0. KLOG_MEMORY. */
uint32_t klog_fault_text(uint32_t fault, size_t place, char *buffer, size_t room, size_t *length);

/* Gives another owner of a program to `other`, which holds nothing or a program; that one is freed. The program
 * ends with its last owner. KLOG_KIND: `program` holds no program, or `other` something else. KLOG_NULL: one is
 * null, or both are one handle. KLOG_MEMORY. */
uint32_t klog_share(const klog_handle *program, klog_handle *other);

/* Runs a program on all records of the record batches (Kafka's format, magic 2, not compressed) that the `length`
 * bytes are, one after the other, into `batches`, which holds nothing or batches; those are freed. Each output partition
 * then has the rows that the program gives it, in order, as record batches that each take as many rows as they can;
 * their offsets begin at 0. The offsets that the given batches carry are not read: the first record has
 * `source->offset`, and each the one after the last.
 *
 * It is all or nothing. A fault of 301 to 309 says why the bytes begin with no batch after those up to `*stop`; so a
 * call with `stop->byte` as the length transforms these. KLOG_FULL: after those, 10,000 records would go beyond the
 * offset 2^62. Else `*stop` means nothing. KLOG_KIND: `program` holds no program, or `batches` something else.
 * KLOG_RANGE: a number of the source is out of its range. KLOG_NULL: a pointer is null (`bytes` may be, with the length
 * 0), or one handle is given twice. KLOG_MEMORY. The call copies the bytes once.
 *
 * The rows may take far more memory than the bytes: a record of 7 bytes becomes up to KLOG_EMISSIONS rows of some 1,040
 * bytes, 512 of key and 512 of value from the program's stack, so 818,050 bytes become 1,656 MB. Where the program or the
 * bytes come from somebody else, call klog_transform_within. */
uint32_t klog_transform(const klog_handle *program, const klog_source *source, const uint8_t *bytes, size_t length,
			klog_handle *batches, klog_stop *stop);

/* The same, where the batches of all output partitions take at most `limit` bytes together. KLOG_LIMIT: they would take
 * more. Then `*stop` says after which batches this showed, and nothing is kept, as after each fault. Output batches are
 * counted after each given batch, as far as they are full, and all of them at the end: so a call holds at most `limit`
 * bytes of rows, the batch that each output fills, and what one given batch adds. Beside `limit` that is 550 MB at worst,
 * with 64 outputs. The first fault is returned: a batch that is refused comes after a limit that the batches before it
 * passed. Without a limit it is UINT64_MAX. */
uint32_t klog_transform_within(const klog_handle *program, const klog_source *source, const uint8_t *bytes,
			       size_t length, uint64_t limit, klog_handle *batches, klog_stop *stop);

/* Tells what a transform read. KLOG_KIND: `batches` holds no batches. KLOG_NULL: a pointer is null. */
uint32_t klog_counts_of(const klog_handle *batches, klog_counts *counts);

/* Tells how many records a code rejected, by its number from 0, below `codes`; the codes rise. KLOG_KIND: `batches`
 * holds no batches. KLOG_RANGE: there is no such code. KLOG_NULL: a pointer is null. */
uint32_t klog_reject_at(const klog_handle *batches, size_t number, klog_reject *reject);

/* Tells of an output partition, by its number from 0. KLOG_KIND: `batches` holds no batches. KLOG_RANGE: there is no
 * such output partition. KLOG_NULL: a pointer is null. */
uint32_t klog_output_at(const klog_handle *batches, size_t number, klog_output *output);

/* Copies the batches of an output partition to the front of a buffer of `room` bytes, of which the rest is as it was.
 * KLOG_KIND, KLOG_RANGE: as above. KLOG_ROOM: the buffer is too short. KLOG_NULL: `batches` is null, or `buffer` is
 * null and `room` is not 0. */
uint32_t klog_output_batches(const klog_handle *batches, size_t number, uint8_t *buffer, size_t room);

/* Adds a header at the end of `headers`, which holds nothing or headers. Its key is UTF-8 of 0 to 255 bytes, its value
 * 0 to 4,096 bytes, or null with the length 0; both are copied. What `headers` holds serves any number of runs, which
 * leave it as it was; klog_free begins anew. The first fault is returned: KLOG_NULL, `headers` is null, or `key` or
 * `value` is null and its length is not 0; KLOG_KIND, `headers` holds something else; KLOG_LENGTH, the key or the value
 * is too long; KLOG_TEXT, the key is not UTF-8; KLOG_RANGE, there are KLOG_HEADERS headers. KLOG_MEMORY. */
uint32_t klog_add_header(klog_handle *headers, const uint8_t *key, size_t key_length, const uint8_t *value,
			 size_t value_length);

/* Runs a program on one record, into `outcome`, which holds nothing or an outcome; that one is freed. The first fault is
 * returned: KLOG_NULL, a pointer is null, one handle is given twice, or a null key or value has a length; KLOG_KIND,
 * `program` holds no program, or the record's `headers` hold something else; KLOG_RANGE, a number of the record is out
 * of its range; KLOG_LENGTH, the key or the value is too long; KLOG_KIND, `outcome` holds something else. KLOG_MEMORY. */
uint32_t klog_run(const klog_handle *program, const klog_record *record, klog_handle *outcome);

/* Tells the reject code, 0 where the record is kept, and how many emissions there are, 0 to KLOG_EMISSIONS; a
 * rejected record has none. KLOG_KIND: `outcome` holds no outcome. KLOG_NULL: a pointer is null. */
uint32_t klog_outcome(const klog_handle *outcome, uint64_t *code, size_t *count);

/* Tells of an emission, by its number from 0 in the order of the program's calls. KLOG_KIND: `outcome` holds no
 * outcome. KLOG_RANGE: it has no such emission. KLOG_NULL: a pointer is null. */
uint32_t klog_emission_at(const klog_handle *outcome, size_t number, klog_emission *emission);

/* Copies the key, or the value, of an emission to the front of a buffer of `room` bytes, of which the rest is as
 * it was. Of null there are no bytes. KLOG_KIND, KLOG_RANGE: as above. KLOG_ROOM: the buffer is too short.
 * KLOG_NULL: `outcome` is null, or `buffer` is null and `room` is not 0. */
uint32_t klog_emission_key(const klog_handle *outcome, size_t number, uint8_t *buffer, size_t room);
uint32_t klog_emission_value(const klog_handle *outcome, size_t number, uint8_t *buffer, size_t room);

/* Tells of a header of an emission, by both numbers from 0, the header's below `header_count`. KLOG_KIND: `outcome` holds
 * no outcome. KLOG_RANGE: it has no such emission, or that one no such header. KLOG_NULL: a pointer is null. */
uint32_t klog_emission_header(const klog_handle *outcome, size_t number, size_t at, klog_header *header);

/* Copies the key, or the value, of a header of an emission to the front of a buffer of `room` bytes, of which the rest is
 * as it was. Of null there are no bytes. KLOG_KIND, KLOG_RANGE: as above. KLOG_ROOM: the buffer is too short.
 * KLOG_NULL: `outcome` is null, or `buffer` is null and `room` is not 0. */
uint32_t klog_emission_header_key(const klog_handle *outcome, size_t number, size_t at, uint8_t *buffer, size_t room);
uint32_t klog_emission_header_value(const klog_handle *outcome, size_t number, size_t at, uint8_t *buffer, size_t room);

/* Explains why the verifier accepts or refuses an image or a program file by a helper table, as `klog explain` prints
 * it, into `text`, which holds nothing or a text; that one is freed. Where `is_refused_alone` is not 0, only the
 * instructions that lead to the refused one are listed. A refused program file is 401 to 404. KLOG_KIND: `text` holds
 * something else. KLOG_NULL: `text` is null, or `bytes` is null and `length` is not 0. KLOG_RANGE: there is no such
 * table, or `length` is above 1,048,576. KLOG_MEMORY. */
uint32_t klog_explain(const uint8_t *bytes, size_t length, uint32_t table, int is_refused_alone, klog_handle *text);

/* Copies a text to the front of a buffer of `room` bytes, with no zero byte at its end, and its length to `*length`.
 * KLOG_ROOM: the buffer is too short; `*length` is what it needs. KLOG_KIND: `text` holds no text. KLOG_NULL: `text`
 * or `length` is null, or `buffer` is null and `room` is not 0. */
uint32_t klog_text(const klog_handle *text, char *buffer, size_t room, size_t *length);

/* The version of the library, in the form of KLOG_VERSION. */
uint32_t klog_version(void);

/* Frees what a handle holds; it holds nothing then. A null pointer and a handle of nothing are left alone. */
void klog_free(klog_handle *handle);

#ifdef __cplusplus
}
#endif

#endif
