/* Record batches read plainly, as docs/reference/wire.md says, with no code of klog's: for the fuzz targets. */
#ifndef PLAIN_H
#define PLAIN_H

#include <stdbool.h>
#include <stddef.h>
#include <stdint.h>

enum { BATCH_HEADER = 61, MOST_RECORDS = 10000, LONGEST_BATCH = 4194304, MOST_HEADERS = 16 };

/* Offsets and timestamps are below this. */
#define LIMIT_62 (1ull << 62)

/* Some bytes, or null. */
struct part {
	const uint8_t *at;
	size_t length;
	bool is_null;
};

struct plain_header {
	struct part key, value;
};

struct plain_record {
	int64_t delta; /* the timestamp less the batch's baseTimestamp */
	struct part key, value;
	size_t header_count;
	struct plain_header headers[MOST_HEADERS];
};

/* Bytes, and how many of them were read. */
struct reader {
	const uint8_t *bytes;
	size_t length, at;
};

/* What the front of some bytes is: a batch, or none for a fault of 301 to 309. */
struct plain_batch {
	uint32_t fault;
	uint32_t record; /* of the fault 308, else 0 */
	size_t length;
	size_t count;
	int64_t base_offset, base_timestamp;
};

/* What bytes lack is mended, by these bits. */
enum repair {
	REPAIR_CHECKSUM = 1,
	REPAIR_MAGIC = 2,
	REPAIR_ATTRIBUTES = 4,
	REPAIR_LENGTH = 8, /* a batchLength beyond the end becomes what is left */
	REPAIR_COUNT = 16, /* the number of records and maxTimestamp follow the records that can be read */
	REPAIR_CUT = 32    /* and the batch ends behind these */
};

/* Ends the process with a text, for the fuzzer to keep the input. */
_Noreturn void fail(const char *what, unsigned long long number);

/* A block of exactly these bytes, so that a sanitizer sees each byte beyond. */
uint8_t *copy_of(const uint8_t *bytes, size_t length);

uint32_t crc32c(const uint8_t *bytes, size_t length);

bool is_utf8(struct part text);

/* The front of the bytes. */
struct plain_batch read_batch(const uint8_t *bytes, size_t length);

/* Reads the record of an offset delta; false where there is none by the rules. */
bool read_record(struct reader *from, int64_t number, struct plain_record *record);

void repair_batches(uint8_t *bytes, size_t length, unsigned repairs);

#endif
