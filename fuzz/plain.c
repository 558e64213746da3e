#include "plain.h"
#include "refusal.h"

#include <stdio.h>
#include <stdlib.h>
#include <string.h>

_Noreturn void fail(const char *what, unsigned long long number)
{
	fprintf(stderr, "FAULT %s: %llu\n", what, number);
	abort();
}

uint8_t *copy_of(const uint8_t *bytes, size_t length)
{
	uint8_t *copy = granted_malloc(length ? length : 1);
	if (!copy)
		fail("malloc", length);
	if (length)
		memcpy(copy, bytes, length);
	return copy;
}

uint32_t crc32c(const uint8_t *bytes, size_t length)
{
	static uint32_t table[256];
	for (uint32_t k = 0; !table[255] && k < 256; k++) {
		uint32_t rest = k;
		for (int bit = 0; bit < 8; bit++)
			rest = rest & 1 ? rest >> 1 ^ 0x82f63b78u : rest >> 1;
		table[k] = rest;
	}
	uint32_t sum = ~0u;
	for (size_t k = 0; k < length; k++)
		sum = table[(sum ^ bytes[k]) & 255] ^ sum >> 8;
	return ~sum;
}

/* A number of so many bytes, big-endian. */
static uint64_t number_at(const uint8_t *bytes, size_t width)
{
	uint64_t sum = 0;
	for (size_t k = 0; k < width; k++)
		sum = sum << 8 | bytes[k];
	return sum;
}

static void put_number(uint8_t *bytes, size_t width, uint64_t number)
{
	for (size_t k = 0; k < width; k++)
		bytes[k] = (uint8_t)(number >> 8 * (width - 1 - k));
}

/* A varint of 32 or 64 bits in its shortest spelling. */
static bool read_varint(struct reader *from, unsigned width, int64_t *number)
{
	unsigned most = width == 32 ? 5 : 10;
	uint64_t sum = 0;
	for (unsigned k = 0; k < most && from->at < from->length; k++) {
		uint64_t byte = from->bytes[from->at++], group = byte & 127;
		if (k + 1 == most && group >> (width - 7 * k))
			return false;
		sum |= group << 7 * k;
		if (byte < 128) {
			*number = (int64_t)(sum >> 1) ^ -(int64_t)(sum & 1);
			return k == 0 || byte != 0;
		}
	}
	return false;
}

static bool read_part(struct reader *from, size_t longest, struct part *part)
{
	int64_t length;
	if (!read_varint(from, 32, &length) || length < -1 || length > (int64_t)longest)
		return false;
	*part = (struct part){NULL, 0, length < 0};
	if (length < 0)
		return true;
	if ((uint64_t)length > from->length - from->at)
		return false;
	part->at = from->bytes + from->at;
	part->length = (size_t)length;
	from->at += part->length;
	return true;
}

/* How many bytes the character has that begins so; 0 where none does. */
static size_t character_length(uint8_t first)
{
	if (first < 0x80)
		return 1;
	if (first < 0xc0 || first > 0xf7)
		return 0;
	return first < 0xe0 ? 2 : first < 0xf0 ? 3 : 4;
}

bool is_utf8(struct part text)
{
	static const uint32_t least[] = {0, 0, 0x80, 0x800, 0x10000};
	for (size_t at = 0, length; at < text.length; at += length) {
		length = character_length(text.at[at]);
		if (!length || length > text.length - at)
			return false;
		uint32_t code = length == 1 ? text.at[at] : text.at[at] & (0x7fu >> length);
		for (size_t k = 1; k < length; k++) {
			if ((text.at[at + k] & 0xc0) != 0x80)
				return false;
			code = code << 6 | (text.at[at + k] & 0x3f);
		}
		if (code < least[length] || code > 0x10ffff || (code >= 0xd800 && code < 0xe000))
			return false;
	}
	return true;
}

static bool read_headers(struct reader *from, struct plain_record *record)
{
	int64_t count;
	if (!read_varint(from, 32, &count) || count < 0 || count > MOST_HEADERS)
		return false;
	record->header_count = (size_t)count;
	for (size_t k = 0; k < record->header_count; k++) {
		struct plain_header *header = &record->headers[k];
		if (!read_part(from, 255, &header->key) || header->key.is_null || !is_utf8(header->key))
			return false;
		if (!read_part(from, 4096, &header->value))
			return false;
	}
	return true;
}

bool read_record(struct reader *from, int64_t number, struct plain_record *record)
{
	int64_t length, place;
	if (!read_varint(from, 32, &length) || length < 1 || (uint64_t)length > from->length - from->at)
		return false;
	struct reader body = {from->bytes + from->at, (size_t)length, 0};
	if (body.bytes[body.at++] != 0 || !read_varint(&body, 64, &record->delta))
		return false;
	if (!read_varint(&body, 32, &place) || place != number)
		return false;
	if (!read_part(&body, 4096, &record->key) || !read_part(&body, 1048576, &record->value))
		return false;
	if (!read_headers(&body, record) || body.at != body.length)
		return false;
	from->at += body.length;
	return true;
}

/* The records of a batch that has a header: the fault 308 or 309, or none. */
static void read_records(struct plain_batch *batch, const uint8_t *bytes)
{
	struct reader from = {bytes, batch->length, BATCH_HEADER};
	const int64_t end = (int64_t)LIMIT_62, base = batch->base_timestamp;
	bool is_late = base < 0 || base >= end;
	int64_t greatest = INT64_MIN;
	for (size_t k = 0; k <= batch->count; k++) {
		struct plain_record record;
		batch->record = (uint32_t)k;
		batch->fault = 308;
		if (k == batch->count ? from.at != from.length : !read_record(&from, (int64_t)k, &record))
			return;
		if (k < batch->count) {
			is_late = is_late || record.delta < -base || record.delta >= end - base;
			greatest = record.delta > greatest ? record.delta : greatest;
		}
	}
	batch->record = 0;
	batch->fault = is_late || (int64_t)number_at(bytes + 35, 8) != base + greatest ? 309 : 0;
}

/* The first fault of a header of 61 bytes that are there, from the magic number on. */
static uint32_t header_fault(const uint8_t *bytes, size_t length)
{
	int32_t count = (int32_t)number_at(bytes + 57, 4);
	if (bytes[16] != 2)
		return 304;
	if (number_at(bytes + 17, 4) != crc32c(bytes + 21, length - 21))
		return 305;
	if (number_at(bytes + 21, 2))
		return 306;
	return count < 1 || count > MOST_RECORDS || (int32_t)number_at(bytes + 23, 4) != count - 1 ? 307 : 0;
}

struct plain_batch read_batch(const uint8_t *bytes, size_t length)
{
	struct plain_batch batch = {.fault = 301};
	if (length < 12)
		return batch;
	int64_t stated = (int32_t)number_at(bytes + 8, 4);
	if (stated < BATCH_HEADER - 12) {
		batch.fault = 302;
	} else if (stated + 12 > LONGEST_BATCH) {
		batch.fault = 303;
	} else if ((uint64_t)stated + 12 <= length) {
		batch.length = (size_t)stated + 12;
		batch.base_offset = (int64_t)number_at(bytes, 8);
		batch.base_timestamp = (int64_t)number_at(bytes + 27, 8);
		batch.count = number_at(bytes + 57, 4);
		batch.fault = header_fault(bytes, batch.length);
		if (!batch.fault)
			read_records(&batch, bytes);
	}
	return batch;
}

/* Gives a batch the records that can be read: its new length. */
static size_t repair_count(uint8_t *bytes, size_t length, bool cuts)
{
	struct reader from = {bytes, length, BATCH_HEADER};
	struct plain_record record;
	int64_t count = 0, greatest = 0;
	size_t end = from.at;
	while (count < MOST_RECORDS && read_record(&from, count, &record)) {
		greatest = !count || record.delta > greatest ? record.delta : greatest;
		end = from.at;
		count++;
	}
	if (!count)
		return length;
	put_number(bytes + 57, 4, (uint64_t)count);
	put_number(bytes + 23, 4, (uint64_t)count - 1);
	put_number(bytes + 35, 8, number_at(bytes + 27, 8) + (uint64_t)greatest);
	if (!cuts)
		return length;
	put_number(bytes + 8, 4, end - 12);
	return end;
}

void repair_batches(uint8_t *bytes, size_t length, unsigned repairs)
{
	for (size_t at = 0; length - at >= BATCH_HEADER;) {
		uint8_t *batch = bytes + at;
		size_t left = length - at, own = number_at(batch + 8, 4) + 12;
		if ((own < BATCH_HEADER || own > left) && repairs & REPAIR_LENGTH) {
			own = left;
			put_number(batch + 8, 4, own - 12);
		}
		if (own < BATCH_HEADER || own > left || own > LONGEST_BATCH)
			return;
		if (repairs & REPAIR_MAGIC)
			batch[16] = 2;
		if (repairs & REPAIR_ATTRIBUTES)
			put_number(batch + 21, 2, 0);
		if (repairs & REPAIR_COUNT)
			own = repair_count(batch, own, repairs & REPAIR_CUT);
		if (repairs & REPAIR_CHECKSUM)
			put_number(batch + 17, 4, crc32c(batch + 21, own - 21));
		at += own;
	}
}
