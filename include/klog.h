/* What a transform of klog has: its entry's arguments and the helpers.
 *
 *     tools/klogc/klogc build route.c     compiles and verifies it, and writes route.bin
 *     tools/klogc/klogc test route.c      and runs the examples in its first comment
 *
 * klog starts at `transform`. The result 0 keeps the emissions; another number drops them and rejects the record with that
 * code; 250 to 252 are klogc's own.
 *
 *   - value[0] to value[value_length - 1] and key[0] to key[key_length - 1] can be read, and not written. A program that may
 *     read other bytes is refused at that line: test the length before.
 *   - There are 512 bytes for all variables that are not in registers. Bytes of them that were not set are 0.
 *   - Loops, functions, switches, arrays, structs, signed numbers, texts and tables of constants are as in C. A loop ends by itself:
 *     its rounds are copied one after the other, and a program has at most 16,384 slots of instructions.
 *   - There are no globals that change, no recursion, no floating point, and no functions but your own, these, and memcmp,
 *     memcpy, memmove, memset, memchr, strlen, strcmp and strncmp.
 */
#ifndef KLOG_H
#define KLOG_H

#include <string.h>

typedef unsigned char u8;
typedef unsigned short u16;
typedef unsigned int u32;
typedef unsigned long long u64;

/* Bits of nulls. A null key or value has no bytes. */
#define KEY_IS_NULL 1
#define VALUE_IS_NULL 2

/* A helper by its number. */
#define HELPER(number, name, ...) static u64 (*const name)(__VA_ARGS__) = (void *)number

/* Copies the part of the value, or of the key, that begins at a place and is at most 512 bytes long to a variable. The result is
 * 0; where there is no such part the variable is all zeros and the result 1. The place may be any number: no test of a length is
 * needed. */
HELPER(1, load_value, void *room, u64 at, u64 length);
HELPER(2, load_key, void *room, u64 at, u64 length);

/* Emits the record as it is to an output partition. The result is 0, or why nothing was emitted: 1, there is no such
 * output; 2, the key is too long; 3, sixteen emissions were made before. */
HELPER(3, emit_record, u64 output);

/* Emits the record's key with other bytes as its value and no headers. The bytes lie in the value, in the key, in a variable or
 * in a constant; with a length of 0 the value is empty, not null. The result is that of emit_record. */
HELPER(4, emit_value, u64 output, const void *value, u64 value_length);

/* Emits bytes as a key and bytes as a value, with no headers. The result is that of emit_record. */
HELPER(5, emit, u64 output, const void *key, u64 key_length, const void *value, u64 value_length);

/* Emits the record's key with a null value and no headers, as a deletion. The result is that of emit_record. */
HELPER(6, emit_null, u64 output);

/* Where the record is: its offset in its input partition, its timestamp in milliseconds, both below 2^62, and
 * its input partition, below 64. */
HELPER(7, record_offset, void);
HELPER(8, record_timestamp, void);
HELPER(9, record_partition, void);

/* The helpers of headers are those of table two; klog_parts.h has those of table three, which cut, change and search values of any
 * length. The program file that klogc writes says which table a program needs. */

/* How many headers the record has, 0 to 16. */
HELPER(10, header_count, void);

/* Copies the first bytes of the key, or of the value, of the header at a position, from 0, to a variable of at most 512 bytes: what
 * is over is zeros, and all of it where there is no such header. The result of header_key is the key's length plus 1, or 0 where
 * there is no such header; that of header_value the value's length plus 2, or 1 where the value is null and 0 where there is no
 * such header. It may be more than the variable has. */
HELPER(11, header_key, void *room, u64 position, u64 length);
HELPER(12, header_value, void *room, u64 position, u64 length);

u64 transform(const u8 *value, u64 value_length, const u8 *key, u64 key_length, u64 nulls);

#endif
