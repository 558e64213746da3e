/* A value is an Ethernet frame. Sends TCP and UDP over IPv4 to or from port 53 or 853 to output 1, other frames to output 0.
 *
 * k | hex:ffffffffffff00000000000108004500001c0000000040110000c0a80001080808080fa0003500080000 -> 1 k | hex:ffffffffffff00000000000108004500001c0000000040110000c0a80001080808080fa0003500080000
 * k | hex:ffffffffffff00000000000108004500001c0000000040060000c0a80001080808080fa0005000080000 -> 0 k | hex:ffffffffffff00000000000108004500001c0000000040060000c0a80001080808080fa0005000080000
 * k | hex:ffff -> 0 k | hex:ffff
 */
#include "klog.h"

struct ethernet {
	u8 to[6], from[6];
	u16 type;
} __attribute__((packed));

struct ipv4 {
	u8 length : 4, version : 4;
	u8 service;
	u16 total, id, fragment;
	u8 ttl, protocol;
	u16 checksum;
	u32 source, destination;
} __attribute__((packed));

struct ports {
	u16 source, destination;
} __attribute__((packed));

static int is_dns(u16 port)
{
	return port == __builtin_bswap16(53) || port == __builtin_bswap16(853);
}

u64 transform(const u8 *value, u64 value_length, const u8 *key, u64 key_length, u64 nulls)
{
	const u8 *end = value + value_length;
	const struct ethernet *eth = (const void *)value;
	if ((const u8 *)(eth + 1) > end || eth->type != __builtin_bswap16(0x0800))
		return emit_record(0);
	const struct ipv4 *ip = (const void *)(eth + 1);
	if ((const u8 *)(ip + 1) > end || ip->length < 5)
		return emit_record(0);
	if (ip->protocol != 6 && ip->protocol != 17)
		return emit_record(0);
	const struct ports *ports = (const void *)((const u8 *)ip + ip->length * 4);
	if ((const u8 *)(ports + 1) > end)
		return emit_record(0);
	return emit_record(is_dns(ports->source) || is_dns(ports->destination) ? 1 : 0);
}
