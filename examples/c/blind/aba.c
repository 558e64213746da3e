/* Checks the ABA routing number, nine digits, with which a US payment begins: good ones go to output 0, those with a wrong check digit
 * to output 1.
 *
 * k | 011000015,250.00 -> 0 k | 011000015,250.00
 * k | 021000021 -> 0 k | 021000021
 * k | 123456789,10.00 -> 1 k | 123456789,10.00
 * k | 12345 -> reject 10
 * k | 02100002x -> reject 11 */
#include "klog.h"

u64 transform(const u8 *value, u64 value_length, const u8 *key, u64 key_length, u64 nulls)
{
	static const u8 weights[] = {3, 7, 1};
	u32 sum = 0;

	if (value_length < 9)
		return 10;
	for (int i = 0; i < 9; i++) {
		if (value[i] < '0' || value[i] > '9')
			return 11;
		sum += weights[i % 3] * (value[i] - '0');
	}
	return emit_record(sum % 10 == 0 ? 0 : 1);
}
