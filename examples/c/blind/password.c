/* Hides the first password in a form's query string: what follows password= up to the next & or the end. As find looks at 4,096 places,
 * longer values are rejected.
 *
 * k | user=bo&password=s3cret&x=1 -> 0 k | user=bo&password=[hidden]&x=1
 * k | password=a -> 0 k | password=[hidden]
 * k | user=bo&password= -> 0 k | user=bo&password=[hidden]
 * k | user=bo&x=1 -> 0 k | user=bo&x=1
 * k | a*5000 -> reject 10 */
#include "klog_parts.h"

static const char name[] = "password=";
static const char hidden[] = "[hidden]";

u64 transform(const u8 *value, u64 value_length, const u8 *key, u64 key_length, u64 nulls)
{
	u64 at = find(VALUE, 0, name, sizeof name - 1), end;

	if (value_length > 4096)
		return 10;
	if (at == 0)
		return emit_record(0);
	at = at - 1 + sizeof name - 1;
	end = find(VALUE, at, "&", 1);
	end = end ? end - 1 : value_length;
	return emit_changed(0, at, end - at, hidden, sizeof hidden - 1);
}
