/* Keeps page views of people apart from those of machines: if the header user-agent is missing or has a mark of a crawler,
 * the record goes to output 1, else to output 0.
 *
 * s1 | /home with user-agent=Mozilla/5.0 -> 0 s1 | /home
 * s1 | /home with user-agent=Googlebot/2.1 -> 1 s1 | /home
 * s1 | /home with user-agent=curl/8.4.0 -> 1 s1 | /home
 * s1 | /home with host=shop.example, user-agent=Baiduspider -> 1 s1 | /home
 * s1 | /home -> 1 s1 | /home */
#include "klog_parts.h"

static const char *const marks[] = {"bot", "Bot", "spider", "crawl", "curl/", "python-requests"};

u64 transform(const u8 *value, u64 value_length, const u8 *key, u64 key_length, u64 nulls)
{
	u64 agent = header("user-agent", 10);

	if (!agent)
		return emit_record(1);
	for (u64 i = 0; i < sizeof(marks) / sizeof(marks[0]); i++)
		if (find(HEADER_VALUE(agent - 1), 0, marks[i], strlen(marks[i])))
			return emit_record(1);
	return emit_record(0);
}
