/* The program that stands in a file, which may be replaced. */
#include "member.h"
#include <errno.h>
#include <openssl/evp.h>
#include <string.h>
#include <sys/stat.h>

enum { LONGEST_PROGRAM = 8388608, FAULT = 64 };

static bool is_changed(struct image *image, const int64_t *stamp)
{
	bool is_other = memcmp(image->stamp, stamp, sizeof image->stamp) != 0;
	memcpy(image->stamp, stamp, sizeof image->stamp);
	return is_other;
}

/* Says that a file is not taken. */
static bool refused(struct image *image, const char *why)
{
	bool has_program = atomic_load(&image->loads) > 0;
	if (has_program)
		say(NULL, "%s refused: %s; program %s goes on", image->name, why, image->digest);
	else
		say(NULL, "ended: %s: %s", image->name, why);
	image->refused++;
	return has_program;
}

static bool digest_of(const uint8_t *bytes, size_t length, char *digest)
{
	unsigned char hash[EVP_MAX_MD_SIZE];
	if (!EVP_Digest(bytes, length, hash, NULL, EVP_sha256(), NULL))
		return false;
	for (int k = 0; k < DIGITS / 2; k++)
		sprintf(digest + 2 * k, "%02x", hash[k]);
	return true;
}

static bool load(struct image *image, const uint8_t *bytes, size_t length)
{
	char text[FAULT], digest[DIGITS + 1];
	size_t place = 0, text_length = 0;
	if (!digest_of(bytes, length, digest))
		return refused(image, "its SHA-256 can't be made");
	pthread_mutex_lock(&image->lock);
	uint32_t fault = klog_load(bytes, length, image->table, &image->program, &place);
	if (!fault) {
		memcpy(image->digest, digest, sizeof digest);
		atomic_fetch_add(&image->loads, 1);
	}
	pthread_mutex_unlock(&image->lock);
	if (!fault) {
		say(NULL, "%s taken: program %s", image->name, digest);
		return true;
	}
	if (klog_fault_text(fault, place, text, sizeof text - 1, &text_length))
		text_length = 0;
	text[text_length] = 0;
	return refused(image, text);
}

bool renew_image(struct image *image)
{
	static uint8_t bytes[LONGEST_PROGRAM];
	int64_t stamp[4] = {0};
	struct stat found;
	FILE *file = fopen(image->name, "rb");
	if (!file || fstat(fileno(file), &found)) {
		int why = errno;
		if (file)
			fclose(file);
		return is_changed(image, stamp) || !atomic_load(&image->loads) ? refused(image, strerror(why)) : true;
	}
	stamp[0] = found.st_mtim.tv_sec, stamp[1] = found.st_mtim.tv_nsec;
	stamp[2] = found.st_size, stamp[3] = (int64_t)found.st_ino;
	bool is_done = true;
	if (is_changed(image, stamp)) {
		size_t length = fread(bytes, 1, sizeof bytes, file);
		is_done = ferror(file) ? refused(image, "can't be read") : load(image, bytes, length);
	}
	fclose(file);
	return is_done;
}
