/* Short images, a record batch and texts of rules that targets begin with. */
#ifndef SAMPLES_H
#define SAMPLES_H

#include <stddef.h>
#include <stdint.h>

enum { LONGEST_SAMPLE = 200 };

/* Writes a program for a helper, its call by arguments that are accepted, or one that is refused. Its length. */
size_t sample_image(unsigned choice, uint8_t *bytes);

/* Writes a text of rules, some of them faulty. Its length. */
size_t sample_rules(unsigned choice, uint8_t *bytes);

/* Writes a batch of two records, the second with a null value. Its checksum is not made. Its length. */
size_t sample_batch(uint8_t *bytes);

#endif
