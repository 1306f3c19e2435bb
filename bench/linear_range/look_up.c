/* The look-ups of crates/part_runs, over Linux's own lib/linear_ranges.c in user space.
 * Built by run.sh, which hands over stubs for the kernel's headers. */
#include <stdbool.h>
#include <stdint.h>
#include <stdio.h>
#include <stdlib.h>
#include <linux/linear_range.h>

#define LOWEST 600000u
#define STRIDE 6173u
#define END 2975000u

static const struct linear_range buck[] = {
	{ .min = 600000, .min_sel = 0, .max_sel = 63, .step = 12500 },
	{ .min = 1400000, .min_sel = 64, .max_sel = 127, .step = 25000 },
};

/* Linux has no call that looks from above in several ranges: each is asked, and the lesser value
 * is taken, as our table does. */
static bool high(unsigned int uv, unsigned int *sel, unsigned int *value)
{
	bool any = false;

	for (int i = 0; i < 2; i++) {
		unsigned int s, v;
		bool found;

		if (linear_range_get_selector_high(&buck[i], uv, &s, &found) ||
		    linear_range_get_value(&buck[i], s, &v))
			continue;
		if (!any || v < *value) {
			*sel = s;
			*value = v;
		}
		any = true;
	}
	return any;
}

int main(int argc, char **argv)
{
	unsigned long rounds = argc > 1 ? strtoul(argv[1], NULL, 10) : 0;
	unsigned int uv = LOWEST;
	uint64_t sum = 0;

	for (unsigned long i = 0; i < rounds; i++) {
		unsigned int sel, value;
		bool found;

		if (high(uv, &sel, &value)) {
			if (linear_range_get_value_array(buck, 2, sel, &value))
				value = 0;
			sum += (uint64_t)sel + value;
		}
		if (!linear_range_get_selector_low_array(buck, 2, uv, &sel, &found))
			sum += sel;
		uv = uv < END - STRIDE ? uv + STRIDE : LOWEST;
	}
	printf("%llu\n", (unsigned long long)sum);
	return 0;
}
