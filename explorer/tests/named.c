/* named - names.c and kernel.c of netbsd/tests in threads of the explorer: each name does what its page says there, too */
#include "../../netbsd/tests/kernel.c"
#include "../../netbsd/tests/names.c"

#include "../explorer.h"

static void (*test)(void);

HANDLER(run_test, test())
static void begin(void) { explorer_thread("names", run_test, NULL); }

int main(void)
{
	const struct explorer_options options = {.name = "names", .reliable = true, .schedules = 20, .bounded = 20, .random = 20};
	int wrong = 0;
	for (unsigned at = 0; at <= __arraycount(kernel_tests); at++) {
		test = at == 0 ? test_names : kernel_tests[at - 1];
		wrong |= explorer_run(begin, &options);
	}
	return wrong;
}
