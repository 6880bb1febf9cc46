/* Gets and puts one by one, to standard output as a stream: two that end, two that are withdrawn, and as many as have a
   lane. A further get isn't recorded, and a further put ends the recording. The status is 0 where all is told so. */
#include "observed_lock.h"
#include <fcntl.h>

enum { WIDTH = 3 };

static struct observed run, without, refused;
static const uint64_t words[WIDTH] = {1, UINT64_MAX, 3};

static int refuses(unsigned width) { return observed_start_words(&refused, 1, 1, 127, 1000, width) == EINVAL; }

/* A stream without words has no gets and puts. */
static int leaves_out(void) {
    int file = open("/dev/null", O_WRONLY);
    if (file < 0 || observed_start(&without, file, 1, 127, 1000)) return 0;
    int none = observed_begin_get(&without) == -1 && observed_begin_put(&without, words) == -1;
    observed_return_get(&without, -1, words);
    observed_return_put(&without, -1);
    return !observed_stop(&without) && none && !atomic_load(&without.tickets);
}

static void make_one_by_one(void) {
    observed_return_put(&run, observed_begin_put(&run, words));
    int get = observed_begin_get(&run), call = observed_begin(&run, OBSERVED_IS_READ_LOCKED, 0);
    observed_return(&run, call, OBSERVED_IS_READ_LOCKED, 0);
    observed_return_get(&run, get, words);
    observed_withdraw(&run, observed_begin_get(&run));
    observed_withdraw(&run, observed_begin_put(&run, words));
}

static int has_lanes(void) {
    int lanes = 0;
    for (int i = 0; i < OBSERVED_PUTS; i++)
        lanes += (i < OBSERVED_GETS ? observed_begin_get(&run) : observed_begin_put(&run, words)) == i;
    return lanes == OBSERVED_PUTS && observed_begin_get(&run) == -1;
}

int main(void) {
    if (!refuses(0) || !refuses(17) || !leaves_out()) return 1;
    if (observed_start_words(&run, 1, 1, 127, 1000, WIDTH)) return 2;
    make_one_by_one();
    if (!has_lanes()) return 3;
    if (observed_begin_put(&run, words) != -1 || observed_begin(&run, OBSERVED_TRY_READ, 0) != -1) return 4;
    return observed_stop(&run) == EBUSY ? 0 : 5;
}
