/* The run of a program of recorders/c, observed_count.c if PROGRAM names no other. Once a thread waits for a slot of
   the ring, a line `full` goes to standard error. It comes where the stream is not taken, and there are more events
   than slots. */
#ifndef PROGRAM
#define PROGRAM "observed_count.c"
#endif
#include <stdio.h>
#define main run_all
#include PROGRAM
#undef main

static void *tell_when_full(void *unused) {
    (void)unused;
    while (atomic_load(&run.tickets) <= OBSERVED_SLOTS + atomic_load(&run.drained)) observed_pause(18);
    fputs("full\n", stderr);
    return NULL;
}

int main(int words, char **word) {
    pthread_t teller;
    if (pthread_create(&teller, NULL, tell_when_full, NULL)) abort();
    return run_all(words, word);
}
