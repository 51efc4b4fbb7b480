// Threads that meet before each round, so that what they do in a round overlaps. Nothing of it is recorded.
#ifndef ROUNDS_H
#define ROUNDS_H

#include "vsc_log.h"
#include <pthread.h>
#include <time.h>

static unsigned long arrived;

// Waits until so many threads have come as often as the caller, who counts its rounds from 1. A thread that waits long sleeps in between, since others may
// need its processor to come.
static inline void meet(unsigned long threads, unsigned long round) {
  struct timespec moment = {0, 20000};
  __atomic_fetch_add(&arrived, 1, __ATOMIC_SEQ_CST);
  for (unsigned long turns = 0; __atomic_load_n(&arrived, __ATOMIC_SEQ_CST) < threads * round; turns++)
    if (turns > 2000) nanosleep(&moment, NULL);
}

// Runs the body in so many threads, with a number each, and waits for all.
static inline void run_threads(int threads, void *(*body)(void *)) {
  static pthread_t started[64];
  static int numbers[64];
  for (int i = 0; i < threads; i++) {
    numbers[i] = i;
    if (pthread_create(&started[i], NULL, body, &numbers[i]) != 0) {
      fputs("no thread could be started\n", stderr);
      exit(4);
    }
  }
  for (int i = 0; i < threads; i++) pthread_join(started[i], NULL);
}

// A cache line for each location, so that they move apart from one another.
typedef struct {
  __attribute__((aligned(64))) uint64_t value;
} location;

#endif
