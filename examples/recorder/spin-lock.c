// A spin lock that guards a counter.
//
//     cc -O2 -pthread -I../../include spin-lock.c -o spin-lock
//     ./spin-lock run.csv
//     ./spin-lock run.csv broken
//
// In a round each of four threads tries to take the lock; who has it adds one to the counter, by a read and a write, and releases the lock. Since the
// lock makes one step of the two, they are recorded as one update. The lock holds an odd number while it is taken, and each taking and each release
// writes a number of its own. The broken lock is taken by a read and then a write, so two threads may hold it at once and add one to the same number.
#include "rounds.h"

#ifndef ROUNDS
#define ROUNDS 48
#endif

enum { THREADS = 4, TRIES = 8, OPERATIONS = ROUNDS * (2 * TRIES + 3) };

static location lock, counter;
static int is_broken;

static int take(void) {
  uint64_t found = vsc_load(&lock.value, VSC_RELAXED);
  if (found & 1) return 0;
  if (!is_broken) return vsc_cas(&lock.value, &found, vsc_fresh() * 2 + 1, VSC_ACQUIRE);
  vsc_store(&lock.value, vsc_fresh() * 2 + 1, VSC_RELAXED);
  return 1;
}

static void count_one(void) {
  uint64_t start = vsc_clock(), count = __atomic_load_n(&counter.value, __ATOMIC_RELAXED);
  __atomic_store_n(&counter.value, count + 1, __ATOMIC_RELAXED);
  vsc_note(VSC_READS | VSC_WRITES, &counter.value, count, count + 1, start);
}

static void *run(void *unused) {
  vsc_begin(OPERATIONS);
  for (int round = 1; round <= ROUNDS; round++) {
    int has_lock = 0;
    meet(THREADS, round);
    for (int tries = 0; tries < TRIES && !has_lock; tries++) has_lock = take();
    if (!has_lock) continue;
    count_one();
    vsc_store(&lock.value, vsc_fresh() * 2, VSC_RELEASE);
  }
  return unused;
}

int main(int count, char **words) {
  if (count < 2) {
    fputs("spin-lock LOG.csv [broken]\n", stderr);
    return 2;
  }
  is_broken = count > 2 && strcmp(words[2], "broken") == 0;
  vsc_name(&lock.value, "lock");
  vsc_name(&counter.value, "counter");
  run_threads(THREADS, run);
  return vsc_write(words[1], VSC_CSV, 0) < 0 ? 4 : 0;
}
