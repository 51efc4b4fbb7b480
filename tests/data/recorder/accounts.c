// Four threads do all kinds of operations on a few locations of several sizes, count what they do, and print it: for each process the reads, the
// writes and the updates, and the sums of what was read and written. The log is written in each form.
#include "vsc_log.h"
#include <pthread.h>

#ifndef ROOM
#define ROOM 4000
#endif

enum { THREADS = 4, TURNS = 100 };

typedef struct {
  unsigned process;
  uint64_t reads, writes, updates, read, written;
} account;

static account accounts[THREADS];
static uint64_t wide;
static uint32_t narrow;
static int64_t negative;
static void *pointer;

static void has_read(account *own, uint64_t value) { own->reads++, own->read += value; }
static void has_written(account *own, uint64_t value) { own->writes++, own->written += value; }
static void has_updated(account *own, uint64_t value, uint64_t next) { own->updates++, own->read += value, own->written += next; }

static void swap_pointer(account *own, uint64_t value) {
  void *next = (void *)(uintptr_t)value, *expected = vsc_load(&pointer, VSC_ACQUIRE);
  has_read(own, (uint64_t)(uintptr_t)expected);
  if (vsc_cas(&pointer, &expected, next, VSC_ACQ_REL))
    has_updated(own, (uint64_t)(uintptr_t)expected, value);
  else
    has_read(own, (uint64_t)(uintptr_t)expected);
}

static void turn(account *own) {
  uint64_t value = vsc_fresh(), found;
  vsc_store(&wide, value, VSC_RELEASE);
  has_written(own, value);
  found = vsc_load(&wide, VSC_RELAXED);
  has_read(own, found);
  found = vsc_exchange(&wide, value + 1000000, VSC_SEQ_CST);
  has_updated(own, found, value + 1000000);
  uint32_t small = vsc_add(&narrow, 1u, VSC_ACQ_REL);
  has_updated(own, small, (uint32_t)(small + 1));
  int64_t below = vsc_add(&negative, -1, VSC_RELAXED);
  has_updated(own, (uint64_t)below, (uint64_t)(below - 1));
  swap_pointer(own, value);
}

static void *run(void *given) {
  account *own = (account *)given;
  own->process = vsc_begin(ROOM);
  for (int i = 0; i < TURNS; i++) turn(own);
  return NULL;
}

int main(void) {
  pthread_t threads[THREADS];
  vsc_name(&wide, "wide");
  vsc_name(&narrow, "narrow");
  vsc_name(&negative, "negative");
  for (int i = 0; i < THREADS; i++)
    if (pthread_create(&threads[i], NULL, run, &accounts[i]) != 0) return 4;
  for (int i = 0; i < THREADS; i++) pthread_join(threads[i], NULL);
  for (int i = 0; i < THREADS; i++)
    printf("T%u %llu %llu %llu %llu %llu\n", accounts[i].process, (unsigned long long)accounts[i].reads, (unsigned long long)accounts[i].writes,
           (unsigned long long)accounts[i].updates, (unsigned long long)accounts[i].read, (unsigned long long)accounts[i].written);
  return vsc_write("run.trace", VSC_TRACE, 0) < 0 || vsc_write("run.csv", VSC_CSV, 0) < 0 || vsc_write("run.jsonl", VSC_JSON_LINES, 0) < 0 ? 4 : 0;
}
