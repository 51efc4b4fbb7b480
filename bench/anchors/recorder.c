// What a record of include/vsc_log.h costs: nanoseconds of the processor for an operation, plain and recorded, in one thread, the least of some turns.
#include <time.h>
#include <vsc_log.h>

enum { OPERATIONS = 1 << 20, TURNS = 7, LOCATIONS = 16 };

static struct {
  _Alignas(64) uint64_t value;
} line[LOCATIONS];

static double processor_time(void) {
  struct timespec now;
  clock_gettime(CLOCK_THREAD_CPUTIME_ID, &now);
  return now.tv_sec * 1e9 + now.tv_nsec;
}

// The least nanoseconds an operation that a statement on location `it` takes, of all turns.
#define COST(statement)                                              \
  __extension__({                                                    \
    double least = 1e18;                                             \
    for (int turn = 0; turn < TURNS; turn++) {                       \
      vsc_own->next = vsc_own->records;                              \
      double begin = processor_time();                               \
      for (uint64_t i = 0; i < OPERATIONS; i++) {                    \
        uint64_t *it = &line[i % LOCATIONS].value;                   \
        statement;                                                   \
        __asm__ volatile("" ::: "memory");                           \
      }                                                              \
      double taken = (processor_time() - begin) / OPERATIONS;        \
      if (taken < least) least = taken;                              \
    }                                                                \
    least;                                                           \
  })

#define ROW(name, plain, recorded)                                                                    \
  do {                                                                                                \
    double before = COST(plain), now = COST(recorded);                                                \
    printf("%-26s%8.2f%8.2f%8.2f\n", name, before, now, now - before);                                \
  } while (0)

int main(void) {
  uint64_t held;
  vsc_begin(OPERATIONS);
  ROW("load, relaxed", (void)__atomic_load_n(it, VSC_RELAXED), (void)vsc_load(it, VSC_RELAXED));
  ROW("load, seq-cst", (void)__atomic_load_n(it, VSC_SEQ_CST), (void)vsc_load(it, VSC_SEQ_CST));
  ROW("store, relaxed", __atomic_store_n(it, i, VSC_RELAXED), vsc_store(it, i, VSC_RELAXED));
  ROW("store, seq-cst", __atomic_store_n(it, i, VSC_SEQ_CST), vsc_store(it, i, VSC_SEQ_CST));
  ROW("exchange", (void)__atomic_exchange_n(it, i, VSC_SEQ_CST), (void)vsc_exchange(it, i, VSC_SEQ_CST));
  ROW("add", (void)__atomic_fetch_add(it, 1, VSC_SEQ_CST), (void)vsc_add(it, 1, VSC_SEQ_CST));
  ROW("compare-and-swap", (held = *it, (void)__atomic_compare_exchange_n(it, &held, i, 0, VSC_SEQ_CST, VSC_SEQ_CST)),
      (held = *it, (void)vsc_cas(it, &held, i, VSC_SEQ_CST)));
  return 0;
}
