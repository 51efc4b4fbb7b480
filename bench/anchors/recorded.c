// recorded KIND OPERATIONS THREADS LOCATIONS FILE: threads of this machine read and write, and FILE gets what include/vsc_log.h recorded, a trace or, if its
// name ends in .csv, rows. KIND is relaxed, seq-cst, few (sequentially consistent, 8 values), lock (a counter behind a spin lock) or stack (Treiber's).
#define _GNU_SOURCE
#include <pthread.h>
#include <sched.h>
#include <unistd.h>
#include <vsc_log.h>

enum { MOST_LOCATIONS = 4096, MOST_THREADS = 64, NODE_BITS = 13 };

// A location fills a cache line.
typedef struct {
  _Alignas(64) uint64_t value;
} cell;

static cell cells[MOST_LOCATIONS], following[MOST_LOCATIONS + 1], lock, counter, head, waiting;
static const char *kind;
static unsigned threads, locations;
static size_t room;

// Whether all of a step that is begun now will be recorded.
static int has_room(void) { return vsc_own->end - vsc_own->next >= 8; }

static int is_kind(const char *name) { return strcmp(kind, name) == 0; }

static uint64_t next_random(uint64_t *state) {
  *state ^= *state << 13;
  *state ^= *state >> 7;
  *state ^= *state << 17;
  return *state >> 20;
}

// Half of the operations are loads; of the sequentially consistent others some are exchanges.
#define READ_AND_WRITE(order, written, with_exchanges)               \
  while (!vsc_is_full()) {                                           \
    uint64_t dice = next_random(&state);                             \
    uint64_t *it = &cells[dice % locations].value;                   \
    if (dice >> 20 & 1)                                              \
      (void)vsc_load(it, order);                                     \
    else if (!(with_exchanges) || (dice >> 21 & 15))                 \
      vsc_store(it, written, order);                                 \
    else                                                             \
      (void)vsc_exchange(it, written, order);                        \
  }

// A taken lock holds an odd number, and each number comes once.
static void count_behind_lock(void) {
  while (has_room()) {
    uint64_t seen = vsc_load(&lock.value, VSC_RELAXED);
    if (seen & 1 || !vsc_cas(&lock.value, &seen, 2 * vsc_fresh() + 1, VSC_ACQUIRE)) continue;
    vsc_store(&counter.value, vsc_load(&counter.value, VSC_RELAXED) + 1, VSC_RELAXED);
    vsc_store(&lock.value, 2 * vsc_fresh(), VSC_RELEASE);
  }
}

// The head is the number of the first node, or 0, below a count that changes with it.
static uint64_t with_node(uint64_t held, uint64_t node) { return ((held >> NODE_BITS) + 1) << NODE_BITS | node; }

static void push(uint64_t node) {
  while (has_room()) {
    uint64_t held = vsc_load(&head.value, VSC_ACQUIRE);
    vsc_store(&following[node].value, held & ((1 << NODE_BITS) - 1), VSC_RELAXED);
    if (vsc_cas(&head.value, &held, with_node(held, node), VSC_ACQ_REL)) return;
  }
}

// The node that was popped, or 0.
static uint64_t pop(void) {
  while (has_room()) {
    uint64_t held = vsc_load(&head.value, VSC_ACQUIRE), node = held & ((1 << NODE_BITS) - 1);
    if (node == 0) return 0;
    if (vsc_cas(&head.value, &held, with_node(held, vsc_load(&following[node].value, VSC_RELAXED)), VSC_ACQ_REL)) return node;
  }
  return 0;
}

static void push_and_pop(unsigned number, uint64_t *state) {
  uint64_t own[MOST_LOCATIONS];
  size_t count = 0;
  for (unsigned node = 1 + number; node <= locations; node += threads) own[count++] = node;
  while (has_room()) {
    uint64_t node;
    if (count > 0 && next_random(state) & 1)
      push(own[--count]);
    else if ((node = pop()) != 0)
      own[count++] = node;
  }
}

static void *run(void *argument) {
  unsigned number = (unsigned)(size_t)argument;
  uint64_t state = 88172645463325252u * (number + 7);
  cpu_set_t processor;
  CPU_ZERO(&processor);
  CPU_SET(number % (unsigned)sysconf(_SC_NPROCESSORS_ONLN), &processor);
  pthread_setaffinity_np(pthread_self(), sizeof processor, &processor);
  vsc_begin(room);
  __atomic_fetch_sub(&waiting.value, 1, __ATOMIC_SEQ_CST);
  while (__atomic_load_n(&waiting.value, __ATOMIC_SEQ_CST) > 0) sched_yield();
  if (is_kind("relaxed")) READ_AND_WRITE(VSC_RELAXED, vsc_fresh(), 0)
  if (is_kind("seq-cst")) READ_AND_WRITE(VSC_SEQ_CST, vsc_fresh(), 1)
  if (is_kind("few")) READ_AND_WRITE(VSC_SEQ_CST, dice >> 30 & 7, 1)
  if (is_kind("lock")) count_behind_lock();
  if (is_kind("stack")) push_and_pop(number, &state);
  return NULL;
}

static void name_all(void) {
  char name[VSC_NAME_SIZE];
  vsc_name(&lock.value, "lock");
  vsc_name(&counter.value, "counter");
  vsc_name(&head.value, "head");
  for (unsigned at = 0; at < locations; at++) {
    snprintf(name, sizeof name, "x%u", at);
    vsc_name(&cells[at].value, name);
    snprintf(name, sizeof name, "next%u", at + 1);
    vsc_name(&following[at + 1].value, name);
  }
}

int main(int count, char **words) {
  if (count != 6) return 2;
  kind = words[1];
  threads = (unsigned)atoi(words[3]);
  locations = (unsigned)atoi(words[4]);
  if (threads < 1 || threads > MOST_THREADS || locations < 1 || locations > MOST_LOCATIONS) return 2;
  room = (size_t)atol(words[2]) / threads;
  waiting.value = threads;
  name_all();
  pthread_t started[MOST_THREADS];
  for (size_t at = 0; at < threads; at++) pthread_create(&started[at], NULL, run, (void *)at);
  for (size_t at = 0; at < threads; at++) pthread_join(started[at], NULL);
  const char *ending = strrchr(words[5], '.');
  return vsc_write(words[5], ending && strcmp(ending, ".csv") == 0 ? VSC_CSV : VSC_TRACE, 0) < 0 ? 4 : 0;
}
