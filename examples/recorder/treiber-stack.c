// A stack without locks (R. K. Treiber, "Systems Programming: Coping with Parallelism", 1986).
//
//     cc -O2 -pthread -I../../include treiber-stack.c -o treiber-stack
//     ./treiber-stack run.csv
//
// In a round each of four threads tries to push a node or to pop one. A node's number stands in the lower 13 bits of the head, and above it a count
// that each change raises: without it a node that was popped and pushed again would be taken for one that had stayed (the ABA problem).
#include "rounds.h"

#ifndef ROUNDS
#define ROUNDS 80
#endif

enum { THREADS = 4, TRIES = 4, OPERATIONS = ROUNDS * 3 * TRIES, NODES = 64, NODE_BITS = 13 };

// Node 0 is none.
static location next_of[NODES + 1], head;

static uint64_t node_of(uint64_t found) { return found & ((1u << NODE_BITS) - 1); }

static uint64_t raised(uint64_t found, uint64_t node) { return ((found >> NODE_BITS) + 1) << NODE_BITS | node; }

// Whether the node was pushed within the tries.
static int push(uint64_t node) {
  for (int tries = 0; tries < TRIES; tries++) {
    uint64_t found = vsc_load(&head.value, VSC_ACQUIRE);
    vsc_store(&next_of[node].value, node_of(found), VSC_RELAXED);
    if (vsc_cas(&head.value, &found, raised(found, node), VSC_ACQ_REL)) return 1;
  }
  return 0;
}

// The node that was popped within the tries, or 0.
static uint64_t pop(void) {
  for (int tries = 0; tries < TRIES; tries++) {
    uint64_t found = vsc_load(&head.value, VSC_ACQUIRE), node = node_of(found);
    if (node == 0) return 0;
    uint64_t next = vsc_load(&next_of[node].value, VSC_RELAXED);
    if (vsc_cas(&head.value, &found, raised(found, next), VSC_ACQ_REL)) return node;
  }
  return 0;
}

static void *run(void *number) {
  uint64_t mine[NODES], count = 0;
  unsigned own = *(int *)number, random = own;
  for (uint64_t node = own + 1; node <= NODES; node += THREADS) mine[count++] = node;
  vsc_begin(OPERATIONS);
  for (int round = 1; round <= ROUNDS; round++) {
    meet(THREADS, round);
    random = random * 1664525u + 1013904223u;
    if (count > 0 && random >> 31) {
      count -= push(mine[count - 1]);
    } else {
      uint64_t node = pop();
      if (node != 0) mine[count++] = node;
    }
  }
  return NULL;
}

int main(int count, char **words) {
  if (count != 2) {
    fputs("treiber-stack LOG.csv\n", stderr);
    return 2;
  }
  vsc_name(&head.value, "head");
  for (int i = 1; i <= NODES; i++) {
    char name[VSC_NAME_SIZE];
    snprintf(name, sizeof name, "next%d", i);
    vsc_name(&next_of[i].value, name);
  }
  run_threads(THREADS, run);
  return vsc_write(words[1], VSC_CSV, 0) < 0 ? 4 : 0;
}
