// Store buffering and message passing, a thousand rounds, with relaxed or with sequentially consistent operations.
//
//     cc -O2 -pthread -I../../include litmus.c -o litmus
//     ./litmus store-buffering relaxed run.csv
//
// In a round of store buffering each of two threads writes its location and then reads the other one. In a round of message passing one writes data
// and then a flag, and the other reads the flag and then the data.
#include "rounds.h"

#ifndef ROUNDS
#define ROUNDS 1000
#endif

enum { THREADS = 2 };

static location data, flag;
static int is_relaxed;

static void write_fresh(location *to) {
  if (is_relaxed)
    vsc_store(&to->value, vsc_fresh(), VSC_RELAXED);
  else
    vsc_store(&to->value, vsc_fresh(), VSC_SEQ_CST);
}

static void read_once(location *from) {
  if (is_relaxed)
    (void)vsc_load(&from->value, VSC_RELAXED);
  else
    (void)vsc_load(&from->value, VSC_SEQ_CST);
}

static void *store_buffering(void *number) {
  int is_second = *(int *)number;
  vsc_begin(2 * ROUNDS);
  for (int round = 1; round <= ROUNDS; round++) {
    meet(THREADS, round);
    write_fresh(is_second ? &flag : &data);
    read_once(is_second ? &data : &flag);
  }
  return NULL;
}

static void *message_passing(void *number) {
  int receives = *(int *)number;
  vsc_begin(2 * ROUNDS);
  for (int round = 1; round <= ROUNDS; round++) {
    meet(THREADS, round);
    if (receives) {
      read_once(&flag);
      read_once(&data);
    } else {
      write_fresh(&data);
      write_fresh(&flag);
    }
  }
  return NULL;
}

int main(int count, char **words) {
  if (count != 4) {
    fputs("litmus store-buffering|message-passing relaxed|seq-cst LOG.csv\n", stderr);
    return 2;
  }
  int is_message = strcmp(words[1], "message-passing") == 0;
  is_relaxed = strcmp(words[2], "relaxed") == 0;
  vsc_name(&data.value, is_message ? "data" : "x");
  vsc_name(&flag.value, is_message ? "flag" : "y");
  run_threads(THREADS, is_message ? message_passing : store_buffering);
  return vsc_write(words[3], VSC_CSV, 0) < 0 ? 4 : 0;
}
