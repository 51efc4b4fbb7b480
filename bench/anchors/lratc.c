// lratc: a plain, fast, UNVERIFIED LRAT checker by the rules of
// docs/FORMATS.md (no RAT lines), as a practical speed limit for `vsc lrat`.
// usage: lratc CNF PROOF [-v]        -v: counts and times on standard error
// Prints ACCEPTED (status 0) or, on standard error, `refused: AREA K NAME at N` (2);
// device faults have status 4.
#include <stdio.h>
#include <stdlib.h>
#include <string.h>
#include <stdint.h>
#include <time.h>
#include <fcntl.h>
#include <unistd.h>
#include <sys/mman.h>
#include <sys/stat.h>
#define MAXV 4194304
#define MAXC 16777216
#define DENSE (1u << 26)                       // ids below live in an array, above in a hash table
typedef unsigned char u8; typedef uint64_t u64; typedef uint32_t u32;

static void refuse(const char *area, int k, const char *name, u64 at) {
  fflush(stdout); fprintf(stderr, "refused: %s %d %s at %llu\n", area, k, name, (unsigned long long)at); exit(2);
}
static void *xr(void *p, size_t n) { p = realloc(p, n ? n : 1); if (!p) { fprintf(stderr, "refused: memory\n"); exit(2); } return p; }
static const u8 *slurp(const char *f, size_t *n) {
  int fd = open(f, O_RDONLY); struct stat st;
  if (fd < 0 || fstat(fd, &st)) { fprintf(stderr, "refused: device\n"); exit(4); }
  if (st.st_size > 268435456) { fprintf(stderr, "refused: input 2 InputTooLong\n"); exit(2); }
  u8 *b = xr(0, st.st_size + 1); size_t got = 0; ssize_t k;
  while (got < (size_t)st.st_size && (k = read(fd, b + got, st.st_size - got)) > 0) got += k;
  close(fd); b[got] = '\n'; *n = got; return b;            // sentinel line feed
}
static inline int blank(u8 c) { return c == ' ' || c == '\t' || c == '\r'; }
static inline int ends(u8 c) { return blank(c) || c == '\n'; }

// clause arena: at offset o: [n, lit 1 .. lit n], distinct literals
static int *A; static size_t nA, capA;
static inline void room(size_t k) { if (nA + k > capA) { capA = 2 * (nA + k) + (1 << 16); A = xr(A, capA * sizeof *A); } }
// store: id -> offset + 1, 0 where not active
static u64 *D; static u64 capD;
static struct { u64 id, off; } *T; static u64 capT, nT;
static inline u64 *slot(u64 id, int make) {
  if (id < DENSE) {
    if (id >= capD) { if (!make) return 0; u64 c = capD ? capD : 1024; while (c <= id) c *= 2; D = xr(D, c * 8); memset(D + capD, 0, (c - capD) * 8); capD = c; }
    return &D[id];
  }
  if (make && 2 * (nT + 1) > capT) {
    u64 oc = capT; void *old = T; capT = oc ? 2 * oc : 1024; T = calloc(capT, sizeof *T); if (!T) exit(2);
    for (u64 i = 0; i < oc; i++) { u64 jd = ((u64 *)old)[2 * i]; if (jd) { u64 h = (jd * 0x9E3779B97F4A7C15ull >> 20) & (capT - 1); while (T[h].id) h = (h + 1) & (capT - 1); T[h].id = jd; T[h].off = ((u64 *)old)[2 * i + 1]; } }
    free(old);
  }
  if (!capT) return 0;
  u64 h = (id * 0x9E3779B97F4A7C15ull >> 20) & (capT - 1);
  while (T[h].id && T[h].id != id) h = (h + 1) & (capT - 1);
  if (!T[h].id) { if (!make) return 0; T[h].id = id; nT++; }
  return &T[h].off;
}
// solver number at p (a word): value in *v, sign kept; overflow saturates at 2^63. 0: no number
static inline const u8 *number(const u8 *p, u64 *v, int *neg) {
  *neg = *p == '-'; p += *neg; u64 x = 0; const u8 *s = p; int big = 0;
  while ((u8)(*p - '0') < 10) { if (x > 922337203685477580ull) big = 1; x = x * 10 + (*p++ - '0'); if (x >> 63) big = 1; }
  if (p == s || !ends(*p)) return 0;
  if (big) x = 1ull << 63;
  if (*neg && !x) return 0;
  *v = x; return p;
}
static int V;
static u32 *mark; static u32 stamp;            // distinct literals of one clause
#define LI(l) ((l) > 0 ? 2 * (u32)(l) : 2 * (u32)-(l) + 1)

static u64 read_cnf(const char *f) {
  size_t n; const u8 *b = slurp(f, &n), *e = b + n, *p = b; u64 line = 1, C = 0, done = 0, v; int neg, header = 0, open_ = 0;
  size_t start = 0;
  while (p < e) {
    const u8 *q = p; while (blank(*q)) q++;
    if (q >= e) { line++; break; }             // a last line of blanks alone
    if (*q == '\n' || *q == 'c') { while (*q != '\n') q++; p = q + 1; line++; continue; }
    if (*q == '%') break;
    if (!header) {
      if (!(*q == 'p' && ends(q[1]))) refuse("cnf", 2, "NoHeader", line);
      q++; while (blank(*q)) q++;
      if (strncmp((const char *)q, "cnf", 3) || !ends(q[3])) refuse("cnf", 3, "BadHeader", line);
      q += 3;
      for (int k = 0; k < 2; k++) {
        while (blank(*q)) q++;
        const u8 *r = *q == '-' ? 0 : number(q, &v, &neg);
        if (!r || v > (k ? MAXC : MAXV)) refuse("cnf", 3, "BadHeader", line);
        if (k) C = v; else V = (int)v;
        q = r;
      }
      while (blank(*q)) q++;
      if (*q != '\n') refuse("cnf", 3, "BadHeader", line);
      p = q + 1; line++; header = 1; continue;
    }
    for (;;) {
      while (blank(*q)) q++;
      if (*q == '\n') break;
      if (done == C) refuse("cnf", 8, "Trailing", line);
      const u8 *r = number(q, &v, &neg);
      if (!r) refuse("cnf", 4, "BadNumber", line);
      if (v > (u64)V) refuse("cnf", 5, "VariableTooLarge", line);
      q = r;
      if (!open_) { room(1); start = nA++; open_ = 1; }
      if (v) { room(1); A[nA++] = neg ? -(int)v : (int)v; }
      else { A[start] = (int)(nA - start - 1); open_ = 0; *slot(++done, 1) = start + 1; }
    }
    p = q + 1; line++;
  }
  if (!header) refuse("cnf", 2, "NoHeader", line);
  if (open_) refuse("cnf", 7, "Unended", line);
  if (done < C) refuse("cnf", 6, "CountMismatch", line);
  free((void *)b); return C;
}

// proof: read whole into 64-bit words first (faults of the text come before those of the
// check): per step [kind, id, nlits, lits.., nhints, hints..]
static u64 *P; static size_t nP, capP;
static inline void pp(u64 x) { if (nP == capP) { capP = capP ? 2 * capP : 1 << 16; P = xr(P, capP * 8); } P[nP++] = x; }
static void read_lrat(const char *f) {
  size_t n; const u8 *b = slurp(f, &n), *e = b + n, *p = b; u64 line = 1, v, id; int neg;
  for (; p < e; line++) {
    const u8 *q = p; while (blank(*q)) q++;
    if (q >= e) break;
    if (*q == '\n' || *q == 'c') { while (*q != '\n') q++; p = q + 1; continue; }
    const u8 *r = number(q, &id, &neg);
    if (!r || neg || id >> 63) refuse("lrat", 3, "BadNumber", line);
    q = r; while (blank(*q)) q++;
    int del = *q == 'd' && ends(q[1]);
    if (!id && !del) refuse("lrat", 3, "BadNumber", line);
    pp(del); pp(id); size_t cnt = nP; pp(0);
    int part = del; if (del) q++;              // part 0: literals, 1: ids, 2: done
    for (;;) {
      while (blank(*q)) q++;
      if (*q == '\n') break;
      if (part == 2) refuse("lrat", 2, "BadLine", line);
      r = number(q, &v, &neg);
      if (!r) refuse("lrat", 3, "BadNumber", line);
      q = r;
      if (!v) { P[cnt] = nP - cnt - 1; if (part == 0) { cnt = nP; pp(0); } part++; if (part > 2) part = 2; continue; }
      if (part == 0) { if (v > MAXV) refuse("lrat", 3, "BadNumber", line); pp(neg ? (u64)-(int64_t)v : v); }
      else {
        if (neg) { if (del) refuse("lrat", 3, "BadNumber", line); refuse("lrat", 5, "RatLine", line); }
        if (v >> 63) refuse("lrat", 3, "BadNumber", line);
        pp(v);
      }
    }
    if (part != 2) refuse("lrat", 4, "Unended", line);
    p = q + 1;
  }
  free((void *)b);
}
static double now(void) { struct timespec t; clock_gettime(CLOCK_MONOTONIC, &t); return t.tv_sec + t.tv_nsec * 1e-9; }
int main(int argc, char **argv) {
  if (argc < 3) return 2;
  int verbose = argc > 3; double t0 = now();
  u64 m = read_cnf(argv[1]); double t1 = now();
  read_lrat(argv[2]); double t2 = now();
  int top = V; for (size_t i = 0; i < nP;) { u64 del = P[i], k = P[i + 2]; if (!del) { for (u64 j = 0; j < k; j++) { int l = (int)(int64_t)P[i + 3 + j]; if (abs(l) > top) top = abs(l); } i += 3 + k; i += 1 + P[i]; } else i += 3 + k; }
  signed char *val = calloc(2 * (size_t)top + 2, 1); mark = calloc(2 * (size_t)top + 2, 4); int *trail = xr(0, sizeof *trail * (top + 1)); int nt = 0;
  for (u64 c = 1; c <= m; c++) {               // distinct literals, once for all
    int *a = A + *slot(c, 0) - 1; int k = 0; stamp++;
    for (int i = 1; i <= a[0]; i++) if (mark[LI(a[i])] != stamp) { mark[LI(a[i])] = stamp; a[++k] = a[i]; }
    a[0] = k;
  }
  u64 step = 0, adds = 0, used = 0, given = 0, dels = 0; int ok = 0;
  for (size_t i = 0; i < nP;) {
    step++; u64 del = P[i], id = P[i + 1], k = P[i + 2]; u64 *w = P + i + 3;
    if (del) { for (u64 j = 0; j < k; j++) { u64 *s = slot(w[j], 0); if (s) *s = 0; } dels += k; i += 3 + k; continue; }
    u64 nh = w[k], *h = w + k + 1; i += 4 + k + nh; given += nh; adds++;
    u64 *s = slot(id, 0);
    if (s && *s) refuse("check", 5, "IdInUse", step);
    room(k + 1); size_t o = nA; int c = 0, taut = 0; stamp++;
    for (u64 j = 0; j < k; j++) {
      int l = (int)(int64_t)w[j];
      if (mark[LI(l)] == stamp) continue;
      if (mark[LI(-l)] == stamp) taut = 1;
      mark[LI(l)] = stamp; A[o + ++c] = l;
    }
    A[o] = c;
    int good = taut;
    if (!taut) {
      for (int j = 1; j <= c; j++) { int l = A[o + j]; val[LI(-l)] = 1; trail[nt++] = -l; }
      for (u64 j = 0; j < nh; j++) {
        u64 *z = slot(h[j], 0);
        if (!z || !*z) refuse("check", 2, "UnknownHint", step);
        const int *a = A + *z - 1; int u = 0, free_ = 0; used++;
        for (int q = 1; q <= a[0]; q++) if (!val[LI(-a[q])]) { u = a[q]; if (++free_ > 1) break; }
        if (!free_) { good = 1; break; }
        if (free_ > 1) refuse("check", 3, "NotUnit", step);
        if (!val[LI(u)]) { val[LI(u)] = 1; trail[nt++] = u; }
      }
      while (nt) { int l = trail[--nt]; val[LI(l)] = 0; }
    }
    if (!good) refuse("check", 4, "NoConflict", step);
    nA = o + c + 1; *slot(id, 1) = o + 1;
    if (!c) { ok = 1; break; }
  }
  if (!ok) refuse("check", 6, "NoEmptyClause", step + 1);
  puts("ACCEPTED");
  double t3 = now();
  if (verbose) fprintf(stderr, "adds %llu hints %llu used %llu dels %llu; cnf %.4f proof %.4f check %.4f total %.4f s\n", (unsigned long long)adds, (unsigned long long)given, (unsigned long long)used, (unsigned long long)dels, t1 - t0, t2 - t1, t3 - t2, t3 - t0);
  return 0;
}
