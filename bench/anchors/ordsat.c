// ordsat: a prototype, UNVERIFIED CDCL solver for the order encoding of docs/FORMATS.md:
// trace text (vsc 1) -> verdict, model line or LRAT refutation, without
// any CNF text. It never stores transitivity (family C): the order is kept as bitsets and
// closed at each assignment; nor, by default, the choice clauses (family D). Reasons are
// codes; clauses and their ids are computed when asked for. Kept as a speed limit.
//
// build:  gcc -O2 -march=native -o ordsat ordsat.c -lm
// run:    ordsat TRACE [options]      status 10 `s SATISFIABLE` and a `v` line;
//                                     20 `s UNSATISFIABLE`; 0 `s UNKNOWN`; 2 not a trace
//   -p FILE    write the LRAT refutation (ids are those of `encc TRACE --compact`)
//   -notrim    write every lemma (else: only those the empty clause needs)
//   -v         statistics on standard error;  -q no `v` line
//   -sched S   decisions: 0 by activity (VSIDS; default), 1 along a partial schedule,
//              3 by turns, a restart each (shared lemmas spoil both)
//   -mode M    closure: 0 eager at each assignment (default), 1 lazy at dequeue,
//              2 lazy, clauses to their fixpoint first (1 and 2 imply -stored)
//   -stored    family D as stored, watched clauses
//   -alldec    decide on all order variables (default: only on those in D, E)
//   -phase P   first phase of order variables: 0 false (default), 1 true (by number),
//              2 by place in the process, 3 by a greedy schedule, 4 by relative place
//   -choice K  0 no preference (default), 1 choice variables start with more activity,
//              2 they always come first;  -cphase 1 their first phase is true
//   -probe R   R rounds of failed literals at level 0
//   -glucose   restarts by LBD averages (default Luby);  -rf N Luby unit (100)
//   -red N -redinc N -lbd N   deletion: first after N conflicts (2000), the interval grows
//              by N (300), glue up to N is kept (2)
//   -nomin     no minimisation;  -decay D  activity decay (0.95)
//   -cubes K   2^K cubes on the first K split variables, each from a copy of the base;
//              -keep: one solver for all, lemmas kept
//   -limit N   stop after N conflicts
//
// Invariants worth knowing: su[i]/pr[i] are the assigned x(i,_)/x(_,i) and, in mode 0,
// always transitively closed, so transitivity alone never conflicts; a linear extension of
// them is a model as soon as all variables of D and E are assigned without a conflict.
#include <stdio.h>
#include <stdlib.h>
#include <string.h>
#include <stdint.h>
#include <unistd.h>
#include <fcntl.h>
#include <math.h>
#include <sys/resource.h>
#include <sys/wait.h>
typedef uint64_t u64; typedef uint32_t u32; typedef unsigned char u8;
static double cpu(void) { struct rusage r; getrusage(RUSAGE_SELF, &r); return r.ru_utime.tv_sec + r.ru_stime.tv_sec + 1e-6 * (r.ru_utime.tv_usec + r.ru_stime.tv_usec); }
static void *xr(void *p, size_t k) { p = realloc(p, k ? k : 1); if (!p) exit(3); return p; }

// ---------------------------------------------------------------- options
static int oRed = 2000, oRedinc = 300, oLbd = 2, oMode, oNative = 1, oAll, oPhase, oChoice, oCphase, oSched, oProbe, oGlucose, oRf = 100, oMin = 1, oCubes = -1, oKeep, oTrim = 1, oV, oQ; static double oDecay = 0.95; static const char *oProof; static long oLimit = -1;

// ---------------------------------------------------------------- trace (after encc.c)
#define MAXN 160
typedef struct { char kind; int loc; u64 d, e; int last, proc, pos; } Op;
static Op ops[MAXN]; static int n, np;
static char *names[4096]; static int nl; static u64 init[4096], fin[4096]; static char hi[4096], hf[4096];
static int hash[16384];
static int loc(const char *w) {
  u32 h = 5381; for (const char *c = w; *c; c++) h = h * 33 + (u8)*c;
  for (h &= 16383; hash[h]; h = (h + 1) & 16383) if (!strcmp(names[hash[h] - 1], w)) return hash[h] - 1;
  if (nl == 4096) exit(2);
  names[nl] = (char *)w; hash[h] = nl + 1; return nl++;
}
static u64 num(const char *w) { char *e; if (!w || *w < '0' || *w > '9') exit(2); u64 v = strtoull(w, &e, 10); if (*e) exit(2); return v; }
static u64 leaves(const Op *o) { return o->kind == 'U' ? o->e : o->d; }
static int byname(const void *a, const void *b) { return strcmp(names[*(int *)a], names[*(int *)b]); }
static void read_trace(const char *file) {
  FILE *f = fopen(file, "rb"); if (!f) exit(4);
  fseek(f, 0, SEEK_END); long len = ftell(f); rewind(f); char *s = malloc(len + 2); if (fread(s, 1, len, f) != (size_t)len) exit(4); s[len] = '\n'; s[len + 1] = 0; fclose(f);
  int header = 0, inproc = 0, first = 1, pos = 0; Op prev = {0};
  for (char *p = s; *p;) {
    char *e = strchr(p, '\n'); *e = 0; char *w[5]; int k = 0;
    for (char *q = strtok(p, " \t\r"); q && k < 5; q = strtok(0, " \t\r")) w[k++] = q;
    p = e + 1;
    if (!k || *w[0] == '#') continue;
    if (!header) { if (k != 2 || strcmp(w[0], "vsc") || strcmp(w[1], "1")) exit(2); header = 1; continue; }
    if (!strcmp(w[0], "init")) { int a = loc(w[1]); init[a] = num(w[2]); hi[a] = 1; continue; }
    if (!strcmp(w[0], "final")) { int a = loc(w[1]); fin[a] = num(w[2]); hf[a] = 1; continue; }
    if (!strcmp(w[0], "proc")) { inproc = 1; first = 1; pos = 0; np++; if (n) ops[n - 1].last = 1; continue; }
    Op o = { .kind = *w[0] }; if (!inproc || k < 3) exit(2);
    o.loc = loc(w[1]); o.d = num(w[2]); if (o.kind == 'U') o.e = num(w[3]);
    int drop = o.kind == 'R' && !first && prev.loc == o.loc && leaves(&prev) == o.d;
    prev = o; first = 0;
    if (drop) continue;
    if (n == MAXN) exit(2);
    o.proc = np - 1; o.pos = pos++; ops[n++] = o;
  }
  if (n) ops[n - 1].last = 1;
}

// ---------------------------------------------------------------- solver state
// literal: 2*var + (1 if negative); order variables 1..NO
static int NO, V, NW; static u32 nA, nC0;       // nA units of family A, nC0 = last id of family C
static int rb[MAXN + 1]; static u32 tP[MAXN + 1], tS[MAXN + 1];
static u8 *vi, *vj;
static inline int olit(int i, int j) { return i < j ? 2 * (rb[i] + j) : 2 * (rb[j] + i) + 1; }
// id of the clause that forbids p before q before r before p
static inline u32 tid(int p, int q, int r) {
  int a = p, b = q, c = r;
  if (b < a && b < c) { a = q; b = r; c = p; } else if (c < a && c < b) { a = r; b = p; c = q; }
  return b < c ? nA + 2 * (tP[a] + tS[b] + (c - b - 1)) + 1 : nA + 2 * (tP[a] + tS[c] + (b - c - 1)) + 2;
}
#define BIT(x) (1ull << ((x) & 63))
typedef u64 Row[3];
static Row su[MAXN], pr[MAXN];                  // su[i]: all j after i; pr[i]: all j before i
static signed char *val; static int *trail, nt, qh, th; static int *level, *reason, *tpos; static u32 *uid;
static u8 *phase, *seen, *isdec; static int *lim, dl;
#define NONE (-1)
#define MID(k) (-2 - (k))                       // reason: transitivity over k
// clauses: at c: [size | learnt<<30, id, lbd, act, lits..]
static int *A; static size_t an, acap;
#define SZ(c) (A[c] & 0xffffff)
#define LITS(c) (A + (c) + 4)
typedef struct { int c, b; } Watch;             // c: clause, top bit set for a binary; b: another literal
#define BIN 0x40000000
static Watch *WP; static size_t wn, wcap; static struct { size_t o; int k, cap; } *wl;
static double *act, inc = 1, cinc = 1; static int *heap, hn, *hp;
static int *learnts, nlearn, lcap; static u32 nextid;
static long conflicts, decisions, props, tprops, restarts, learned_lits, min_lits, reduces, probes_failed;

// native family D: choice s = NO+1+q reads r from w (w < 0: init); masks are kept up at assign and undo
static struct { short r, w; u32 id; } *ch; static uint16_t (*chv)[MAXN]; static Row *cdm, *rdm, *chm; static short *chosen; static Row wm[4096]; static int nchoice;
#define DR(s, x) (-1000 - (((s) - NO) * MAXN + (x)))   // reason: the clause of choice s for the writer x (x = w: `-s x(w,r)`)
static int dlits(int code, int *o) {
  int t = -1000 - code, s = t / MAXN + NO, x = t % MAXN, r = ch[s - NO].r, w = ch[s - NO].w;
  o[0] = 2 * s + 1;
  if (x == w) { o[1] = olit(w, r); return 2; }
  if (w < 0) { o[1] = olit(r, x); return 2; }
  o[1] = olit(x, w); o[2] = olit(r, x); return 3;
}
static u32 did(int code) {
  int t = -1000 - code, s = t / MAXN + NO, x = t % MAXN, r = ch[s - NO].r, w = ch[s - NO].w; u64 *m = wm[ops[r].loc]; int k = 0;
  if (x == w) return ch[s - NO].id;
  for (int q = 0; q < x >> 6; q++) k += __builtin_popcountll(m[q]);
  k += __builtin_popcountll(m[x >> 6] & ((1ull << (x & 63)) - 1));
  if (r < x && ops[r].kind == 'U') k--;
  if (w >= 0) k += 1 - (w < x);
  return ch[s - NO].id + k;
}
static inline void watch(int l, int c, int b) {
  if (wl[l].k == wl[l].cap) {
    int nc = wl[l].cap ? 2 * wl[l].cap : 4;
    if (wn + nc > wcap) { wcap = 2 * (wn + nc) + 1024; WP = xr(WP, wcap * sizeof *WP); }
    memcpy(WP + wn, WP + wl[l].o, wl[l].k * sizeof *WP); wl[l].o = wn; wl[l].cap = nc; wn += nc;
  }
  WP[wl[l].o + wl[l].k++] = (Watch){ c, b };
}
static int newclause(const int *l, int k, u32 id, int learnt) {
  if (an + k + 4 > acap) { acap = 2 * (an + k) + 4096; A = xr(A, acap * sizeof *A); }
  int c = (int)an; A[c] = k | learnt << 30; A[c + 1] = (int)id; A[c + 2] = 0; A[c + 3] = 0; memcpy(A + c + 4, l, k * sizeof *l); an += k + 4; return c;
}
static void attach(int c) { int *l = LITS(c), k = SZ(c), f = k == 2 ? c | BIN : c; watch(l[0] ^ 1, f, l[1]); watch(l[1] ^ 1, f, l[0]); }

// ---------------------------------------------------------------- heap
static inline void hup(int i) { int x = heap[i]; while (i && act[x] > act[heap[(i - 1) / 2]]) { heap[i] = heap[(i - 1) / 2]; hp[heap[i]] = i; i = (i - 1) / 2; } heap[i] = x; hp[x] = i; }
static inline void hdown(int i) {
  int x = heap[i];
  for (int c; (c = 2 * i + 1) < hn; i = c) { if (c + 1 < hn && act[heap[c + 1]] > act[heap[c]]) c++; if (act[heap[c]] <= act[x]) break; heap[i] = heap[c]; hp[heap[i]] = i; }
  heap[i] = x; hp[x] = i;
}
static inline void hput(int v) { if (hp[v] < 0) { heap[hn] = v; hp[v] = hn; hup(hn++); } }
static int hpop(void) { int x = heap[0]; hp[x] = -1; if (--hn) { heap[0] = heap[hn]; hp[heap[0]] = 0; hdown(0); } return x; }
static inline void bump(int v) {
  if ((act[v] += inc) > 1e100) { for (int i = 1; i <= V; i++) act[i] *= 1e-100; inc *= 1e-100; }
  if (hp[v] >= 0) hup(hp[v]);
}

// ---------------------------------------------------------------- assignment and closure
static inline void set(int l, int r) { int v = l >> 1; val[l] = 1; val[l ^ 1] = -1; reason[v] = r; level[v] = dl; tpos[v] = nt; trail[nt++] = l; }
static inline void ends(int l, int *i, int *j) { int v = l >> 1; if (l & 1) { *i = vj[v]; *j = vi[v]; } else { *i = vi[v]; *j = vj[v]; } }
#define FORBITS(m, w, b) for (u64 m_ = (m); m_ && ((b) = (w) * 64 + __builtin_ctzll(m_), 1); m_ &= m_ - 1)
// the relation is closed and does not hold j before i (nor i before j): adding i before j
// and its closure cannot make a cycle
static void close_edge(int i, int j) {
  int b, a; u64 *sj = su[j], *si = su[i];
  for (int w = 0; w < NW; w++) FORBITS(sj[w] & ~si[w], w, b) { set(olit(i, b), MID(j)); pr[b][i >> 6] |= BIT(i); tprops++; }
  for (int w = 0; w < NW; w++) si[w] |= sj[w];
  si[j >> 6] |= BIT(j);
  for (int v = 0; v < NW; v++) FORBITS(pr[i][v] & ~pr[j][v], v, a) {
    u64 *sa = su[a]; u64 *pa = &pr[0][v], ba = BIT(a);
    set(olit(a, j), MID(i)); sa[j >> 6] |= BIT(j); tprops++;
    for (int w = 0; w < NW; w++) { u64 m = sj[w] & ~sa[w]; sa[w] |= m; for (; m; m &= m - 1) { b = w * 64 + __builtin_ctzll(m); set(olit(a, b), MID(j)); pa[3 * b] |= ba; tprops++; } }
  }
  for (int w = 0; w < NW; w++) pr[j][w] |= pr[i][w];
  pr[j][i >> 6] |= BIT(i);
}
static inline void assign(int l, int r) {
  set(l, r); int v = l >> 1;
  if (v > NO && oNative && v - NO <= nchoice && ch[v - NO].w >= 0) { int x = ch[v - NO].r, w = ch[v - NO].w; if (l & 1) { cdm[x][w >> 6] &= ~BIT(w); rdm[w][x >> 6] &= ~BIT(x); } else { chm[w][x >> 6] |= BIT(x); chosen[x] = w; } }
  if (l >> 1 <= NO) {
    int i, j; ends(l, &i, &j);
    if (oMode == 0) close_edge(i, j); else { su[i][j >> 6] |= BIT(j); pr[j][i >> 6] |= BIT(i); }
  }
}
static void undo(int d) {
  if (dl <= d) return;
  int t = lim[d];
  while (nt > t) {
    int l = trail[--nt], v = l >> 1; val[l] = val[l ^ 1] = 0; phase[v] = l & 1;
    if (v <= NO) { int i, j; ends(l, &i, &j); su[i][j >> 6] &= ~BIT(j); pr[j][i >> 6] &= ~BIT(i); }
    else if (oNative && v - NO <= nchoice && ch[v - NO].w >= 0) { int x = ch[v - NO].r, w = ch[v - NO].w; if (l & 1) { cdm[x][w >> 6] |= BIT(w); rdm[w][x >> 6] |= BIT(x); } else { chm[w][x >> 6] &= ~BIT(x); chosen[x] = -1; } }
    if (isdec[v]) hput(v);
  }
  qh = th = nt; dl = d;
}
static int ctri[3];                             // a conflict of transitivity (lazy modes): p before q before r before p
#define TRICONF (-2)
// lazy: all consequences of i before j with what is assigned; TRICONF or -1
static int trans_step(int i, int j) {
  int k;
  for (int w = 0; w < NW; w++) {
    u64 m = su[j][w] & ~su[i][w];
    if (m & pr[i][w]) { k = w * 64 + __builtin_ctzll(m & pr[i][w]); ctri[0] = i; ctri[1] = j; ctri[2] = k; return TRICONF; }
    FORBITS(m, w, k) { set(olit(i, k), MID(j)); pr[k][i >> 6] |= BIT(i); tprops++; }
    su[i][w] |= m;
  }
  for (int w = 0; w < NW; w++) {
    u64 m = pr[i][w] & ~pr[j][w];
    if (m & su[j][w]) { k = w * 64 + __builtin_ctzll(m & su[j][w]); ctri[0] = k; ctri[1] = i; ctri[2] = j; return TRICONF; }
    FORBITS(m, w, k) { set(olit(k, j), MID(i)); su[k][j >> 6] |= BIT(j); tprops++; }
    pr[j][w] |= m;
  }
  return -1;
}
// family D at the dequeue of p, by word operations on the closed relation; -1 or the code of a false clause
#define IMPLY(l, code) do { int l_ = (l); if (val[l_] < 0) return (code); if (!val[l_]) assign(l_, (code)); } while (0)
static int native(int p) {
  int v = p >> 1, x;
  if (v <= NO) {
    int i, j; ends(p, &i, &j); int a = ops[i].loc; if (a != ops[j].loc) return -1;
    int iw = ops[i].kind != 'R', jw = ops[j].kind != 'R';
    if (iw && ops[j].kind != 'W') {             // a writer i before the reader j: the candidates before i die, a chosen one is after i
      int s0 = chv[j][j];                       // the choice init
      if (s0 && val[2 * s0] >= 0) IMPLY(2 * s0 + 1, DR(s0, i));
      for (int w = 0; w < NW; w++) FORBITS(cdm[j][w] & pr[i][w], w, x) IMPLY(2 * chv[j][x] + 1, DR(chv[j][x], i));
      x = chosen[j]; if (x >= 0 && x != i) IMPLY(olit(i, x), DR(chv[j][x], i));
    }
    if (iw && jw) {                             // writer i before writer j: readers after j cannot read i; who reads i is before j
      for (int w = 0; w < NW; w++) FORBITS(rdm[i][w] & su[j][w], w, x) IMPLY(2 * chv[x][i] + 1, DR(chv[x][i], j));
      for (int w = 0; w < NW; w++) FORBITS(chm[i][w] & ~pr[j][w], w, x) if (x != j) IMPLY(olit(x, j), DR(chv[x][i], j));
    }
    if (jw && ops[i].kind != 'W' && cdm[i][j >> 6] & BIT(j)) IMPLY(2 * chv[i][j] + 1, DR(chv[i][j], j));
  } else if (!(p & 1) && v - NO <= nchoice && ch[v - NO].r >= 0) {
    int r = ch[v - NO].r, y = ch[v - NO].w; u64 *W = wm[ops[r].loc];
    if (y < 0) { for (int w = 0; w < NW; w++) FORBITS(W[w], w, x) if (x != r) IMPLY(olit(r, x), DR(v, x)); }
    else {
      IMPLY(olit(y, r), DR(v, y));
      for (int w = 0; w < NW; w++) FORBITS(W[w] & su[y][w] & ~su[r][w], w, x) if (x != r) IMPLY(olit(r, x), DR(v, x));
      for (int w = 0; w < NW; w++) FORBITS(W[w] & pr[r][w] & ~pr[y][w], w, x) if (x != y) IMPLY(olit(x, y), DR(v, x));
    }
  }
  return -1;
}
// -1: fixpoint; else the conflict's clause, TRICONF or the code of a clause of D
static int propagate(void) {
  for (;;) {
    if (oMode == 2 ? qh == nt : 0) { if (th == nt) return -1; int l = trail[th++]; if (l >> 1 <= NO) { int i, j; ends(l, &i, &j); if (trans_step(i, j) != -1) return TRICONF; } continue; }
    if (qh == nt) return -1;
    int p = trail[qh++], np_ = p ^ 1; props++;
    if (oMode == 1 && p >> 1 <= NO) { int i, j; ends(p, &i, &j); if (trans_step(i, j) != -1) return TRICONF; }
    if (oNative) { int c = native(p); if (c != -1) return c; }
    int k = wl[p].k; if (!k) continue;
    Watch *s = WP + wl[p].o, *e = s + k, *d = s; int confl = -1;
    while (s < e) {
      Watch x = *s++; signed char vb = val[x.b];
      if (vb > 0) { *d++ = x; continue; }
      if (x.c & BIN) {
        *d++ = x;
        if (vb < 0) { confl = x.c & ~BIN; break; }
        assign(x.b, x.c & ~BIN); continue;
      }
      int *l = LITS(x.c), z = SZ(x.c);
      if (l[0] == np_) { l[0] = l[1]; l[1] = np_; }
      int f = l[0];
      if (f != x.b && val[f] > 0) { *d++ = (Watch){ x.c, f }; continue; }
      int q = 2; while (q < z && val[l[q]] < 0) q++;
      if (q < z) { int t = l[q]; l[1] = t; l[q] = np_; size_t so = (size_t)(s - WP), eo = (size_t)(e - WP), dof = (size_t)(d - WP); watch(t ^ 1, x.c, f); s = WP + so; e = WP + eo; d = WP + dof; continue; }
      *d++ = (Watch){ x.c, f };
      if (val[f] < 0) { confl = x.c; break; }
      assign(f, x.c);
    }
    while (s < e) *d++ = *s++;
    wl[p].k = (int)(d - (WP + wl[p].o));
    if (confl >= 0) return confl;
  }
}

// ---------------------------------------------------------------- proof, kept as words: [id, k, lits.., h, hints..]; [0, id] deletes
static u32 *P; static size_t pn, pcap;
static inline void pw(u32 x) { if (pn == pcap) { pcap = pcap ? 2 * pcap : 1 << 14; P = xr(P, pcap * 4); } P[pn++] = x; }
// antecedents of v's literal (all false literals of its reason but its own); id of the reason
static int abuf[3];
static inline u32 ante(int v, const int **l, int *k) {
  int r = reason[v];
  if (r >= 0) { *l = LITS(r); *k = SZ(r); return (u32)A[r + 1]; }
  if (r <= -1000) { *k = dlits(r, abuf); *l = abuf; return 0; }
  int m = -2 - r, i, j; ends(val[2 * v] > 0 ? 2 * v : 2 * v + 1, &i, &j);
  abuf[0] = olit(m, i); abuf[1] = olit(j, m); *l = abuf; *k = 2; return 0;
}
static inline u32 rid(int v) { int r = reason[v]; if (r >= 0) return (u32)A[r + 1]; if (r <= -1000) return did(r); int i, j; ends(val[2 * v] > 0 ? 2 * v : 2 * v + 1, &i, &j); return tid(i, -2 - r, j); }
// id of the unit clause of a level-0 literal, derived when first asked for
static u32 unit(int v) {
  if (uid[v]) return uid[v];
  const int *l; int k, h = 0; ante(v, &l, &k); u32 *hs = malloc(4 * k + 4); int *lc = malloc(4 * k); memcpy(lc, l, 4 * k);
  for (int q = 0; q < k; q++) if (lc[q] >> 1 != v) hs[h++] = unit(lc[q] >> 1);
  hs[h++] = rid(v); free(lc);
  uid[v] = nextid++; pw(uid[v]); pw(1); pw(val[2 * v] > 0 ? 2 * v : 2 * v + 1); pw(h); for (int q = 0; q < h; q++) pw(hs[q]);
  free(hs); return uid[v];
}

// ---------------------------------------------------------------- conflict analysis
static int *lc, nlc, *clr, nclr, *stk, *hv, nhv, *mv, nmv, *zv, nzv; static u32 *lstamp, lst;
static u32 abst(int v) { return 1u << (level[v] & 31); }
static int cmp_tpos(const void *a, const void *b) { return tpos[*(int *)a] - tpos[*(int *)b]; }
// seen: 1 in the clause or resolved, 2 known redundant, 3 known not
static int redundant(int v0, u32 lev) {
  // iterative, as minisat 2.2: all antecedents lead to seen or level 0
  int top = nclr, sp = 0; stk[sp++] = v0;
  while (sp) {
    int v = stk[--sp]; const int *l; int k; ante(v, &l, &k);
    for (int q = 0; q < k; q++) {
      int u = l[q] >> 1;
      if (u == v || seen[u] || !level[u]) continue;
      if (reason[u] != NONE && (abst(u) & lev)) { seen[u] = 2; clr[nclr++] = u; stk[sp++] = u; }
      else { while (nclr > top) seen[clr[--nclr]] = 0; return 0; }
    }
  }
  return 1;
}
static void need_zero(int v) { if (!(seen[v] & 8)) { seen[v] |= 8; zv[nzv++] = v; } }
static void bumpc(int c) { float f; memcpy(&f, A + c + 3, 4); f += (float)cinc; memcpy(A + c + 3, &f, 4); if (f > 1e20f) { for (int i = 0; i < nlearn; i++) { memcpy(&f, A + learnts[i] + 3, 4); f *= 1e-20f; memcpy(A + learnts[i] + 3, &f, 4); } cinc *= 1e-20; } }
static int calc_lbd(const int *l, int k) { lst++; int d = 0; for (int q = 0; q < k; q++) { int e = level[l[q] >> 1]; if (e && lstamp[e] != lst) { lstamp[e] = lst; d++; } } return d; }
static void final_conflict(int c) {             // at level 0
  u32 *hs = malloc(4 * (size_t)(V + 2)); int h = 0; int tl[3]; const int *l; int k; u32 id;
  if (c == TRICONF) { tl[0] = olit(ctri[1], ctri[0]); tl[1] = olit(ctri[2], ctri[1]); tl[2] = olit(ctri[0], ctri[2]); l = tl; k = 3; id = tid(ctri[0], ctri[1], ctri[2]); } else if (c <= -1000) { k = dlits(c, tl); l = tl; id = did(c); } else { l = LITS(c); k = SZ(c); id = (u32)A[c + 1]; }
  for (int q = 0; q < k; q++) { int dup = 0; for (int r = 0; r < q; r++) dup |= l[r] == l[q]; if (!dup) hs[h++] = unit(l[q] >> 1); }
  hs[h++] = id; pw(nextid++); pw(0); pw(h); for (int q = 0; q < h; q++) pw(hs[q]);
  free(hs);
}
// learns; the clause is in lc[0..nlc), lc[0] the UIP; returns the level to go back to
static int analyse(int c, u32 *newid, int *lbd) {
  int path = 0, idx = nt - 1, p = -1, tl[3]; const int *l; int k; u32 cid;
  nlc = 1; nclr = nhv = nzv = nmv = 0;
  if (c == TRICONF) { tl[0] = olit(ctri[1], ctri[0]); tl[1] = olit(ctri[2], ctri[1]); tl[2] = olit(ctri[0], ctri[2]); l = tl; k = 3; cid = tid(ctri[0], ctri[1], ctri[2]); }
  else if (c <= -1000) { k = dlits(c, tl); l = tl; cid = did(c); }
  else { l = LITS(c); k = SZ(c); cid = (u32)A[c + 1]; if (A[c] >> 30 & 1) bumpc(c); }
  for (;;) {
    for (int q = 0; q < k; q++) {
      int u = l[q] >> 1; if (l[q] == p || seen[u] & 7) continue;
      if (!level[u]) { need_zero(u); continue; }
      seen[u] = 1; clr[nclr++] = u; bump(u);
      if (level[u] == dl) path++; else lc[nlc++] = l[q];
    }
    while (!(seen[trail[idx] >> 1] & 7)) idx--;
    p = trail[idx--]; 
    if (!--path) break;
    int v = p >> 1; hv[nhv++] = v; ante(v, &l, &k);
    if (reason[v] >= 0 && A[reason[v]] >> 30 & 1) bumpc(reason[v]);
  }
  lc[0] = p ^ 1;
  int before = nlc;
  if (oMin) {
    u32 lev = 0; for (int q = 1; q < nlc; q++) lev |= abst(lc[q] >> 1);
    int j = 1, m = 0; static int *rm; static int rmcap; if (rmcap < nlc) { rmcap = 2 * nlc; rm = xr(rm, 4 * rmcap); }
    for (int q = 1; q < nlc; q++) { int v = lc[q] >> 1; if (reason[v] == NONE || !redundant(v, lev)) lc[j++] = lc[q]; else rm[m++] = v; }
    nlc = j;
    if (m) {                                    // which reasons the removals need: 4 = in the clause, 16 = collected
      for (int q = 0; q < nlc; q++) seen[lc[q] >> 1] |= 4;
      int sp = 0; for (int q = 0; q < m; q++) { seen[rm[q]] |= 16; mv[nmv++] = rm[q]; stk[sp++] = rm[q]; }
      while (sp) {
        int v = stk[--sp]; ante(v, &l, &k);
        for (int q = 0; q < k; q++) { int u = l[q] >> 1; if (u == v) continue; if (!level[u]) { need_zero(u); continue; } if (seen[u] & 20) continue; seen[u] |= 16; mv[nmv++] = u; stk[sp++] = u; }
      }
      qsort(mv, nmv, sizeof *mv, cmp_tpos);
    }
  }
  learned_lits += nlc; min_lits += before - nlc;
  // proof step: units, removals by trail place, the path from its start, the conflict
  for (int q = 0; q < nzv; q++) unit(zv[q]);
  *newid = nextid++; pw(*newid); pw(nlc); for (int q = 0; q < nlc; q++) pw(lc[q]);
  pw(nzv + nmv + nhv + 1); for (int q = 0; q < nzv; q++) pw(uid[zv[q]]);
  for (int q = 0; q < nmv; q++) pw(rid(mv[q]));
  for (int q = nhv; q--;) pw(rid(hv[q]));
  pw(cid);
  for (int q = 0; q < nclr; q++) seen[clr[q]] = 0;
  for (int q = 0; q < nzv; q++) seen[zv[q]] = 0;
  for (int q = 0; q < nmv; q++) seen[mv[q]] = 0;
  *lbd = calc_lbd(lc, nlc);
  int bl = 0;
  if (nlc > 1) { int m = 1; for (int q = 2; q < nlc; q++) if (level[lc[q] >> 1] > level[lc[m] >> 1]) m = q; int t = lc[1]; lc[1] = lc[m]; lc[m] = t; bl = level[lc[1] >> 1]; }
  return bl;
}

// ---------------------------------------------------------------- deletion of lemmas
static int locked(int c) { int v = LITS(c)[0] >> 1, u = LITS(c)[1] >> 1; return (val[LITS(c)[0]] > 0 && reason[v] == c) || (val[LITS(c)[1]] > 0 && reason[u] == c); }
static int cmp_cl(const void *a, const void *b) {
  int x = *(int *)a, y = *(int *)b; int lx = A[x + 2], ly = A[y + 2];
  if (lx != ly) return ly - lx;
  float fx, fy; memcpy(&fx, A + x + 3, 4); memcpy(&fy, A + y + 3, 4); return fx < fy ? -1 : fx > fy ? 1 : x - y;
}
static void reduce(void) {
  reduces++;
  qsort(learnts, nlearn, sizeof *learnts, cmp_cl);
  int j = 0, half = nlearn / 2;
  for (int i = 0; i < nlearn; i++) {
    int c = learnts[i];
    if (i < half && A[c + 2] > oLbd && SZ(c) > 2 && !locked(c)) { A[c] |= 1 << 29; pw(0); pw((u32)A[c + 1]); } else learnts[j++] = c;
  }
  nlearn = j;
  for (int l = 2; l < 2 * V + 2; l++) { Watch *s = WP + wl[l].o; int k = 0; for (int i = 0; i < wl[l].k; i++) if (s[i].c & BIN || !(A[s[i].c] >> 29 & 1)) s[k++] = s[i]; wl[l].k = k; }
  // compact the arena: originals come first and stay; forward pointers in A[c+1]
  size_t from = 0, to = 0;
  static int *nw_; static size_t nwc; if (nwc < an) { nwc = an; nw_ = xr(nw_, nwc * sizeof *nw_); }
  while (from < an) { int sz = (int)(SZ(from)) + 4; if (A[from] >> 29 & 1) { from += sz; continue; } nw_[from] = (int)to; memmove(A + to, A + from, sz * sizeof *A); to += sz; from += sz; }
  an = to;
  for (int i = 0; i < nlearn; i++) learnts[i] = nw_[learnts[i]];
  for (int l = 2; l < 2 * V + 2; l++) { Watch *s = WP + wl[l].o; for (int i = 0; i < wl[l].k; i++) s[i].c = s[i].c & BIN ? nw_[s[i].c & ~BIN] | BIN : nw_[s[i].c]; }
  for (int t = 0; t < nt; t++) { int v = trail[t] >> 1; if (reason[v] >= 0) reason[v] = nw_[reason[v]]; }
}

// ---------------------------------------------------------------- the formula: units of A, families D and E
static int *wr[4096], nw[4096]; static int unsat0 = -1;
static void add(const int *l, int k, u32 id) {  // at level 0, before any propagation of D, E
  int t[4] = {0}, *b = k <= 4 ? t : malloc(4 * k), f = 0;
  for (int i = 0; i < k; i++) if (val[l[i]] > 0) { if (b != t) free(b); return; }
  for (int i = 0; i < k; i++) if (val[l[i]] == 0) b[f++] = l[i];
  int free_ = f; for (int i = 0; i < k; i++) if (val[l[i]] < 0) b[f++] = l[i];
  for (int i = 0; i < k; i++) isdec[l[i] >> 1] = 1;
  int c = newclause(b, k, id, 0); if (b != t) free(b);
  if (free_ == 0) { if (unsat0 < 0) unsat0 = c; return; }
  if (free_ == 1) { if (k == 1) uid[LITS(c)[0] >> 1] = id; assign(LITS(c)[0], c); return; }
  // attached later, all at once
}
static void setup(void) {
  for (int i = 0; i < n; i++) nw[ops[i].loc] += ops[i].kind != 'R';
  for (int a = 0; a < nl; a++) { wr[a] = malloc(4 * nw[a] + 4); nw[a] = 0; }
  for (int i = 0; i < n; i++) if (ops[i].kind != 'R') { int a = ops[i].loc; wr[a][nw[a]++] = i; wm[a][i >> 6] |= BIT(i); }
  NO = n * (n - 1) / 2; NW = (n + 63) / 64; V = NO;
  int nf = 0, *ord = malloc(4 * nl + 4); for (int a = 0; a < nl; a++) if (hf[a]) ord[nf++] = a;
  qsort(ord, nf, sizeof *ord, byname);
  for (int r = 0; r < n; r++) if (ops[r].kind != 'W') {
    int a = ops[r].loc, k = hi[a] && init[a] == ops[r].d; for (int q = 0; q < nw[a]; q++) k += wr[a][q] != r && leaves(&ops[wr[a][q]]) == ops[r].d;
    V += k ? k : 1;
  }
  nchoice = V - NO;
  for (int o = 0; o < nf; o++) { int a = ord[o], k = 0; for (int q = 0; q < nw[a]; q++) k += leaves(&ops[wr[a][q]]) == fin[a]; if (!k && !nw[a] && hi[a] && init[a] == fin[a]) continue; V += k ? k : 1; }
  for (int i = 0; i < n; i++) rb[i] = i * (2 * n - i - 1) / 2 - i;
  vi = malloc(V + 1); vj = malloc(V + 1); for (int i = 0; i < n; i++) for (int j = i + 1; j < n; j++) { vi[rb[i] + j] = i; vj[rb[i] + j] = j; }
  u32 T = 0, S = 0; for (int i = 0; i < n; i++) { tS[i] = S; S += n - 1 - i; u32 m = n - 1 - i; tP[i] = T - S; T += m * (m - 1) / 2; }   // rank(i,j,k) = tP[i] + tS[j] + k-j-1
  size_t L = 2 * (size_t)V + 2;
  val = calloc(L, 1); wl = calloc(L, sizeof *wl); trail = malloc(4 * V + 4); level = malloc(4 * V + 4); reason = malloc(4 * V + 4); tpos = malloc(4 * V + 4); uid = calloc(V + 1, 4);
  phase = calloc(V + 1, 1); seen = calloc(V + 1, 1); isdec = calloc(V + 1, 1); lim = malloc(4 * V + 8); act = calloc(V + 1, 8); heap = malloc(4 * V + 4); hp = malloc(4 * V + 4);
  lc = malloc(4 * V + 4); clr = malloc(4 * V + 4); stk = malloc(4 * V + 4); hv = malloc(4 * V + 4); mv = malloc(4 * V + 4); zv = malloc(4 * V + 4); lstamp = calloc(V + 2, 4);
  // A
  u32 id = 0; static int au[MAXN]; 
  for (int i = 0; i + 1 < n; i++) if (!ops[i].last) { id++; au[i] = id; uid[rb[i] + i + 1] = id; }
  nA = id; nC0 = nA + 2 * T; id = nC0;
  for (int i = 0; i + 1 < n; i++) if (au[i] && !val[olit(i, i + 1)]) assign(olit(i, i + 1), NONE);
  if (oMode) propagate();
  // D
  if (oNative) { if (oMode) exit(2); ch = calloc(nchoice + 2, sizeof *ch); chv = calloc(n, sizeof *chv); cdm = calloc(n, sizeof *cdm); rdm = calloc(n, sizeof *rdm); chm = calloc(n, sizeof *chm); chosen = malloc(2 * n); for (int i = 0; i < n; i++) chosen[i] = -1; for (int q = 0; q <= nchoice; q++) ch[q].r = ch[q].w = -1; }
  int v = NO; static int cl[2 * MAXN + 8]; int *big = malloc(4 * V + 4);
  for (int r = 0; r < n; r++) {
    if (ops[r].kind == 'W') continue;
    int a = ops[r].loc, v0 = v, isw = ops[r].kind == 'U', *w = wr[a], i0 = hi[a] && init[a] == ops[r].d; v += i0;
    for (int q = 0; q < nw[a]; q++) v += w[q] != r && leaves(&ops[w[q]]) == ops[r].d;
    if (v == v0) { v++; cl[0] = 2 * v; add(cl, 1, ++id); cl[0] = 2 * v + 1; add(cl, 1, ++id); continue; }
    if (oNative) {
      u32 cid = ++id; int s = v0; id++;
      if (i0) { s++; ch[s - NO].r = r; ch[s - NO].id = id; chv[r][r] = s; id += nw[a] - isw; }
      for (int c = 0; c < nw[a]; c++) if (w[c] != r && leaves(&ops[w[c]]) == ops[r].d) {
        s++; ch[s - NO].r = r; ch[s - NO].w = w[c]; ch[s - NO].id = id; chv[r][w[c]] = s; cdm[r][w[c] >> 6] |= BIT(w[c]); rdm[w[c]][r >> 6] |= BIT(r); id += nw[a] - isw;
        for (int q = 0; q < nw[a]; q++) if (w[q] != r) { if (q != c) isdec[olit(w[q], w[c]) >> 1] = 1; isdec[olit(w[q], r) >> 1] = 1; }
      }
      if (i0) for (int q = 0; q < nw[a]; q++) if (w[q] != r) isdec[olit(w[q], r) >> 1] = 1;
      int k = 0; for (int t = v0 + 1; t <= v; t++) big[k++] = 2 * t;
      add(big, k, cid); id--; continue;
    }
    u32 cid = ++id; int s = v0;                 // its clause is added last, when more is known false
    if (i0) { s++; for (int q = 0; q < nw[a]; q++) if (w[q] != r) { cl[0] = 2 * s + 1; cl[1] = olit(r, w[q]); add(cl, 2, ++id); } }
    for (int c = 0; c < nw[a]; c++) if (w[c] != r && leaves(&ops[w[c]]) == ops[r].d) {
      s++; cl[0] = 2 * s + 1; cl[1] = olit(w[c], r); add(cl, 2, ++id);
      if (val[2 * s + 1] > 0) { id += nw[a] - 1 - isw; continue; }
      for (int q = 0; q < nw[a]; q++) if (q != c && w[q] != r) {
        id++; int x = w[q];
        if (su[x][w[c] >> 6] & BIT(w[c]) || pr[x][r >> 6] & BIT(r)) continue;   // true already
        cl[0] = 2 * s + 1; cl[1] = olit(x, w[c]); cl[2] = olit(r, x); add(cl, 3, id);
      }
    }
    int k = 0; for (int t = v0 + 1; t <= v; t++) big[k++] = 2 * t;
    add(big, k, cid);
  }
  // E
  for (int o = 0; o < nf; o++) {
    int a = ord[o], v0 = v, *w = wr[a]; for (int q = 0; q < nw[a]; q++) v += leaves(&ops[w[q]]) == fin[a];
    if (v == v0) { if (!nw[a] && hi[a] && init[a] == fin[a]) continue; v++; cl[0] = 2 * v; add(cl, 1, ++id); cl[0] = 2 * v + 1; add(cl, 1, ++id); continue; }
    u32 cid = ++id; int s = v0;
    for (int c = 0; c < nw[a]; c++) if (leaves(&ops[w[c]]) == fin[a]) { s++; for (int q = 0; q < nw[a]; q++) if (q != c) { cl[0] = 2 * s + 1; cl[1] = olit(w[q], w[c]); add(cl, 2, ++id); } }
    int k = 0; for (int t = v0 + 1; t <= v; t++) big[k++] = 2 * t;
    add(big, k, cid);
  }
  free(big); free(ord);
  nextid = id + 1;
  // watches: count, then one slab; a clause whose two first literals are not both free any more is looked at again
  int from = nt;
  for (size_t c = 0; c < an; c += SZ(c) + 4) { int *l = LITS(c), k = SZ(c); if (k < 2) continue;
    int f = 0, sat = 0; for (int q = 0; q < k; q++) { if (val[l[q]] > 0) sat = 1; }
    if (sat) continue;
    for (int q = 0; q < k && f < 2; q++) if (!val[l[q]]) { int t = l[f]; l[f] = l[q]; l[q] = t; f++; }
    if (f == 0 && unsat0 < 0) unsat0 = (int)c;
    if (f == 1) { assign(l[0], (int)c); }
    if (f == 2) { wl[l[0] ^ 1].cap++; wl[l[1] ^ 1].cap++; } }
  size_t tot = 0; for (size_t l = 0; l < L; l++) { if (wl[l].cap) wl[l].cap += 4; wl[l].o = tot; tot += wl[l].cap; }
  wcap = tot + 4096; WP = malloc(wcap * sizeof *WP); wn = tot;
  if (oMode == 0 && !oNative) qh = from;                    // watched literals that became false did so after `from`
  for (size_t c = 0; c < an; c += SZ(c) + 4) { int *l = LITS(c), k = SZ(c), sat = k < 2; for (int q = 0; q < k && !sat; q++) sat |= val[l[q]] > 0; if (!sat) attach((int)c); }
}

// ---------------------------------------------------------------- phases, schedules
static int rank_[MAXN];
static void greedy_rank(void) {                 // a schedule by simulation: a head whose value fits, longest rest first
  int nxt[64], st[65], rest, done = 0; u64 cur[4096]; char has[4096]; for (int a = 0; a < nl; a++) { cur[a] = init[a]; has[a] = hi[a]; }
  int p = -1; for (int i = 0; i < n; i++) if (ops[i].proc != p) { for (int q = p + 1; q <= ops[i].proc; q++) st[q] = i; p = ops[i].proc; } for (int q = p + 1; q <= np; q++) st[q] = n; st[np] = n;
  for (int q = 0; q < np; q++) nxt[q] = st[q];
  while (done < n) {
    int best = -1, bs = -1;
    for (int q = 0; q < np; q++) if (nxt[q] < st[q + 1]) {
      Op *o = &ops[nxt[q]]; rest = st[q + 1] - nxt[q];
      int ok = o->kind == 'W' || (has[o->loc] && cur[o->loc] == o->d);
      int sc = (o->kind == 'R' && ok ? 2000 : o->kind == 'U' && ok ? 1500 : ok ? 1000 : 0) + rest;
      if (sc > bs) { bs = sc; best = q; }
    }
    int i = nxt[best]++; rank_[i] = done++; if (ops[i].kind != 'R') { cur[ops[i].loc] = leaves(&ops[i]); has[ops[i].loc] = 1; }
  }
}
static void init_phases(void) {
  static int len[64]; for (int i = 0; i < n; i++) len[ops[i].proc]++;
  if (oPhase == 3) greedy_rank();
  for (int v = 1; v <= NO; v++) {
    int i = vi[v], j = vj[v], t = 0;
    switch (oPhase) { case 1: t = 1; break; case 2: t = ops[i].pos <= ops[j].pos; break; case 3: t = rank_[i] < rank_[j]; break; case 4: t = ops[i].pos * len[ops[j].proc] <= ops[j].pos * len[ops[i].proc]; break; }
    phase[v] = !t;
  }
  for (int v = NO + 1; v <= V; v++) { phase[v] = !oCphase; if (oChoice == 1) act[v] = 1; if (oChoice == 2) act[v] = 1e30; }
}
// the next decision along a partial schedule: a literal, or -1
static int sched_pick(void) {
  static int st[65]; static int ready; if (!ready) { ready = 1; int p = -1; for (int i = 0; i < n; i++) if (ops[i].proc != p) { for (int q = p + 1; q <= ops[i].proc; q++) st[q] = i; p = ops[i].proc; } for (int q = p + 1; q <= np; q++) st[q] = n; st[np] = n; }
  int nxt[64]; static u64 cur[4096]; static char has[4096]; for (int a = 0; a < nl; a++) { cur[a] = init[a]; has[a] = hi[a]; }
  for (int q = 0; q < np; q++) nxt[q] = st[q];
  for (;;) {
    int best = -1, other = -1, any = 0; double bs = -1;
    for (int q = 0; q < np; q++) if (nxt[q] < st[q + 1]) {
      any = 1; int h = nxt[q], free_ = -1, bad = 0;
      for (int g = 0; g < np && !bad; g++) if (g != q && nxt[g] < st[g + 1]) { int l = olit(h, nxt[g]); if (val[l] < 0) bad = 1; else if (!val[l] && free_ < 0) free_ = l; }
      if (bad) continue;
      Op *o = &ops[h]; int ok = o->kind == 'W' || (has[o->loc] && cur[o->loc] == o->d);
      if (free_ < 0) { if (!ok) return -1; best = q; other = -1; break; }
      if (!ok) continue;
      double sc = (o->kind == 'R' ? 2000 : 1000) + (phase[free_ >> 1] == (free_ & 1) ? 500 : 0) + st[q + 1] - h;
      if (sc > bs) { bs = sc; best = q; other = free_; }
    }
    if (!any || best < 0) return -1;
    if (other >= 0) return other;
    int h = nxt[best]++; if (ops[h].kind != 'R') { cur[ops[h].loc] = leaves(&ops[h]); has[ops[h].loc] = 1; }
  }
}

// ---------------------------------------------------------------- search
static double luby(double y, int x) { int size = 1, seq = 0; while (size < x + 1) { seq++; size = 2 * size + 1; } while (size - 1 != x) { size = (size - 1) >> 1; seq--; x %= size; } return pow(y, seq); }
static int assume[24], nassume;
static int learn(int c) {                       // 0: refuted
  u32 id; int lbd; int bl = analyse(c, &id, &lbd); undo(bl);
  if (nlc == 1) { int k = newclause(lc, 1, id, 1); uid[lc[0] >> 1] = id; assign(lc[0], k); }
  else { int k = newclause(lc, nlc, id, 1); A[k + 2] = lbd; attach(k); if (nlearn == lcap) { lcap = lcap ? 2 * lcap : 1024; learnts = xr(learnts, 4 * lcap); } learnts[nlearn++] = k; if (nlc > 2) bumpc(k); assign(lc[0], k); }
  inc /= oDecay; cinc /= 0.999;
  return lbd;
}
static int probe(void) {                        // failed literals at level 0; 0: refuted
  u8 *keep = malloc(V + 1); memcpy(keep, phase, V + 1);
  for (int r = 0; r < oProbe; r++) {
    int any = 0;
    for (int v = 1; v <= V; v++) if (isdec[v]) for (int s = 0; s < 2; s++) if (!val[2 * v]) {
      lim[dl++] = nt; assign(2 * v + s, NONE); int c = propagate();
      if (c == -1) { undo(0); continue; }
      any = 1; probes_failed++; double oi = inc; learn(c); inc = oi; if ((c = propagate()) != -1) { final_conflict(c); return 0; }
    }
    if (!any) break;
  }
  memcpy(phase, keep, V + 1); free(keep); return 1;
}
// 1 model, 0 refuted, -1 limit, -2 refuted under the assumptions
static int search(void) {
  long rc = 0, nextred = conflicts + oRed, redinc = 0, rno = 0, rlim = oRf; double fast = 0, slow = 0; long since = 0;
  for (;;) {
    int insched = oSched == 1 || (oSched == 3 && !(restarts & 1));
    int c = propagate();
    if (c != -1) {
      conflicts++; rc++; since++;
      if (dl == 0) { final_conflict(c); return 0; }
      int lbd = learn(c);
      fast += (lbd - fast) / 32; slow += (lbd - slow) / (conflicts < 8192 ? conflicts + 1 : 8192);
      continue;
    }
    if (oLimit >= 0 && conflicts >= oLimit) return -1;
    if (oGlucose ? since >= 50 && fast * 0.85 > slow : rc >= rlim) { undo(0); restarts++; rc = 0; since = 0; rlim = (long)(luby(2, (int)++rno) * oRf); if (oGlucose) fast = slow; continue; }
    if (conflicts >= nextred) { redinc += oRedinc; nextred = conflicts + oRed + redinc; reduce(); }
    int l = -1;
    while (dl < nassume) { int x = assume[dl]; if (val[x] > 0) lim[dl++] = nt; else if (val[x] < 0) return -2; else { l = x; break; } }
    if (l < 0 && insched) l = sched_pick();
    if (l < 0) { int v = 0; while (hn) { int u = hpop(); if (!val[2 * u]) { v = u; break; } } if (!v) return 1; l = 2 * v + phase[v]; }
    decisions++; lim[dl++] = nt; assign(l, NONE);
  }
}

// ---------------------------------------------------------------- output
static char *ob; static size_t on, ocap; static int ofd; static size_t ototal;
static void oflush(void) { size_t o = 0; while (o < on) { ssize_t k = write(ofd, ob + o, on - o); if (k <= 0) exit(4); o += k; } ototal += on; on = 0; }
static inline void onum(long x) { if (on + 32 > ocap) { if (!ob) { ocap = 1 << 18; ob = malloc(ocap); } else oflush(); } if (x < 0) { ob[on++] = '-'; x = -x; } char t[24]; int k = 0; do t[k++] = '0' + x % 10; while (x /= 10); while (k) ob[on++] = t[--k]; ob[on++] = ' '; }
static inline void ochar(char c) { ob[on - 1] = c; }
static inline long slit(u32 l) { return l & 1 ? -(long)(l >> 1) : (long)(l >> 1); }
static size_t steps_all, steps_used, hints_used;
static void write_proof(int fd, u32 first) {    // first: the first id that is a lemma's
  ofd = fd; ototal = 0; u32 m = nextid - first; u8 *use = calloc(m + 1, 1); 
  size_t *at = malloc((m + 1) * sizeof *at); memset(at, 0, (m + 1) * sizeof *at);
  for (size_t i = 0; i < pn;) { if (!P[i]) { i += 2; continue; } at[P[i] - first] = i + 1; i += 2 + P[i + 1]; i += 1 + P[i]; steps_all++; }
  if (oTrim) { use[m - 1] = 1; for (u32 s = m; s--;) if (use[s]) { size_t i = at[s] - 1; size_t k = P[i + 1], h = P[i + 2 + k]; for (size_t q = 0; q < h; q++) { u32 x = P[i + 3 + k + q]; if (x >= first) use[x - first] = 1; } } } else memset(use, 1, m);
  u32 last = first - 1;
  for (size_t i = 0; i < pn;) {
    if (!P[i]) { if (use[P[i + 1] - first]) { onum(last); if (on + 8 > ocap) oflush(); ob[on++] = 'd'; ob[on++] = ' '; onum(P[i + 1]); onum(0); ochar('\n'); } i += 2; continue; }
    size_t k = P[i + 1], h = P[i + 2 + k]; 
    if (use[P[i] - first]) { steps_used++; hints_used += h; last = P[i]; onum(P[i]); for (size_t q = 0; q < k; q++) onum(slit(P[i + 2 + q])); onum(0); for (size_t q = 0; q < h; q++) onum(P[i + 3 + k + q]); onum(0); ochar('\n'); }
    i += 3 + k + h;
  }
  oflush(); free(use); free(at);
}
static int cmp_pc(const void *a, const void *b) { int x = *(int *)a, y = *(int *)b, c = 0; for (int w = 0; w < NW; w++) c += __builtin_popcountll(pr[x][w]) - __builtin_popcountll(pr[y][w]); return c ? c : x - y; }
static void write_model(void) {                 // a linear extension of the closed relation: by number of predecessors
  int o[MAXN], at[MAXN]; for (int i = 0; i < n; i++) o[i] = i; qsort(o, n, sizeof *o, cmp_pc); for (int i = 0; i < n; i++) at[o[i]] = i;
  ofd = 1; fflush(stdout); onum(0); on = 0; memcpy(ob, "v ", 2); on = 2;
  for (int v = 1; v <= NO; v++) onum(at[vi[v]] < at[vj[v]] ? v : -v);
  for (int v = NO + 1; v <= V; v++) onum(val[2 * v] > 0 ? v : -v);
  onum(0); ochar('\n'); oflush();
}
static void stats(const char *what, double t0) {
  struct rusage r; getrusage(RUSAGE_SELF, &r); double t = cpu();
  fprintf(stderr, "%s n %d V %d conflicts %ld decisions %ld props %ld (trans %ld) restarts %ld reduces %ld probes %ld lits %.1f min %.0f%% cpu %.4f (setup %.4f) props/s %.2fM mem %ld kB\n", what, n, V, conflicts, decisions, props, tprops, restarts, reduces, probes_failed, conflicts ? (double)learned_lits / conflicts : 0.0, learned_lits ? 100.0 * min_lits / (learned_lits + min_lits) : 0.0, t, t0, props / (t - t0 + 1e-9) * 1e-6, r.ru_maxrss);
}
int main(int argc, char **argv) {
  if (argc < 2) return 2;
  for (int i = 2; i < argc; i++) {
#define OPT(s) !strcmp(argv[i], s)
    if (OPT("-p")) oProof = argv[++i]; else if (OPT("-notrim")) oTrim = 0; else if (OPT("-v")) oV = 1; else if (OPT("-q")) oQ = 1; else if (OPT("-mode")) oMode = atoi(argv[++i]);
    else if (OPT("-red")) oRed = atoi(argv[++i]); else if (OPT("-redinc")) oRedinc = atoi(argv[++i]); else if (OPT("-lbd")) oLbd = atoi(argv[++i]); else if (OPT("-stored")) oNative = 0; else if (OPT("-alldec")) oAll = 1; else if (OPT("-phase")) oPhase = atoi(argv[++i]); else if (OPT("-choice")) oChoice = atoi(argv[++i]); else if (OPT("-cphase")) oCphase = atoi(argv[++i]);
    else if (OPT("-sched")) oSched = atoi(argv[++i]); else if (OPT("-probe")) oProbe = atoi(argv[++i]); else if (OPT("-glucose")) oGlucose = 1; else if (OPT("-rf")) oRf = atoi(argv[++i]); else if (OPT("-nomin")) oMin = 0;
    else if (OPT("-decay")) oDecay = atof(argv[++i]); else if (OPT("-cubes")) oCubes = atoi(argv[++i]); else if (OPT("-keep")) oKeep = 1; else if (OPT("-limit")) oLimit = atol(argv[++i]); else return 2;
  }
  if (oMode) oNative = 0;
  read_trace(argv[1]); setup();
  u32 first = nextid; double t0 = cpu(); int res;
  if (unsat0 >= 0) { final_conflict(unsat0); res = 0; goto out; }
  init_phases();
  for (int v = 1; v <= V; v++) hp[v] = -1;
  for (int v = V; v > NO; v--) if (oChoice == 2) { isdec[v] = 1; hput(v); }
  for (int v = 1; v <= V; v++) { if (oAll || v > NO) isdec[v] = 1; if (isdec[v]) hput(v); }
  { int c = propagate(); if (c != -1) { final_conflict(c); res = 0; goto out; } }
  if (oProbe && !probe()) { res = 0; goto out; }
  t0 = cpu();
  if (oCubes >= 0) {
    int sv[24], ns = 0; for (int i = 0; i < n && ns < oCubes; i++) for (int j = i + 1; j < n && ns < oCubes; j++) if (ops[i].proc != ops[j].proc && ops[i].loc == ops[j].loc && (ops[i].kind != 'R' || ops[j].kind != 'R')) sv[ns++] = rb[i] + j;
    long tot = 0, mx = 0; int sat = 0; double tc = 0, tm = 0; double c0 = cpu();
    for (int q = 0; q < 1 << ns; q++) {
      nassume = ns; for (int k = 0; k < ns; k++) assume[k] = 2 * sv[k] + (q >> (ns - 1 - k) & 1);
      long cf; int rs; double ct;
      if (oKeep) { long b = conflicts; double x = cpu(); rs = search(); cf = conflicts - b; ct = cpu() - x; undo(0); if (rs == 0) { q = 1 << ns; } }
      else { int fd[2]; if (pipe(fd)) return 4; pid_t pid = fork(); if (!pid) { double x = cpu(); long o[3]; o[0] = 9; for (int k = 0; k < ns && o[0] == 9; k++) { if (val[assume[k]] < 0) o[0] = 0; else if (!val[assume[k]]) { assign(assume[k], NONE); uid[assume[k] >> 1] = nextid++; if (propagate() != -1) o[0] = 0; } } nassume = 0; if (o[0] == 9) o[0] = search(); o[1] = conflicts; o[2] = (long)((cpu() - x) * 1e6); if (write(fd[1], o, sizeof o) < 0) _exit(4); _exit(0); } close(fd[1]); long o[3] = {0}; if (read(fd[0], o, sizeof o) < 0) return 4; close(fd[0]); waitpid(pid, 0, 0); rs = (int)o[0]; cf = o[1]; ct = o[2] * 1e-6; }
      tot += cf; tc += ct; if (cf > mx) mx = cf; if (ct > tm) tm = ct; sat |= rs == 1;
      if (oV) fprintf(stderr, "cube %d: %d conflicts %ld cpu %.4f\n", q, rs, cf, ct);
    }
    printf("cubes %d sat %d conflicts %ld largest %ld cpu %.4f largest %.4f base %.4f\n", 1 << ns, sat, tot, mx, tc, tm, c0); return 0;
  }
  res = search();
out:
  if (res == 1) { puts("s SATISFIABLE"); if (!oQ) write_model(); }
  else if (res == 0) { puts("s UNSATISFIABLE"); fflush(stdout); if (oProof) { int fd = open(oProof, O_CREAT | O_TRUNC | O_WRONLY, 0644); if (fd < 0) return 4; write_proof(fd, first); close(fd); } }
  else puts("s UNKNOWN");
  fflush(stdout);
  if (oV) { stats(res == 1 ? "SAT" : res == 0 ? "UNSAT" : "UNKNOWN", t0); if (res == 0 && oProof) fprintf(stderr, "proof bytes %zu steps %zu of %zu hints %zu words %zu\n", ototal, steps_used, steps_all, hints_used, pn); }
  return res == 1 ? 10 : res == 0 ? 20 : 0;
}
