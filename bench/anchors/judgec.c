// judgec: a plain, UNVERIFIED C judge, as a speed limit for `vsc judge`.
// usage: judgec TRACE SCHEDULE [repeat]
// LEGAL (0), or ILLEGAL c NAME at p (1) as docs/FORMATS.md says. Inputs are taken as well
// formed (a faulty line: status 2, unnamed). With `repeat` the whole work, reading
// from memory included, is done that many times (for a stable time per call).
#include <stdio.h>
#include <stdlib.h>
#include <string.h>
#include <stdint.h>
typedef uint64_t u64;
typedef struct { char kind; int loc; u64 d, e; } Op;
typedef struct { const char *s; int len; } Str;
static Op ops[4096]; static int n, start[65], np; static Str pn[64];
static Str ln[4096]; static int nl, hash[16384]; static u64 val[4096], fin[4096]; static char has[4096], hf[4096];
static char done[4096]; static int next[64];
static int same(Str a, Str b) { return a.len == b.len && !memcmp(a.s, b.s, a.len); }
static int loc(Str w) {
  uint32_t h = 5381; for (int i = 0; i < w.len; i++) h = h * 33 + (unsigned char)w.s[i];
  for (h &= 16383; hash[h]; h = (h + 1) & 16383) if (same(ln[hash[h] - 1], w)) return hash[h] - 1;
  if (nl == 4096) exit(2);
  ln[nl] = w; hash[h] = nl + 1; return nl++;
}
static u64 num(Str w) { u64 v = 0; if (!w.len) exit(2); for (int i = 0; i < w.len; i++) { if (w.s[i] < '0' || w.s[i] > '9') exit(2); v = v * 10 + (w.s[i] - '0'); } return v; }
static char *slurp(const char *f, long *len) { FILE *p = fopen(f, "rb"); if (!p) exit(4); fseek(p, 0, SEEK_END); *len = ftell(p); rewind(p); char *s = malloc(*len + 1); if (fread(s, 1, *len, p) != (size_t)*len) exit(4); s[*len] = '\n'; fclose(p); return s; }
static int words(const char **p, const char *e, Str *w) {   // one line, up to 5 words
  int k = 0; const char *q = *p;
  for (;;) {
    while (*q == ' ' || *q == '\t' || *q == '\r') q++;
    if (*q == '\n') break;
    const char *s = q; while (*q != ' ' && *q != '\t' && *q != '\r' && *q != '\n') q++;
    if (k < 5) { w[k].s = s; w[k].len = (int)(q - s); } k++;
  }
  *p = q + 1; (void)e; return k;
}
static int is(Str w, const char *s) { return (int)strlen(s) == w.len && !memcmp(w.s, s, w.len); }
static const char *name[] = { "", "UnknownOp", "RepeatedOp", "OutOfProgramOrder", "WrongRead", "MissingOp", "WrongFinal" };
static int run(const char *t, long tl, const char *s, long sl, int *place) {
  n = np = nl = 0; memset(hash, 0, sizeof hash); memset(has, 0, sizeof has); memset(hf, 0, sizeof hf); memset(done, 0, sizeof done); memset(next, 0, sizeof next);
  int header = 0; Str w[5]; const char *p = t, *e = t + tl;
  while (p < e) {
    int k = words(&p, e, w);
    if (!k || *w[0].s == '#') continue;
    if (!header) { if (k != 2 || !is(w[0], "vsc")) exit(2); header = 1; continue; }
    if (is(w[0], "proc")) { if (np == 64) exit(2); start[np] = n; pn[np++] = w[1]; continue; }
    if (k < 3 || k > 4) exit(2);
    int a = loc(w[1]); u64 d = num(w[2]);
    if (is(w[0], "init")) { val[a] = d; has[a] = 1; continue; }
    if (is(w[0], "final")) { fin[a] = d; hf[a] = 1; continue; }
    if (n == 4096 || !np) exit(2);
    Op *o = &ops[n++]; o->kind = *w[0].s; o->loc = a; o->d = d; o->e = o->kind == 'U' ? num(w[3]) : d;
  }
  start[np] = n; int pl = 0; p = s; e = s + sl; int bad = 0, count = 0;
  while (p < e) {
    int k = words(&p, e, w);
    if (!k || *w[0].s == '#') continue;
    const char *dot = memchr(w[0].s, '.', w[0].len); if (!dot || k != 1 || ++count > 4096) exit(2);
    if (bad) continue;                          // later lines are still read
    pl++;
    Str a = { w[0].s, (int)(dot - w[0].s) }, b = { dot + 1, (int)(w[0].s + w[0].len - dot - 1) }; u64 i = num(b);
    int q = 0; while (q < np && !same(pn[q], a)) q++;
    if (q == np || !i || i > (u64)(start[q + 1] - start[q])) { bad = 1; *place = pl; continue; }
    int x = start[q] + (int)i - 1;
    if (done[x]) { bad = 2; *place = pl; continue; }
    if (next[q] != (int)i - 1) { bad = 3; *place = pl; continue; }
    Op *o = &ops[x];
    if (o->kind != 'W' && (!has[o->loc] || val[o->loc] != o->d)) { bad = 4; *place = pl; continue; }
    if (o->kind != 'R') { has[o->loc] = 1; val[o->loc] = o->e; }
    done[x] = 1; next[q]++;
  }
  if (bad) return bad;
  *place = pl + 1;
  if (pl < n) return 5;
  for (int a = 0; a < nl; a++) if (hf[a] && (!has[a] || val[a] != fin[a])) return 6;
  return 0;
}
int main(int argc, char **argv) {
  if (argc < 3) return 2;
  long tl, sl; char *t = slurp(argv[1], &tl), *s = slurp(argv[2], &sl); int place = 0, c = 0;
  int reps = argc > 3 ? atoi(argv[3]) : 1;
  for (int i = 0; i < reps; i++) c = run(t, tl, s, sl, &place);
  if (!c) { puts("LEGAL"); return 0; }
  printf("ILLEGAL %d %s at %d\n", c, name[c], place); return 1;
}
