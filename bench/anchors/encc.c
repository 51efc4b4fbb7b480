// encc: a plain, UNVERIFIED C encoder (trace text -> reduced -> CNF text), as a speed
// limit for `vsc cnf`. With --compact it writes the clause list of docs/FORMATS.md, else
// an older one with a variable for each ordered pair.
// usage: encc TRACE [--compact]    CNF text on standard output
// The trace is taken as well formed (faults of a line end with status 2, unnamed);
// fewer than 65 kept operations (161 with --compact), else status 2.
#include <stdio.h>
#include <stdlib.h>
#include <string.h>
#include <stdint.h>
#include <unistd.h>
typedef uint64_t u64;
static char buf[1 << 18]; static size_t nb;
static void flush(void) { size_t o = 0; while (o < nb) { ssize_t k = write(1, buf + o, nb - o); if (k <= 0) exit(4); o += k; } nb = 0; }
static char dec[1 << 17][8];                    // "123 " of small numbers, length in [7]
static inline void lit(int l) {
  if (l < 0) { buf[nb++] = '-'; l = -l; }
  if (l < (1 << 17)) { memcpy(buf + nb, dec[l], 8); nb += dec[l][7]; return; }
  char t[12]; int k = 0; while (l) { t[k++] = '0' + l % 10; l /= 10; } while (k) buf[nb++] = t[--k]; buf[nb++] = ' ';
}
static inline void end(void) { buf[nb++] = '0'; buf[nb++] = '\n'; if (nb > sizeof buf - 4096) flush(); }
static inline void c1(int a) { lit(a); end(); }
static inline void c2(int a, int b) { lit(a); lit(b); end(); }
static inline void c3(int a, int b, int c) { lit(a); lit(b); lit(c); end(); }

typedef struct { char kind; int loc; u64 d, e; int last; } Op;
static Op ops[4096]; static int n;
static char *names[4096]; static int nl; static u64 init[4096], fin[4096]; static char hi[4096], hf[4096];
static int hash[16384];
static int loc(const char *w) {
  uint32_t h = 5381; for (const char *c = w; *c; c++) h = h * 33 + (unsigned char)*c;
  for (h &= 16383; hash[h]; h = (h + 1) & 16383) if (!strcmp(names[hash[h] - 1], w)) return hash[h] - 1;
  if (nl == 4096) exit(2);
  names[nl] = (char *)w; hash[h] = nl + 1; return nl++;
}
static u64 num(const char *w) { char *e; if (!w || *w < '0' || *w > '9') exit(2); u64 v = strtoull(w, &e, 10); if (*e) exit(2); return v; }
static u64 leaves(const Op *o) { return o->kind == 'U' ? o->e : o->d; }
static int X[160][160];
static int byname(const void *a, const void *b) { return strcmp(names[*(int *)a], names[*(int *)b]); }
static int *wr[4096], nw[4096];
int main(int argc, char **argv) {
  if (argc < 2) return 2;
  int compact = argc > 2 && !strcmp(argv[2], "--compact"), max = compact ? 160 : 64;
  FILE *f = fopen(argv[1], "rb"); if (!f) return 4;
  fseek(f, 0, SEEK_END); long len = ftell(f); rewind(f); char *s = malloc(len + 2); if (fread(s, 1, len, f) != (size_t)len) return 4; s[len] = '\n'; s[len + 1] = 0; fclose(f);
  int header = 0, inproc = 0, first = 1; Op prev = {0};
  for (char *p = s; *p;) {
    char *e = strchr(p, '\n'); *e = 0; char *w[5]; int k = 0;
    for (char *q = strtok(p, " \t\r"); q && k < 5; q = strtok(0, " \t\r")) w[k++] = q;
    p = e + 1;
    if (!k || *w[0] == '#') continue;
    if (!header) { if (k != 2 || strcmp(w[0], "vsc") || strcmp(w[1], "1")) return 2; header = 1; continue; }
    if (!strcmp(w[0], "init")) { int a = loc(w[1]); init[a] = num(w[2]); hi[a] = 1; continue; }
    if (!strcmp(w[0], "final")) { int a = loc(w[1]); fin[a] = num(w[2]); hf[a] = 1; continue; }
    if (!strcmp(w[0], "proc")) { inproc = 1; first = 1; if (n) ops[n - 1].last = 1; continue; }
    Op o = { .kind = *w[0] }; if (!inproc || k < 3) return 2;
    o.loc = loc(w[1]); o.d = num(w[2]); if (o.kind == 'U') o.e = num(w[3]);
    int drop = o.kind == 'R' && !first && prev.loc == o.loc && leaves(&prev) == o.d;
    prev = o; first = 0;
    if (drop) continue;
    if (n == max) return 2;
    ops[n++] = o;
  }
  if (n) ops[n - 1].last = 1;
  // `last` of a process whose operations all end before the next `proc` line was set above
  for (int i = 0; i < n; i++) nw[ops[i].loc] += ops[i].kind != 'R';
  for (int a = 0; a < nl; a++) { wr[a] = malloc(4 * nw[a] + 4); nw[a] = 0; }
  for (int i = 0; i < n; i++) if (ops[i].kind != 'R') wr[ops[i].loc][nw[ops[i].loc]++] = i;
  for (int i = 0; i < n; i++) for (int j = 0; j < n; j++) if (i != j)
    X[i][j] = compact ? (i < j ? i * (2 * n - i - 1) / 2 + (j - i) : -(j * (2 * n - j - 1) / 2 + (i - j))) : i * (n - 1) + (j < i ? j + 1 : j);
  int V = compact ? n * (n - 1) / 2 : n * (n - 1), order = V; long C = 0;
  for (int i = 0; i + 1 < n; i++) C += !ops[i].last;
  C += compact ? (long)n * (n - 1) * (n - 2) / 3 : (long)n * (n - 1) + (long)n * (n - 1) * (n - 2);
  int *ord = malloc(4 * nl + 4), nf = 0; for (int a = 0; a < nl; a++) if (hf[a]) ord[nf++] = a;
  qsort(ord, nf, sizeof *ord, byname);
  for (int pass = 0; pass < 2; pass++) {        // pass 0 counts, pass 1 writes
    if (pass) {
      for (int i = 0; i < 1 << 17; i++) { char t[16]; int k = sprintf(t, "%d ", i); memcpy(dec[i], t, 7); dec[i][7] = k; if (i >= V && i > 1) { break; } }
      nb += sprintf(buf, "p cnf %d %ld\n", V, C);
      for (int i = 0; i + 1 < n; i++) if (!ops[i].last) c1(X[i][i + 1]);
      if (!compact) {
        for (int i = 0; i < n; i++) for (int j = i + 1; j < n; j++) { c2(X[i][j], X[j][i]); c2(-X[i][j], -X[j][i]); }
        for (int i = 0; i < n; i++) for (int j = 0; j < n; j++) if (j != i) for (int k = 0; k < n; k++) if (k != i && k != j) c3(-X[i][j], -X[j][k], X[i][k]);
      } else for (int i = 0; i < n; i++) for (int j = i + 1; j < n; j++) for (int k = j + 1; k < n; k++) { c3(-X[i][j], -X[j][k], X[i][k]); c3(X[i][j], X[j][k], -X[i][k]); }
    }
    int v = order;
    for (int r = 0; r < n; r++) {
      if (ops[r].kind == 'W') continue;
      int a = ops[r].loc, v0 = v, isw = ops[r].kind == 'U'; int *w = wr[a];
      int i0 = hi[a] && init[a] == ops[r].d; v += i0;
      for (int q = 0; q < nw[a]; q++) v += w[q] != r && leaves(&ops[w[q]]) == ops[r].d;
      int k = v - v0;
      if (!k) { v++; if (pass) { c1(v); c1(-v); } else C += 2; continue; }
      if (!pass) { C += 1 + (i0 ? nw[a] - isw : 0) + (long)(k - i0) * (1 + nw[a] - 1 - isw); continue; }
      for (int s = v0 + 1; s <= v; s++) { lit(s); if (nb > sizeof buf - 4096) flush(); }
      end();
      int sv = v0;
      if (i0) { sv++; for (int q = 0; q < nw[a]; q++) if (w[q] != r) c2(-sv, X[r][w[q]]); }
      for (int c = 0; c < nw[a]; c++) if (w[c] != r && leaves(&ops[w[c]]) == ops[r].d) {
        sv++; c2(-sv, X[w[c]][r]);
        for (int q = 0; q < nw[a]; q++) if (q != c && w[q] != r) c3(-sv, X[w[q]][w[c]], X[r][w[q]]);
      }
    }
    for (int o = 0; o < nf; o++) {
      int a = ord[o], v0 = v; int *w = wr[a];
      for (int q = 0; q < nw[a]; q++) v += leaves(&ops[w[q]]) == fin[a];
      if (v == v0) {
        if (!nw[a] && hi[a] && init[a] == fin[a]) continue;
        v++; if (pass) { c1(v); c1(-v); } else C += 2;
        continue;
      }
      if (!pass) { C += 1 + (long)(v - v0) * (nw[a] - 1); continue; }
      for (int s = v0 + 1; s <= v; s++) lit(s);
      end();
      int sv = v0;
      for (int c = 0; c < nw[a]; c++) if (leaves(&ops[w[c]]) == fin[a]) { sv++; for (int q = 0; q < nw[a]; q++) if (q != c) c2(-sv, X[w[q]][w[c]]); }
    }
    V = v;
  }
  flush();
  return 0;
}
