// wtrace.h: reader of vsc traces of versions 1 to 3, and classes of writers. Shared by wsurvey.c and wcheck.c.
#define _GNU_SOURCE
#include <stdio.h>
#include <stdlib.h>
#include <string.h>
#include <stdint.h>
#include <stdarg.h>
#include <time.h>
#include <sys/resource.h>
typedef uint16_t u16; typedef uint32_t u32; typedef uint64_t u64; typedef uint8_t u8;
enum { NOORG = -1, INITORG = -2 };
typedef struct { int p, idx, loc; char rd, wr; u64 need, leave; int org; } Op;
typedef struct { int a, b; } Pair;
typedef struct { int n, P, L; Op *op; int *start, *len; char (*pname)[33], (*lname)[33]; char *hasinit, *hasfin; u64 *init, *fin; Pair *bef; int nbef; } Tr;
static double ms_now(void){ struct timespec t; clock_gettime(CLOCK_PROCESS_CPUTIME_ID,&t); return t.tv_sec*1e3+t.tv_nsec/1e6; }
static void die(const char *f, ...){ va_list a; va_start(a,f); vprintf(f,a); putchar('\n'); exit(2); }
static void *xc(size_t n, size_t s){ void *p=calloc(n?n:1,s); if(!p) die("memory"); return p; }
static int findn(char (*t)[33], int *n, const char *w){ for(int i=*n-1;i>=0;i--) if(!strcmp(t[i],w)) return i; strcpy(t[(*n)++],w); return *n-1; }
static Tr *read_trace(const char *path){
  FILE *f=fopen(path,"r"); if(!f) die("cannot open %s",path);
  Tr *t=xc(1,sizeof *t); int cap=5000;
  t->op=xc(cap,sizeof(Op)); t->start=xc(70,sizeof(int)); t->len=xc(70,sizeof(int));
  t->pname=xc(70,33); t->lname=xc(cap,33); t->hasinit=xc(cap,1); t->hasfin=xc(cap,1); t->init=xc(cap,8); t->fin=xc(cap,8);
  t->bef=xc(cap,sizeof(Pair));
  typedef struct { char p[33]; int i; } Nm; Nm *org=xc(cap,sizeof(Nm)), *bn=xc(2*cap,sizeof(Nm)); int nb=0;
  char line[512]; int head=0;
  while(fgets(line,sizeof line,f)){
    char *w[10]; int k=0; for(char *s=strtok(line," \t\r\n"); s&&k<10; s=strtok(0," \t\r\n")) w[k++]=s;
    if(!k||w[0][0]=='#') continue;
    if(!head){ head=1; continue; }
    if(!strcmp(w[0],"init")){ int a=findn(t->lname,&t->L,w[1]); t->hasinit[a]=1; t->init[a]=strtoull(w[2],0,10); }
    else if(!strcmp(w[0],"final")){ int a=findn(t->lname,&t->L,w[1]); t->hasfin[a]=1; t->fin[a]=strtoull(w[2],0,10); }
    else if(!strcmp(w[0],"proc")){ strcpy(t->pname[t->P],w[1]); t->start[t->P]=t->n; t->P++; }
    else if(!strcmp(w[0],"before")){ strcpy(bn[nb].p,w[1]); bn[nb++].i=atoi(w[2]); strcpy(bn[nb].p,w[3]); bn[nb++].i=atoi(w[4]); }
    else { Op *o=&t->op[t->n]; o->p=t->P-1; o->idx=t->n-t->start[o->p]+1; o->loc=findn(t->lname,&t->L,w[1]); o->org=NOORG;
      int m=3; char c=w[0][0];
      if(c=='R'){ o->rd=1; o->need=strtoull(w[2],0,10); }
      else if(c=='W'){ o->wr=1; o->leave=strtoull(w[2],0,10); }
      else { o->rd=o->wr=1; o->need=strtoull(w[2],0,10); o->leave=strtoull(w[3],0,10); m=4; }
      if(k>m){ if(k==m+2) o->org=INITORG; else { o->org=0; strcpy(org[t->n].p,w[m+1]); org[t->n].i=atoi(w[m+2]); } }
      t->len[o->p]++; t->n++; }
  }
  fclose(f);
  for(int i=0;i<t->n;i++) if(t->op[i].org==0) for(int p=0;p<t->P;p++) if(!strcmp(t->pname[p],org[i].p)) t->op[i].org=t->start[p]+org[i].i-1;
  for(int k=0;k<nb;k+=2){ int x[2]; for(int j=0;j<2;j++) for(int p=0;p<t->P;p++) if(!strcmp(t->pname[p],bn[k+j].p)) x[j]=t->start[p]+bn[k+j].i-1;
    t->bef[t->nbef++]=(Pair){x[0],x[1]}; }
  free(org); free(bn); return t;
}
// classes: (location, value) with the writers that leave it, by process and place
typedef struct { int loc; u64 d; int w; } WK;
static int cmpwk(const void *a,const void *b){ const WK *x=a,*y=b; return x->loc!=y->loc?(x->loc<y->loc?-1:1):x->d!=y->d?(x->d<y->d?-1:1):x->w-y->w; }
typedef struct { int K; int *first; int *wl; WK *key; int *ps; int *pq,*pf,*pl; } Cls; // class k: ranges ps[k]..ps[k+1]: process pq, writers wl[pf..pl)
static int class_of(Cls *c,int loc,u64 d){ int lo=0,hi=c->K; while(lo<hi){ int m=(lo+hi)/2; WK *k=&c->key[m]; if(k->loc<loc||(k->loc==loc&&k->d<d)) lo=m+1; else hi=m; }
  return lo<c->K&&c->key[lo].loc==loc&&c->key[lo].d==d?lo:-1; }
static Cls *classes(Tr *t){ Cls *c=xc(1,sizeof *c); int n=t->n,m=0; WK *k=xc(n,sizeof(WK)); for(int i=0;i<n;i++) if(t->op[i].wr) k[m++]=(WK){t->op[i].loc,t->op[i].leave,i};
  qsort(k,m,sizeof(WK),cmpwk); c->wl=xc(m,4); c->key=xc(m,sizeof(WK)); c->ps=xc(m+1,4); c->pq=xc(m,4); c->pf=xc(m,4); c->pl=xc(m,4); int r=0;
  for(int i=0;i<m;i++){ c->wl[i]=k[i].w; int nc=!i||k[i].loc!=k[i-1].loc||k[i].d!=k[i-1].d; if(nc){ c->key[c->K]=k[i]; c->ps[c->K++]=r; }
    if(nc||t->op[k[i].w].p!=t->op[k[i-1].w].p){ c->pq[r]=t->op[k[i].w].p; c->pf[r]=i; c->pl[r++]=i+1; } else c->pl[r-1]=i+1; }
  c->ps[c->K]=r; free(k); return c; }
