// wcheck TRACE CERT: checks a certificate of reasons that names operations and locations by numbers. docs/REASONS.md says why each clause holds.
#include "wtrace.h"
static Tr *t; static Cls *C; static int *ownw; // last writer of the location before i in its own process, or -1
#include <setjmp.h>
static jmp_buf jb; static int soft;
static int lineno; static void no(const char *why){ if(soft) longjmp(jb,1); printf("REFUSED %s at line %d\n",why,lineno); exit(1); }
// ---- variables: unordered pairs of operations of two processes, numbered by first use
static u64 *hk; static int *hv; static u32 hcap=1<<16; static int nvar;
static int var_of(int u,int v){ u64 k=(u64)u<<32|(u32)v; k++; u32 h=(u32)((k*0x9E3779B97F4A7C15ull)>>40)&(hcap-1); while(hk[h]){ if(hk[h]==k) return hv[h]; h=(h+1)&(hcap-1); }
  hk[h]=k; hv[h]=++nvar; int r=nvar; if(nvar*2u>hcap){ u64 *ok=hk; int *ov=hv; u32 oc=hcap; hcap*=2; hk=xc(hcap,8); hv=xc(hcap,4); for(u32 i=0;i<oc;i++) if(ok[i]){ u32 g=(u32)((ok[i]*0x9E3779B97F4A7C15ull)>>40)&(hcap-1); while(hk[g]) g=(g+1)&(hcap-1); hk[g]=ok[i]; hv[g]=ov[i]; } free(ok); free(ov); }
  return r; }
// ---- clauses
static int *pool; static size_t pn,pcap; static size_t *cst; static int ncl,ccap; // clause k: pool[cst[k]..] ended by 0; cst = -1: deleted
static int taut; static size_t cbeg;
static void put(int l){ if(pn==pcap){ pcap=pcap?2*pcap:1<<16; pool=realloc(pool,4*pcap); } pool[pn++]=l; }
static void lit(int u,int v){ // the literal "u before v"
  if(u==v) return; Op *a=&t->op[u],*b=&t->op[v]; if(a->p==b->p){ if(a->idx<b->idx) taut=1; return; }
  int l=u<v?var_of(u,v):-var_of(v,u); for(size_t i=cbeg;i<pn;i++) if(pool[i]==l) return; put(l); }
static void open_clause(void){ cbeg=pn; taut=0; }
static void close_clause(void){ put(0); if(ncl+1>=ccap){ ccap=ccap?2*ccap:4096; cst=realloc(cst,sizeof(size_t)*ccap); } cst[++ncl]=taut?(size_t)-1:cbeg; }
// ---- words
static char *cur; 
static char *word(void){ while(*cur==' ') cur++; if(*cur=='\n'||!*cur) return 0; char *w=cur; while(*cur!=' '&&*cur!='\n'&&*cur) cur++; return w; }
static int num(void){ char *w=word(); if(!w) no("word missing"); int v=0; if(w==cur) no("number"); for(;w<cur;w++){ if(*w<'0'||*w>'9'||v>100000000) no("number"); v=10*v+*w-'0'; } return v; }
static int opn(void){ int v=num(); if(v<1||v>t->n) no("no such operation"); return v-1; }
static int locn(void){ int v=num(); if(v<1||v>t->L) no("no such location"); return v-1; }
// ---- the possible sources of a reader, by pieces
static int hb[64],hx[64],fb[64],ix,mainx,mainu; 
static void clear(void){ for(int q=0;q<t->P;q++){ hb[q]=0; hx[q]=-1; fb[q]=1<<20; } ix=mainx=mainu=-1; }
static int is_witness(int x,int r,int a,u64 d){ Op *o=&t->op[x]; return x!=r&&o->loc==a&&(o->wr||o->need!=d); }
static int pieces(int r,int a,u64 d,int fin){ // reads pieces up to a word that is none, which it returns (0: end of line)
  clear(); for(;;){ char *w=word(); if(!w) return 0;
    switch(*w){ case 'h': { int x=opn(),b=opn(),q=t->op[b].p; if(hx[q]>=0) no("second h of a process"); if(!is_witness(x,r,a,d)) no("no witness"); hx[q]=x; hb[q]=t->op[b].idx; break; }
      case 'f': { int b=opn(),q=t->op[b].p; if(fin||fb[q]<(1<<20)) no("f"); fb[q]=t->op[b].idx; break; }
      case 'i': { ix=opn(); if(fin||!is_witness(ix,r,a,d)) no("no witness"); break; }
      case 'H': { mainx=opn(); if(!is_witness(mainx,r,a,d)) no("no witness"); break; }
      case 'L': { mainu=opn(); if(fin) no("L"); break; }
      default: return *w; } } }
static long plain; // clauses of the clause list of `cnf` that say the same, at least
typedef void Live(int r,int lo,int hi,int init); // what to do with those that no piece but the main one takes: wl[lo..hi) of one process, or the initial value
static void one_range(int r,int a,int q,int lo,int hi,int fin,Live *live){ Op *o=t->op; int *w=C->wl; (void)a; plain+=hi-lo;
  int m=lo,k=hi; 
  if(hx[q]>=0){ while(m<hi&&o[w[m]].idx<=hb[q]) m++; /* few: or bisect */ if(m>lo){ int c=w[m-1]; if(c==hx[q]) no("hides itself"); lit(hx[q],c); if(!fin) lit(r,hx[q]); } }
  if(fb[q]<(1<<20)){ while(k>m&&o[w[k-1]].idx>=fb[q]) k--; if(k<hi) lit(w[k],r); }
  if(m<k) live(r,m,k,0); }
static int bis(int lo,int hi,int idx){ while(lo<hi){ int m=(lo+hi)/2; if(t->op[C->wl[m]].idx<=idx) lo=m+1; else hi=m; } return lo; }
static void sources(int r,Live *live){ Op *o=&t->op[r]; int a=o->loc; u64 d=o->need; 
  if(o->org!=INITORG){ if(o->org>=0){ int w=o->org; Op *v=&t->op[w]; if(v->wr&&v->loc==a&&v->leave==d&&w!=r&&!(v->p==o->p&&v->idx>o->idx)){ int k=class_of(C,a,d); int i=C->ps[k]; while(C->pq[i]!=v->p) i++; int j=bis(C->pf[i],C->pl[i],v->idx)-1; one_range(r,a,v->p,j,j+1,0,live); } }
    else { int k=class_of(C,a,d); if(k>=0) for(int i=C->ps[k];i<C->ps[k+1];i++){ int q=C->pq[i],lo=C->pf[i],hi=C->pl[i];
        if(q==o->p){ int w=ownw[r]; if(w<0||t->op[w].leave!=d) continue; int j=bis(lo,hi,t->op[w].idx); lo=j-1; hi=j; }
        one_range(r,a,q,lo,hi,0,live); } } }
  if(o->org<0&&t->hasinit[a]&&t->init[a]==d){ if(ix>=0) lit(r,ix); else live(r,0,0,1); } }
static int *lastc; static void lasts(int a,Live *live){ // writers that may be the last one of a: at most one of each process
  for(int q=0;q<t->P;q++){ int c=lastc[(size_t)a*t->P+q]; if(c<0) continue; Op *v=&t->op[c]; if(t->hasfin[a]&&v->leave!=t->fin[a]) continue; 
    int k=class_of(C,a,v->leave),i=C->ps[k]; while(C->pq[i]!=q) i++; one_range(-1,a,q,C->pl[i]-1,C->pl[i],1,live); } }
static void live_s(int r,int lo,int hi,int init){ int *w=C->wl;
  if(init){ if(mainx<0) no("the initial value is left"); lit(r,mainx); return; }
  if(mainx>=0){ int c=w[hi-1]; if(c==mainx) no("hides itself"); lit(mainx,c); lit(r,mainx); }
  else if(mainu>=0){ lit(w[lo],mainu); lit(mainu,r); }
  else lit(w[lo],r); }
static void live_f(int r,int lo,int hi,int init){ (void)r;(void)lo;(void)init; if(mainx<0) no("a last writer is left"); int c=C->wl[hi-1]; if(c==mainx) no("hides itself"); lit(mainx,c); }
static u32 *seen,stamp; static int nsrc,nrd; 
static void live_n(int r,int lo,int hi,int init){ if(init){ int s=t->n+t->op[r].loc; if(seen[s]!=stamp){ seen[s]=stamp; nsrc++; } return; }
  for(int k=lo;k<hi;k++){ int s=C->wl[k]; if(seen[s]!=stamp){ seen[s]=stamp; nsrc++; } } }
static int hd[64];
static void live_w(int r,int lo,int hi,int init){ (void)hi; (void)r; if(init) no("the initial value is left"); int c=C->wl[lo]; if(t->op[c].idx<hd[t->op[c].p]) no("a source is before the set"); }
int main(int argc,char **argv){ if(argc<3) die("wcheck TRACE CERT"); double t0=ms_now(); int dump=argc>3; t=read_trace(argv[1]); int n=t->n; C=classes(t); hk=xc(hcap,8); hv=xc(hcap,4);
  ownw=xc(n,4); lastc=xc((size_t)t->L*t->P,4); memset(lastc,255,4ul*t->L*t->P); int *lw=xc(t->L,4);
  for(int p=0;p<t->P;p++){ memset(lw,255,4*t->L); for(int i=t->start[p];i<t->start[p]+t->len[p];i++){ int a=t->op[i].loc; ownw[i]=lw[a]; if(t->op[i].wr){ lw[a]=i; lastc[(size_t)a*t->P+p]=i; } } }
  seen=xc(2*n+2*t->L+10,4); u32 *rseen=xc(n+t->L+1,4);
  FILE *f=fopen(argv[2],"rb"); if(!f) die("cannot open"); fseek(f,0,SEEK_END); long len=ftell(f); rewind(f); char *s=xc(len+2,1); if(fread(s,1,len,f)!=(size_t)len) die("read"); fclose(f); s[len]='\n';
  char *p=s; int state=0; double t1=ms_now(),t2=0; signed char *val=0; int *trail=0,nt=0; long nadd=0,nhint=0; int named=0; int *idmap=0; (void)idmap; int accepted=0;
  while(*p&&!accepted){ lineno++; cur=p; char *e=strchr(p,'\n'); p=e+1; 
    if(!state){ if(strncmp(cur,"vsc-whole 1\n",12)) no("header"); state=1; continue; }
    if(state==1){ char *w=word(); if(!w) continue; char k=*w;
      if(k=='p'){ state=2; named=ncl; t2=ms_now(); val=xc(nvar+2,1); trail=xc(nvar+2,4); if(dump){ printf("p cnf %d %d\n",nvar,ncl); for(int i=1;i<=ncl;i++){ if(cst[i]!=(size_t)-1) for(int *q=pool+cst[i];*q;q++) printf("%d ",*q); else printf("1 -1 "); printf("0\n"); } exit(0); } continue; }
      if(k=='v'){ int u=opn(),v=opn(); if(u>=v||t->op[u].p==t->op[v].p) no("no variable"); int m=nvar; if(var_of(u,v)!=m+1) no("variable twice"); continue; }
      open_clause(); if(dump){ soft=1; if(setjmp(jb)){ soft=0; pn=cbeg; taut=1; close_clause(); continue; } }
      if(k=='c'){ int a=opn(),b=a,m=0; char *sv; for(;;){ sv=cur; if(!word()) break; cur=sv; int c=opn(); if(c==b) no("step to itself"); lit(c,b); b=c; m++; } if(!m||a==b) no("short cycle"); lit(a,b); plain+=m>2?m-1:1; }
      else if(k=='b'){ int u=opn(),v=opn(),ok=0; for(int i=0;i<t->nbef;i++) ok|=t->bef[i].a==u&&t->bef[i].b==v; if(!ok) no("no such pair"); lit(u,v); }
      else if(k=='s'){ int r=opn(); if(!t->op[r].rd) no("no reader"); if(pieces(r,t->op[r].loc,t->op[r].need,0)) no("word"); if(mainx>=0&&mainu>=0) no("two main pieces"); sources(r,live_s); }
      else if(k=='l'){ int a=locn(); int any=0; for(int q=0;q<t->P;q++) any|=lastc[(size_t)a*t->P+q]>=0; if(!any){ if(!t->hasfin[a]||(t->hasinit[a]&&t->init[a]==t->fin[a])) no("no writer"); }
        // witnesses: writers; a plain read of another value only if there is a final value
        if(pieces(-1,a,t->hasfin[a]?t->fin[a]:0,1)) no("word"); if(!t->hasfin[a]){ for(int q=0;q<t->P;q++) if(hx[q]>=0&&!t->op[hx[q]].wr) no("no witness"); if(mainx>=0&&!t->op[mainx].wr) no("no witness"); } lasts(a,live_f); }
      else if(k=='n'||k=='N'){ stamp++; nsrc=nrd=0; 
        if(k=='N'){ int a=locn(); char *w2=word(); if(!w2) no("value"); u64 d=strtoull(w2,0,10); clear(); for(int r=0;r<n;r++) if(t->op[r].loc==a&&t->op[r].rd&&t->op[r].wr&&t->op[r].need==d){ nrd++; sources(r,live_n); }
          char *w3=word(); if(w3&&*w3=='l'){ int any=0; for(int q=0;q<t->P;q++) any|=lastc[(size_t)a*t->P+q]>=0; if(!any) no("no writer"); nrd++; lasts(a,live_n); } }
        else { char *w2=word(); int c=w2?*w2:0; while(c){ if(c=='r'){ int r=opn(); if(!t->op[r].rd||!t->op[r].wr) no("no update"); if(rseen[r]==stamp) no("twice"); rseen[r]=stamp; c=pieces(r,t->op[r].loc,t->op[r].need,0); if(mainx>=0||mainu>=0) no("main"); nrd++; sources(r,live_n); }
            else if(c=='l'){ int a=locn(); if(rseen[n+a]==stamp) no("twice"); rseen[n+a]=stamp; int any=0; for(int q=0;q<t->P;q++) any|=lastc[(size_t)a*t->P+q]>=0; if(!any) no("no writer"); c=pieces(-1,a,t->hasfin[a]?t->fin[a]:0,1); if(!t->hasfin[a]) for(int q=0;q<t->P;q++) if(hx[q]>=0&&!t->op[hx[q]].wr) no("no witness"); if(mainx>=0) no("main"); nrd++; lasts(a,live_n); }
            else no("word"); } }
        if(nrd<=nsrc) no("enough sources"); }
      else if(k=='w'){ for(int q=0;q<t->P;q++) hd[q]=1<<20; char *sv=cur; char *w2; // first pass: members
        int m=0; while((w2=word())){ if(*w2=='m'||*w2=='r'){ int x=opn(); int q=t->op[x].p; if(t->op[x].idx<hd[q]) hd[q]=t->op[x].idx; m++; } } if(!m) no("empty set");
        cur=sv; w2=word(); int c=w2?*w2:0; while(c){ if(c=='m'){ int x=opn(),y=opn(); if(x==y) no("waits for itself"); if(t->op[y].idx<hd[t->op[y].p]) no("not in the set"); lit(x,y); w2=word(); c=w2?*w2:0; }
          else if(c=='r'){ int r=opn(); if(!t->op[r].rd) no("no reader"); c=pieces(r,t->op[r].loc,t->op[r].need,0); if(mainx>=0||mainu>=0) no("main"); sources(r,live_w); } else no("word"); } }
      else no("unknown line");
      soft=0; close_clause(); continue; }
    // LRAT additions (RUP) and deletions; ids must rise by one from the named clauses on
    char *w=cur; char *q=w; while(*q==' ') q++; if(*q=='\n') continue; long id=strtol(q,&q,10); while(*q==' ') q++; 
    if(*q=='d'){ q++; for(;;){ long h=strtol(q,&q,10); if(!h) break; if(h>=1&&h<=ncl) cst[h]=(size_t)-1; } continue; }
    if(id!=ncl+1) no("id"); nadd++; cbeg=pn; nt=0; int confl=0;
    for(;;){ long l=strtol(q,&q,10); if(!l) break; if(labs(l)>nvar) no("variable"); put((int)l); int v=labs(l); signed char g=l>0?-1:1; if(val[v]==-g) confl=1; else if(!val[v]){ val[v]=g; trail[nt++]=v; } }
    put(0); int empty=pn==cbeg+1;
    for(;;){ long h=strtol(q,&q,10); if(!h) break; if(confl) continue; nhint++; if(h<1||h>ncl||cst[h]==(size_t)-1) no("hint"); int un=0; for(int *x=pool+cst[h];*x;x++){ int v=abs(*x); signed char g=*x>0?1:-1; if(val[v]==-g) continue; if(un&&un!=*x) no("not unit"); un=*x; }
      if(!un){ confl=1; continue; } int v=abs(un); if(!val[v]){ val[v]=un>0?1:-1; trail[nt++]=v; } }
    if(!confl) no("no conflict"); while(nt) val[trail[--nt]]=0; 
    if(ncl+1>=ccap){ ccap*=2; cst=realloc(cst,sizeof(size_t)*ccap); } cst[++ncl]=cbeg; if(empty) accepted=1; }
  if(!accepted){ // a named clause may be empty itself
    for(int i=1;i<=(state==2?named:ncl);i++) if(cst[i]!=(size_t)-1&&pool[cst[i]]==0) accepted=1; if(!accepted) no("no empty clause"); if(state<2) named=ncl; }
  double t3=ms_now(); struct rusage ru; getrusage(RUSAGE_SELF,&ru);
  printf("ACCEPTED plain=%ld bytes=%ld named=%d vars=%d lits=%zu adds=%ld hints=%ld read_ms=%.2f clauses_ms=%.2f proof_ms=%.2f all_ms=%.2f kb=%ld\n",plain,len,named,nvar,pn,nadd,nhint,t1-t0,(t2?t2:t3)-t1,t2?t3-t2:0,t3-t0,ru.ru_maxrss); return 0; }
