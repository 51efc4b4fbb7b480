// wsurvey TRACE [-c CERT] [-s SCHEDULE] [-t ms] [-n: no search] [-h: no counting]: saturation, counting and a walk that learns clauses; writes whole-trace certificates. Unverified.
#include "wtrace.h"
static Tr *t; static Cls *C; static int n,P,L;
static u16 *fa,*lb; static u16 *pa,*nx; static int *off; static u16 *pdiff,*ndiff;
#define IX(u,p) ((size_t)(u)*P+(p))
static inline int bef(int u,int v){ return fa[IX(u,t->op[v].p)]<=t->op[v].idx; }
static inline int opof(int p,int idx){ return t->start[p]+idx-1; }
static inline int po(int a,int b){ return t->op[a].p==t->op[b].p&&t->op[a].idx<t->op[b].idx; }
static inline int prevc(int p,int a,u64 d,int i){ int j=pa[off[p]+(size_t)a*(t->len[p]+2)+i]; if(!j) return 0; Op *o=&t->op[opof(p,j)]; return !o->wr&&o->need==d?pdiff[opof(p,j)]:j; }
static inline int nextc(int p,int a,u64 d,int i){ int j=nx[off[p]+(size_t)a*(t->len[p]+2)+i]; if(j>t->len[p]) return j; Op *o=&t->op[opof(p,j)]; return !o->wr&&o->need==d?ndiff[opof(p,j)]:j; }
enum { BEFORE, LOWER, COVER, PREV, FINALR, DECISION, LEMMA };
typedef struct { int u,v,next,nin; u32 ev; int lev; char why; int x; int uid; } Edge;
typedef struct { u32 ev; int r,g,kind,b,x,prev,old; } Drop; // kind 0 hide (wl up to b), 1 from b on, 2 the initial value
static Edge *E; static int ne,cape; static int *head,*headin; static u32 now; static Drop *D; static int nd,capd;
static int *roff,*lo,*hi,*dh,*df,*di,*na,*cls,*urange; static char *initok; static int *rc,*rcs; // readers of a class
static int *lastc; static char *isz;
static u64 *ul; static int nu,capu; static int lev,caplev; static int *lvu,*lve,*lvd,*lve0,*wm;
static char *dirty; static int *queue; static int nq; static long sats;
static int ck,cr,ccid; static Edge ce1; static int hd[64]; static char hin[64]; static char *emark; 
static int *front; static int W=0; 
static void push(int r){ if(W&&lev&&r<n&&t->op[r].idx>front[t->op[r].p]+W) return; if(!dirty[r]){ dirty[r]=1; queue[nq++]=r; } }
static void touched(int u){ Op *o=&t->op[u]; if(W&&lev&&(o->idx>front[o->p]+W||o->idx+W<front[o->p])) return; if(o->rd) push(u); if(o->wr){ int k=cls[n+L+u],g=urange[u]; for(int i=rcs[k];i<rcs[k+1];i++){ int r=rc[i],z=roff[r]+g; if(lo[z]<hi[z]&&(C->wl[lo[z]]==u||C->wl[hi[z]-1]==u)) push(r); } }
  if(isz[u]) push(n+o->loc); }
static void ulog(u64 i,u16 old){ if(!lev) return; if(nu==capu){ capu*=2; ul=realloc(ul,8ul*capu); } ul[nu++]=i<<16|old; }
static int raise(u16 *l,u16 *m,size_t at){ int ch=0; for(int k=0;k<P;k++) ch|=l[k]<m[k]; if(!ch) return 0; for(int k=0;k<P;k++) if(l[k]<m[k]){ ulog(at+k,l[k]); l[k]=m[k]; } return 1; }
static void enter(int x){ // x comes into the window: what was put off
  if(1){ if(t->op[x].rd) push(x); if(t->op[x].wr) touched(x); return; } u16 Lb[64]; size_t half=(size_t)n*P; memcpy(Lb,lb+IX(x,0),2*P); if(t->op[x].idx>1){ u16 *l=lb+IX(x-1,0); for(int k=0;k<P;k++) if(l[k]>Lb[k]) Lb[k]=l[k]; }
  for(int k=headin[x];k>=0;k=E[k].nin){ int u=E[k].u; u16 *l=lb+IX(u,0); for(int j=0;j<P;j++) if(l[j]>Lb[j]) Lb[j]=l[j]; if(Lb[t->op[u].p]<t->op[u].idx) Lb[t->op[u].p]=t->op[u].idx; }
  raise(lb+IX(x,0),Lb,half+IX(x,0)); if(t->op[x].rd) push(x); if(t->op[x].wr) touched(x); }
static int add_edge(int u,int v,char why,int x){
  Edge e={u,v,0,0,++now,lev,why,x,0}; if(u==v||bef(v,u)){ ck=1; ce1=e; return 1; } if(bef(u,v)) return 0;
  if(ne==cape){ cape*=2; E=realloc(E,sizeof(Edge)*cape); emark=realloc(emark,cape); memset(emark+cape/2,0,cape/2); }
  e.next=head[u]; e.nin=headin[v]; E[ne]=e; headin[v]=ne; head[u]=ne++; u16 Lb[64],F[64]; memcpy(Lb,lb+IX(u,0),2*P); memcpy(F,fa+IX(v,0),2*P);
  int pu=t->op[u].p,pv=t->op[v].p,iu=t->op[u].idx,iv=t->op[v].idx; if(Lb[pu]<iu) Lb[pu]=iu; if(F[pv]>iv) F[pv]=iv; size_t half=(size_t)n*P;
  u16 s0[64],s1[64]; for(int q=0;q<P;q++){ s0[q]=q==pv?iv:fa[IX(v,q)]; s1[q]=q==pu?iu:lb[IX(u,q)]; }
  for(int q=0;q<P;q++){ int end=t->len[q]; for(int i=s0[q];i<=end;i++){ int y=opof(q,i); u16 *l=lb+IX(y,0); if(!raise(l,Lb,half+IX(y,0))) break; touched(y); } }
  for(int q=0;q<P;q++) for(int i=s1[q];i>=1;i--){ int y=opof(q,i); u16 *l=fa+IX(y,0); int ch=0; for(int k=0;k<P;k++) if(l[k]>F[k]){ ulog(IX(y,k),l[k]); l[k]=F[k]; ch=1; } if(!ch) break; touched(y); }
  return 0; }
static void drop(int r,int g,int kind,int b,int x){ if(nd==capd){ capd*=2; D=realloc(D,sizeof(Drop)*capd); } int *h=kind==0?&dh[roff[r]+g]:kind==1?&df[roff[r]+g]:&di[r]; int old=kind==0?lo[roff[r]+g]:kind==1?hi[roff[r]+g]:0;
  D[nd]=(Drop){++now,r,g,kind,b,x,*h,old}; *h=nd++; }
static int checkfin(int a){ int r=n+a; u64 d=t->fin[a]; int k=0,w=-1; int z[64]; for(int p=0;p<P;p++){ int j=prevc(p,a,d,t->len[p]); z[p]=j?opof(p,j):-1; }
  for(int q=0;q<P;q++){ int g=roff[r]+q; if(lo[g]==hi[g]) continue; int c=lastc[(size_t)a*P+q]; int dead=0; for(int p=0;p<P&&!dead;p++) if(z[p]>=0&&z[p]!=c&&bef(c,z[p])){ drop(r,q,0,c,z[p]); lo[g]=hi[g]; dead=1; } if(!dead){ k++; w=c; } }
  na[r]=k; if(!k){ ck=2; cr=r; return 1; }
  if(k==1) for(int p=0;p<P;p++) if(z[p]>=0&&z[p]!=w&&!bef(z[p],w)) if(add_edge(z[p],w,FINALR,r)) return 1;
  return 0; }
static int phase1; static int check(int r){ if(r>=n) return checkfin(r-n);
  Op *o=&t->op[r]; int a=o->loc,k=cls[r]; u64 d=o->need; u16 *l=lb+IX(r,0); int y[64],anyh=-1; u16 Tv[64]; int ng=k<0?0:C->ps[k+1]-C->ps[k],g0=k<0?0:C->ps[k];
  for(int p=0;p<P;p++) Tv[p]=0;
  for(int p=0;p<P;p++){ int j=prevc(p,a,d,l[p]); y[p]=j?opof(p,j):-1; if(!j) continue; anyh=y[p]; u16 *w=lb+IX(y[p],0); for(int q=0;q<P;q++) Tv[q]=w[q]>Tv[q]?w[q]:Tv[q]; }
  int m=0; u16 *fr=fa+IX(r,0); for(int g=0;g<ng;g++){ int z=roff[r]+g,q=C->pq[g0+g]; int l2=lo[z],h2=hi[z]; if(l2>=h2) continue; while(l2<h2&&t->op[C->wl[l2]].idx<=Tv[q]) l2++; if(l2>lo[z]){ int x=-1; for(int p=0;p<P&&x<0;p++) if(y[p]>=0&&lb[IX(y[p],q)]==Tv[q]) x=y[p]; drop(r,g,0,C->wl[l2-1],x); lo[z]=l2; }
    int f=fr[q]; while(h2>l2&&t->op[C->wl[h2-1]].idx>=f) h2--; if(h2<hi[z]){ drop(r,g,1,C->wl[h2],0); hi[z]=h2; } m+=h2-l2; }
  int il=0; if(initok[r]&&di[r]<0){ if(anyh>=0) drop(r,0,2,0,anyh); else { m++; il=1; } }
  na[r]=m; if(!m){ ck=2; cr=r; return 1; } if(phase1&&o->wr&&m>1) return 0;
  int one=-1; u16 mn[64],mx[64]; for(int p=0;p<P;p++){ mn[p]=il?0:0xffff; mx[p]=il?1:0; }
  for(int g=0;g<ng;g++){ int z=roff[r]+g; if(lo[z]>=hi[z]) continue; int c=C->wl[lo[z]],e=C->wl[hi[z]-1],q=C->pq[g0+g]; one=c; u16 *x=lb+IX(c,0),*w=fa+IX(e,0); u16 m0=mn[q];
    for(int p=0;p<P;p++){ mn[p]=x[p]<mn[p]?x[p]:mn[p]; mx[p]=w[p]>mx[p]?w[p]:mx[p]; } mn[q]=m0<t->op[c].idx?m0:t->op[c].idx; }
  for(int p=0;p<P;p++){ if(mn[p]!=0xffff&&mn[p]>lb[IX(r,p)]&&opof(p,mn[p])!=r) if(add_edge(opof(p,mn[p]),r,LOWER,r)) return 1;
    if(mx[p]<fa[IX(r,p)]&&mx[p]<=t->len[p]){ int q=nextc(p,a,d,mx[p]); if(q<=t->len[p]&&opof(p,q)!=r&&q<fa[IX(r,p)]) if(add_edge(r,opof(p,q),COVER,r)) return 1; } }
  if(m==1&&!il) for(int p=0;p<P;p++){ int j=prevc(p,a,d,lb[IX(r,p)]); if(!j) continue; int x=opof(p,j); if(x==one||bef(x,one)) continue; if(add_edge(x,one,PREV,r)) return 1; }
  return 0; }
static double deadline=1e18; static int timeout;
static int saturate(void){ sats++; int h=0; while(h<nq){ int r=queue[h++]; dirty[r]=0; if(h>n){ memmove(queue,queue+h,sizeof(int)*(nq-h)); nq-=h; h=0; if(ms_now()>deadline){ timeout=1; for(int i=0;i<nq;i++) dirty[queue[i]]=0; nq=0; return 0; } }
    if(check(r)){ while(h<nq) dirty[queue[h++]]=0; nq=0; return 1; } } nq=0; return 0; }
static double guess;
static int build(void){ fa=xc(2ul*n*P,2); lb=fa+(size_t)n*P; off=xc(P+1,4); size_t tot=0; for(int p=0;p<P;p++){ off[p]=tot; tot+=(size_t)L*(t->len[p]+2); } pa=xc(tot,2); nx=xc(tot,2); pdiff=xc(n,2); ndiff=xc(n,2);
  for(int p=0;p<P;p++){ int m=t->len[p]; for(int a=0;a<L;a++){ u16 *q=nx+off[p]+(size_t)a*(m+2),*w=pa+off[p]+(size_t)a*(m+2); q[m+1]=m+1; for(int i=m;i>=1;i--) q[i]=t->op[opof(p,i)].loc==a?i:q[i+1]; q[0]=q[1]; w[0]=0; for(int i=1;i<=m;i++) w[i]=t->op[opof(p,i)].loc==a?i:w[i-1]; w[m+1]=w[m]; }
    for(int i=1;i<=m;i++){ int x=opof(p,i); Op *o=&t->op[x]; if(o->wr) continue; int j=pa[off[p]+(size_t)o->loc*(m+2)+i-1]; if(j){ Op *y=&t->op[opof(p,j)]; if(!y->wr&&y->need==o->need) j=pdiff[opof(p,j)]; } pdiff[x]=j; }
    for(int i=m;i>=1;i--){ int x=opof(p,i); Op *o=&t->op[x]; if(o->wr) continue; int j=nx[off[p]+(size_t)o->loc*(m+2)+i+1]; if(j<=m){ Op *y=&t->op[opof(p,j)]; if(!y->wr&&y->need==o->need) j=ndiff[opof(p,j)]; } ndiff[x]=j; } }
  for(int u=0;u<n;u++) for(int p=0;p<P;p++){ fa[IX(u,p)]=p==t->op[u].p?t->op[u].idx+1:t->len[p]+1; lb[IX(u,p)]=p==t->op[u].p?t->op[u].idx-1:0; }
  cape=1024; E=xc(cape,sizeof(Edge)); emark=xc(cape,1); head=xc(n,4); memset(head,255,4*n); headin=xc(n,4); memset(headin,255,4*n); capd=1024; D=xc(capd,sizeof(Drop)); capu=1<<16; ul=xc(capu,8); caplev=1<<17; lvu=xc(caplev,4); lve=xc(caplev,4); lvd=xc(caplev,4); wm=xc(caplev,4);
  dirty=xc(n+L,1); queue=xc(3*(n+L)+8,4); roff=xc(n+L+1,4); cls=xc(2*n+L,4); na=xc(n+L,4); di=xc(n+L,4); initok=xc(n+L,1); urange=xc(n,4); lastc=xc((size_t)L*P,4); memset(lastc,255,4ul*L*P); isz=xc(n,1);
  int *ownw=xc(n,4),*lw=xc(L,4); for(int p=0;p<P;p++){ memset(lw,255,4*L); for(int i=t->start[p];i<t->start[p]+t->len[p];i++){ int a=t->op[i].loc; ownw[i]=lw[a]; if(t->op[i].wr){ lw[a]=i; lastc[(size_t)a*P+p]=i; } } }
  int m=0; for(int r=0;r<n+L;r++){ roff[r]=m; di[r]=-1; na[r]=-1; if(r<n){ if(!t->op[r].rd){ cls[r]=-1; continue; } int k=cls[r]=class_of(C,t->op[r].loc,t->op[r].need); if(k>=0) m+=C->ps[k+1]-C->ps[k]; } else { cls[r]=-1; m+=P; } } roff[n+L]=m;
  lo=xc(m,4); hi=xc(m,4); dh=xc(m,4); df=xc(m,4); memset(dh,255,4ul*m); memset(df,255,4ul*m);
  for(int k=0;k<C->K;k++) for(int i=C->ps[k];i<C->ps[k+1];i++) for(int j=C->pf[i];j<C->pl[i];j++){ urange[C->wl[j]]=i-C->ps[k]; cls[n+L+C->wl[j]]=k; }
  rcs=xc(C->K+2,4); rc=xc(n,4); for(int r=0;r<n;r++) if(cls[r]>=0) rcs[cls[r]+1]++; for(int k=0;k<C->K;k++) rcs[k+1]+=rcs[k]; int *fill=xc(C->K+1,4); for(int r=0;r<n;r++) if(cls[r]>=0) rc[rcs[cls[r]]+fill[cls[r]]++]=r; free(fill);
  for(int r=0;r<n;r++) if(t->op[r].rd){ Op *o=&t->op[r]; int k=cls[r]; initok[r]=o->org<0&&t->hasinit[o->loc]&&t->init[o->loc]==o->need; na[r]=0; push(r); if(k<0||o->org==INITORG) continue; 
      for(int g=0;g<C->ps[k+1]-C->ps[k];g++){ int i=C->ps[k]+g,q=C->pq[i],z=roff[r]+g; lo[z]=C->pf[i]; hi[z]=C->pl[i]; int only=-2; if(o->org>=0) only=t->op[o->org].p==q&&!(q==o->p&&t->op[o->org].idx>=o->idx)?o->org:-1; else if(q==o->p) only=ownw[r];
        if(only!=-2){ int j=-1; for(int e=lo[z];e<hi[z]&&only>=0;e++) if(C->wl[e]==only) j=e; if(j<0) lo[z]=hi[z]; else { lo[z]=j; hi[z]=j+1; } } } }
  for(int a=0;a<L;a++) if(t->hasfin[a]){ int r=n+a,any=0; for(int q=0;q<P;q++){ int c=lastc[(size_t)a*P+q]; if(c>=0){ any=1; if(t->op[c].leave==t->fin[a]) hi[roff[r]+q]=1; } int j=prevc(q,a,t->fin[a],t->len[q]); if(j) isz[opof(q,j)]=1; if(c>=0) isz[c]=1; } if(any||!(t->hasinit[a]&&t->init[a]==t->fin[a])){ na[r]=0; push(r); if(!any){ } } }
  for(int k=0;k<t->nbef;k++) if(add_edge(t->bef[k].a,t->bef[k].b,BEFORE,0)) return 1;
  if(guess>0&&!t->nbef){ for(int p=0;p<P;p++) for(int q=0;q<P;q++) if(q!=p){ int li=t->len[p],lj=t->len[q]; int last=0;
      for(int i=1;i<=li;i+=2){ int j=(int)((double)i*lj/li+guess)+1; if(j>lj) break; int u=opof(p,i),v=opof(q,j); Edge e={u,v,0,0,++now,0,BEFORE,0,0}; if(ne==cape){ cape*=2; E=realloc(E,sizeof(Edge)*cape); emark=realloc(emark,cape); memset(emark+cape/2,0,cape/2); }
        e.next=head[u]; e.nin=headin[v]; E[ne]=e; headin[v]=ne; head[u]=ne++;
        for(int k=i;k>last;k--) if(fa[IX(opof(p,k),q)]>j) fa[IX(opof(p,k),q)]=j; last=i; 
        int j2=(int)((double)(i+2)*lj/li+guess)+1; if(i+2>li||j2>lj) j2=lj+1; for(int k=j;k<j2;k++) lb[IX(opof(q,k),p)]=i; } } }
  free(ownw); free(lw); return 0; }
// ------------------------------------------------------------ named clauses, lines
static char **ct; static int *cth; static int ncl,capc; static int *chash; static u32 chcap=1<<16; 
static int clause(const char *s){ u64 h=1469598103934665603ull; for(const char *p=s;*p;p++) h=(h^(u8)*p)*1099511628211ull; u32 i=(u32)(h>>20)&(chcap-1); while(chash[i]){ if(!strcmp(ct[chash[i]],s)) return chash[i]; i=(i+1)&(chcap-1); }
  if(ncl+1>=capc){ capc=capc?2*capc:4096; ct=realloc(ct,sizeof(char*)*capc); } ct[++ncl]=strdup(s); chash[i]=ncl;
  if(2u*ncl>chcap){ chcap*=2; free(chash); chash=xc(chcap,4); for(int k=1;k<=ncl;k++){ u64 g=1469598103934665603ull; for(const char *p=ct[k];*p;p++) g=(g^(u8)*p)*1099511628211ull; u32 j=(u32)(g>>20)&(chcap-1); while(chash[j]) j=(j+1)&(chcap-1); chash[j]=k; } }
  return ncl; }
typedef struct { int nl,nh; int *l; int *h; } Line; // literals as pairs (u before v); hints: clause k is 2k, line k is 2k+1
static Line *ln; static int nln,capln;
static int *lb_,nlb,caplb,*hb_,nhb,caphb; static void hint(int h){ if(nhb==caphb){ caphb=caphb?2*caphb:1024; hb_=realloc(hb_,4*caphb); } hb_[nhb++]=h; } static void litb(int u,int v){ if(nlb+2>caplb){ caplb=caplb?2*caplb:256; lb_=realloc(lb_,4*caplb); } lb_[nlb++]=u; lb_[nlb++]=v; }
static int line(void){ if(nln==capln){ capln=capln?2*capln:1024; ln=realloc(ln,sizeof(Line)*capln); } Line *x=&ln[nln]; x->nl=nlb; x->nh=nhb; x->l=malloc(4*nlb+4); x->h=malloc(4*nhb+4); memcpy(x->l,lb_,4*nlb); memcpy(x->h,hb_,4*nhb); return nln++; }
// learned clauses
typedef struct { int k; int *l; int w0,w1; int line; char on; } Learn; static Learn *le; static int nle,caple;
// ------------------------------------------------------------ explaining
static int walkmode; static char *buf; static size_t bl,bcap; static void bw(const char *f,...){ if(bl+64>bcap){ bcap=bcap?2*bcap:4096; buf=realloc(buf,bcap); } va_list a; va_start(a,f); bl+=vsnprintf(buf+bl,64,f,a); va_end(a); }
typedef struct { int a,b; u32 t; int ps,pl; int c; int used; } Fact; static Fact *F; static int nf,capf; static int *pp,npp,cappp; static int *ffh; static u32 ffcap=1<<14; static u32 *ffst,ffstamp;
typedef struct { u32 ev; int e; int cl; int lem; int f0,f1; } Item; static Item *it; static int nit,capit; static int *itf,nitf,capitf; // itf: facts of items
static int *heap,hn,caph; static int hl,cnt; static int *dist,*par,*dq; static long stat_facts,stat_bfs;
static void hpush(int e){ if(hn==caph){ caph=caph?2*caph:1024; heap=realloc(heap,4*caph); } int i=hn++; while(i&&E[heap[(i-1)/2]].ev<E[e].ev){ heap[i]=heap[(i-1)/2]; i=(i-1)/2; } heap[i]=e; }
static int hpop(void){ int r=heap[0],e=heap[--hn],i=0; for(;;){ int c=2*i+1; if(c>=hn) break; if(c+1<hn&&E[heap[c+1]].ev>E[heap[c]].ev) c++; if(E[heap[c]].ev<=E[e].ev) break; heap[i]=heap[c]; i=c; } if(hn) heap[i]=e; return r; }
static int *mk,nmk,capmk; static void mark(int e){ if(emark[e]) return; emark[e]=1; if(nmk==capmk){ capmk=capmk?2*capmk:1024; mk=realloc(mk,4*capmk); } mk[nmk++]=e; hpush(e); if(E[e].lev==hl) cnt++; }
static int *nst,nst_; static int stampn; static int *nstamp;
static void path(int a,int b,u32 tm){ stampn++; stat_bfs++; int h=2*n,q=2*n; nstamp[a]=stampn; dist[a]=0; par[a]=-1; dq[q++]=a;
  #define SEEN(v,d) (nstamp[v]==stampn&&dist[v]<=(d))
  while(h<q){ int u=dq[h++]; if(u==b) break; int d=dist[u]; if(t->op[u].idx<t->len[t->op[u].p]&&!SEEN(u+1,d)&&(u+1==b||bef(u+1,b))){ nstamp[u+1]=stampn; dist[u+1]=d; par[u+1]=-2; dq[--h]=u+1; }
    for(int k=head[u];k>=0;k=E[k].next){ Edge *e=&E[k]; if(e->ev>=tm||(e->v!=b&&!bef(e->v,b))) continue; int w=emark[k]||(walkmode&&e->uid)?0:1; if(SEEN(e->v,d+w)) continue; nstamp[e->v]=stampn; dist[e->v]=d+w; par[e->v]=k; 
      if(!w&&h>0) dq[--h]=e->v; else { if(q>=6*n){ memmove(dq+n,dq+h,4*(q-h)); q=q-h+n; h=n; } dq[q++]=e->v; } } }
  if(nstamp[b]!=stampn) die("no path"); }
static void fact(int a,int b,u32 tm){ if(a==b) die("fact of one"); if(po(a,b)) return; stat_facts++; u32 hsh=((u32)a*2654435761u^(u32)b*40503u*65537u); u32 i=hsh>>8&(ffcap-1); int f=-1; while(ffst[i]==ffstamp){ f=ffh[i]; if(F[f].a==a&&F[f].b==b) break; f=-1; i=(i+1)&(ffcap-1); }
  if(f<0||F[f].t>tm){ if(nf==capf){ capf=capf?2*capf:1024; F=realloc(F,sizeof(Fact)*capf); } path(a,b,tm); int ps=npp,pl=0; for(int v=b;v!=a;){ int k=par[v]; if(k==-2) v--; else { if(npp==cappp){ cappp=cappp?2*cappp:4096; pp=realloc(pp,4*cappp); } pp[npp++]=k; pl++; v=E[k].u; } }
    for(int x=0;x<pl/2;x++){ int z=pp[ps+x]; pp[ps+x]=pp[ps+pl-1-x]; pp[ps+pl-1-x]=z; }
    F[nf]=(Fact){a,b,tm,ps,pl,0,0}; f=nf++; ffst[i]=ffstamp; ffh[i]=f; for(int x=0;x<pl;x++) mark(pp[ps+x]);
    if(2u*nf>ffcap){ ffcap*=2; ffh=realloc(ffh,4*ffcap); free(ffst); ffst=xc(ffcap,4); ffstamp=1; for(int g=0;g<nf;g++){ u32 hs=((u32)F[g].a*2654435761u^(u32)F[g].b*40503u*65537u); u32 j=hs>>8&(ffcap-1); while(ffst[j]==ffstamp&&(F[ffh[j]].a!=F[g].a||F[ffh[j]].b!=F[g].b)) j=(j+1)&(ffcap-1); ffst[j]=ffstamp; ffh[j]=g; } } }
  if(nitf==capitf){ capitf=capitf?2*capitf:4096; itf=realloc(itf,4*capitf); } itf[nitf++]=f; }
// pieces of reader r at time tm: text and facts; what lives of range g: [A[g],B[g])
static int LA[64],LB[64],linit; static char *wantsrc; // wantsrc: pieces only where a dropped source is not in it
static void pieces(int r,u32 tm){ Op *o=&t->op[r]; int k=cls[r],ng=k<0?0:C->ps[k+1]-C->ps[k]; (void)o;
  for(int g=0;g<ng;g++){ int z=roff[r]+g,i=dh[z],l,h; int l0=-1,h0=-1; // base range
    int j=i; l=lo[z]; h=hi[z]; while(j>=0&&D[j].ev>=tm){ l=D[j].old; j=D[j].prev; } int jh=j; int f=df[z]; while(f>=0&&D[f].ev>=tm){ h=D[f].old; f=D[f].prev; }
    int x=j; l0=l; while(x>=0){ l0=D[x].old; x=D[x].prev; } h0=h; x=f; while(x>=0){ h0=D[x].old; x=D[x].prev; }
    int useh=jh>=0,usef=f>=0&&l<h0; if(wantsrc){ if(useh){ int any=0; for(int e=l0;e<l;e++) any|=!wantsrc[C->wl[e]]; useh=any; } if(usef){ int any=0; for(int e=h;e<h0;e++) any|=!wantsrc[C->wl[e]]; usef=any; } }
    if(useh){ bw(" h %d %d",D[jh].x+1,D[jh].b+1); fact(D[jh].b,D[jh].x,D[jh].ev); fact(D[jh].x,r,D[jh].ev); }
    if(usef){ bw(" f %d",D[f].b+1); fact(r,D[f].b,D[f].ev); }
    LA[g]=l; LB[g]=h; }
  linit=0; if(initok[r]){ int i=di[r]; if(i>=0&&D[i].ev<tm){ if(!wantsrc||!wantsrc[n+t->op[r].loc]){ bw(" i %d",D[i].x+1); fact(D[i].x,r,D[i].ev); } } else linit=1; } }
static void fpieces(int a,u32 tm){ int r=n+a; for(int q=0;q<P;q++){ int j=dh[roff[r]+q]; if(j>=0&&D[j].ev<tm){ if(wantsrc&&wantsrc[D[j].b]) continue; bw(" h %d %d",D[j].x+1,D[j].b+1); fact(D[j].b,D[j].x,D[j].ev); } } }
static void begin_item(u32 ev,int e){ if(nit==capit){ capit=capit?2*capit:1024; it=realloc(it,sizeof(Item)*capit); } it[nit]=(Item){ev,e,0,-1,nitf,0}; bl=0; }
static void end_item(void){ if(it[nit].lem<0){ if(bl+1>=bcap) bw(""); buf[bl]=0; it[nit].cl=clause(buf); } it[nit].f1=nitf; nit++; }
static void edge_body(Edge *e){ u32 tm=e->ev; int r=e->x;
  switch(e->why){ case BEFORE: bw("b %d %d",e->u+1,e->v+1); break;
    case LOWER: { bw("s %d",r+1); pieces(r,tm); bw(" L %d",e->u+1); int k=cls[r]; for(int g=0;g<C->ps[k+1]-C->ps[k];g++) if(LA[g]<LB[g]){ int c=C->wl[LA[g]]; if(c!=e->u) fact(e->u,c,tm); } if(linit) die("init low"); break; }
    case COVER: { bw("s %d",r+1); pieces(r,tm); bw(" H %d",e->v+1); int k=cls[r]; if(k>=0) for(int g=0;g<C->ps[k+1]-C->ps[k];g++) if(LA[g]<LB[g]){ int c=C->wl[LB[g]-1]; fact(c,e->v,tm); } break; }
    case PREV: bw("s %d",r+1); pieces(r,tm); bw(" H %d",e->u+1); fact(e->u,r,tm); break;
    case FINALR: bw("l %d",r-n+1); fpieces(r-n,tm); bw(" H %d",e->u+1); break;
    case LEMMA: { Learn *x=&le[e->x]; it[nit].lem=x->line; for(int i=0;i<x->k;i++) if(x->l[2*i]!=e->u||x->l[2*i+1]!=e->v) fact(x->l[2*i+1],x->l[2*i],tm); break; }
    default: die("body"); } }
static int cmpit(const void *a,const void *b){ u32 x=((Item*)a)->ev,y=((Item*)b)->ev; return x<y?-1:x>y; }
static int *ust,*cst_,ustamp; static int capust,capcst; 
static void need_unit(int uid){ if(uid>=capust){ int c=capust; capust=2*uid+1024; ust=realloc(ust,4*capust); memset(ust+c,0,4*(capust-c)); } if(ust[uid]!=ustamp){ ust[uid]=ustamp; hint(uid); } }
static void need_clause(int k){ if(k>=capcst){ int c=capcst; capcst=2*k+1024; cst_=realloc(cst_,4*capcst); memset(cst_+c,0,4*(capcst-c)); } if(cst_[k]!=ustamp){ cst_[k]=ustamp; hint(2*k); } }
static u64 *esk; static u32 *ess,escap=1<<14,esn,esst; static void est_add(int a,int b){ u64 k=(u64)a<<32|(u32)b; if(!esk){ esk=xc(escap,8); ess=xc(escap,4); } u32 i=(u32)((k*0x9E3779B97F4A7C15ull)>>40)&(escap-1); while(ess[i]==esst){ if(esk[i]==k) return; i=(i+1)&(escap-1); } ess[i]=esst; esk[i]=k; esn++;
  if(2*esn>escap){ u64 *ok=esk; u32 *os=ess,oc=escap; escap*=2; esk=xc(escap,8); ess=xc(escap,4); for(u32 j=0;j<oc;j++) if(os[j]==esst){ u32 g=(u32)((ok[j]*0x9E3779B97F4A7C15ull)>>40)&(escap-1); while(ess[g]==esst) g=(g+1)&(escap-1); ess[g]=esst; esk[g]=ok[j]; } free(ok); free(os); } }
static int est(int a,int b){ if(!esk) return 0; u64 k=(u64)a<<32|(u32)b; u32 i=(u32)((k*0x9E3779B97F4A7C15ull)>>40)&(escap-1); while(ess[i]==esst){ if(esk[i]==k) return 1; i=(i+1)&(escap-1); } return 0; }
static int noshort; static void cyc_text(Fact *f){ static int *nod; static int cn; if(2*f->pl+4>cn){ cn=4*f->pl+64; nod=realloc(nod,4*cn); } int m=0,last=f->a; nod[m++]=last; for(int x=0;x<f->pl;x++){ Edge *e=&E[pp[f->ps+x]]; if(e->u!=last) nod[m++]=e->u; nod[m++]=e->v; last=e->v; } if(last!=f->b) nod[m++]=f->b;
  bl=0; bw("c %d",f->a+1); for(int i=0;i<m-1;){ int j=i+1; if(!walkmode&&!noshort) for(int k=m-1;k>i+1;k--) if(!(i==0&&k==m-1)&&(po(nod[i],nod[k])||est(nod[i],nod[k]))){ j=k; break; } bw(" %d",nod[j]+1); i=j; } }
static void emit_item(Item *I,int lv0){ // hints of one item
  for(int i=I->f0;i<I->f1;i++){ Fact *f=&F[itf[i]]; if(walkmode) for(int x=0;x<f->pl;x++){ Edge *e=&E[pp[f->ps+x]]; if(e->lev==0){ if(!e->uid) die("no unit"); need_unit(e->uid); } }
    if(f->pl==1&&E[pp[f->ps]].u==f->a&&E[pp[f->ps]].v==f->b) continue; if(!f->c){ cyc_text(f); buf[bl]=0; f->c=clause(buf); } need_clause(f->c); if(!walkmode) est_add(f->a,f->b); }
  if(I->lem>=0) hint(2*I->lem+1); else need_clause(I->cl); if(!walkmode&&I->e>=0) est_add(E[I->e].u,E[I->e].v); (void)lv0; }
static int *lits,nlits,caplits; static int uip_edge; static int second; static int *hallset,nhall; static char *hsrc; static int done_line=-1; static long stat_items,maxlits,sumlits;
static int block(int x){ int w=-1; for(int q=0;q<P;q++) if(hd[q]>=0&&hd[q]!=x&&bef(hd[q],x)){ if(hin[q]) return q; if(w<0) w=q; } return w; }
static int explain(void){ // 1: contradiction of the trace (done_line); 0: a learned clause in lits, uip_edge, second
  nf=npp=nit=nitf=hn=nmk=0; ffstamp++; hl=-1; cnt=0; u32 T=now+1; begin_item(0xffffffff,-1);
  if(ck==1){ edge_body(&ce1); if(ce1.u!=ce1.v) fact(ce1.v,ce1.u,ce1.ev); }
  else if(ck==2){ if(cr<n){ bw("s %d",cr+1); pieces(cr,T); } else { bw("l %d",cr-n+1); fpieces(cr-n,T); } }
  else if(ck==3){ bw("w"); for(int p=0;p<P;p++) if(hin[p]){ int x=hd[p],w=block(x); if(w>=0){ bw(" m %d %d",x+1,hd[w]+1); fact(hd[w],x,T); } else { bw(" r %d",x+1); pieces(x,T); } } }
  else if(ck==4){ Learn *x=&le[ccid]; it[nit].lem=x->line; for(int i=0;i<x->k;i++) fact(x->l[2*i+1],x->l[2*i],T); }
  else if(ck==5){ wantsrc=hsrc; int same=1,fin=0,nr=0,r1=-1; for(int i=0;i<nhall;i++){ int r=hallset[i]; if(r<n){ if(r1<0) r1=r; nr++; same&=t->op[r].loc==t->op[r1].loc&&t->op[r].need==t->op[r1].need; } else fin++; }
    if(r1<0) same=0; if(same&&fin<=1){ int all=0; for(int i=0;i<n;i++) all+=t->op[i].rd&&t->op[i].wr&&t->op[i].loc==t->op[r1].loc&&t->op[i].need==t->op[r1].need; for(int i=0;i<nhall;i++) if(hallset[i]>=n) same&=hallset[i]-n==t->op[r1].loc; if(all!=nr) same=0; } else same=0;
    if(same){ // no dropped source that counts?
      for(int i=0;i<nhall&&same;i++){ int r=hallset[i]; size_t b0=bl; int f0=nitf; if(r<n) pieces(r,T); else fpieces(r-n,T); if(bl!=b0||nitf!=f0) same=0; bl=b0; } }
    if(same){ bw("N %d %llu",t->op[r1].loc+1,(unsigned long long)t->op[r1].need); if(fin) bw(" l"); goto hall_done; }
    bw("n"); for(int i=0;i<nhall;i++){ int r=hallset[i]; if(r<n){ bw(" r %d",r+1); pieces(r,T); } else { bw(" l %d",r-n+1); fpieces(r-n,T); } } hall_done: wantsrc=0; }
  end_item(); for(int i=0;i<nmk;i++) if(E[mk[i]].lev>hl) hl=E[mk[i]].lev; for(int i=0;i<nmk;i++) if(E[mk[i]].lev==hl) cnt++; nlits=0; uip_edge=-1; second=0;
  while(hn){ int k=hpop(); Edge e=E[k]; int lit=0; if(hl>0&&e.lev>0){ if(e.lev<hl) lit=1; else if(cnt==1&&uip_edge<0){ lit=1; uip_edge=k; } else if(e.why==DECISION) die("decision before uip"); }
    if(lit){ if(nlits==caplits){ caplits=caplits?2*caplits:256; lits=realloc(lits,4*caplits); } lits[nlits++]=k; if(e.lev<hl&&e.lev>second) second=e.lev; continue; }
    if(e.lev==hl) cnt--; if(walkmode&&e.lev==0&&e.uid) continue;
    begin_item(e.ev,k); edge_body(&e); end_item(); }
  stat_items+=nit; for(int i=0;i<nmk;i++) emark[mk[i]]=0;
  qsort(it,nit,sizeof(Item),cmpit);
  if(walkmode){ for(int i=0;i<nit;i++) if(it[i].e>=0&&E[it[i].e].lev==0){ Edge *e=&E[it[i].e]; if(e->why==LEMMA&&it[i].f0==it[i].f1){ e->uid=2*it[i].lem+1; continue; } nhb=nlb=0; ustamp++; emit_item(&it[i],1); litb(e->u,e->v); int k=line(); e->uid=2*k+1; } }
  esst++; esn=0; nhb=nlb=0; ustamp++; for(int i=0;i<nit;i++){ if(walkmode&&it[i].e>=0&&E[it[i].e].lev==0) continue; emit_item(&it[i],0); }
  for(int i=0;i<nlits;i++) litb(E[lits[i]].v,E[lits[i]].u); done_line=line(); if(nlits>maxlits) maxlits=nlits; sumlits+=nlits; return nlits==0; }
// ------------------------------------------------------------ counting
static int *mr,*ms,*seen,stamp; static int *hq;
static int augment(int r0){ static int *from; if(!from) from=xc(n+L,4); int h=0,e=0,ok=0; stamp++; hq[e++]=r0;
  #define TRY(s) do{ int s_=(s); if(seen[s_]!=stamp){ seen[s_]=stamp; from[s_]=r; if(ms[s_]<0){ ok=1; int z=s_; while(z>=0){ int x=from[z],o=mr[x]; ms[z]=x; mr[x]=z; z=x==r0?-1:o; } } else hq[e++]=ms[s_]; } }while(0)
  while(h<e&&!ok){ int r=hq[h++]; if(r<n){ int k=cls[r],ng=k<0?0:C->ps[k+1]-C->ps[k]; if(initok[r]&&di[r]<0) TRY(n+t->op[r].loc); for(int g=0;g<ng&&!ok;g++) for(int j=lo[roff[r]+g];j<hi[roff[r]+g]&&!ok;j++) TRY(C->wl[j]); }
    else { int a=r-n; for(int q=0;q<P&&!ok;q++){ int c=lastc[(size_t)a*P+q]; if(c<0) continue; if(t->hasfin[a]&&lo[roff[r]+q]>=hi[roff[r]+q]) continue; TRY(c); } } }
  return ok?0:e; }
static int nupd; static int counting(void){ nupd=0; for(int i=0;i<n;i++) nupd+=t->op[i].rd&&t->op[i].wr; if(!nupd) return 0; mr=xc(n+L,4); ms=xc(n+L,4); seen=xc(n+L,4); hq=xc(n+L,4); memset(mr,255,4*(n+L)); memset(ms,255,4*(n+L)); hallset=xc(n+L,4); hsrc=xc(n+L,1); nhall=0;
  for(int r=0;r<n+L;r++){ int is=r<n?t->op[r].rd&&t->op[r].wr:0; if(r>=n) for(int q=0;q<P;q++) is|=lastc[(size_t)(r-n)*P+q]>=0; if(!is) continue; int e=augment(r); if(e&&(!nhall||e<nhall)){ nhall=e; memcpy(hallset,hq,4*e); memset(hsrc,0,n+L); for(int s=0;s<n+L;s++) if(seen[s]==stamp) hsrc[s]=1; } }
  if(nhall) ck=5; return nhall; }
// ------------------------------------------------------------ the walk
static void new_level(int m){ lev++; if(lev+1>=caplev) die("levels"); lvu[lev]=nu; lve[lev]=ne; lvd[lev]=nd; wm[lev]=m; }
static void back_to(int l0){ if(lev<=l0) return; int l=l0+1; while(nu>lvu[l]){ u64 x=ul[--nu]; fa[x>>16]=(u16)x; } while(ne>lve[l]){ Edge *e=&E[--ne]; head[e->u]=e->next; headin[e->v]=e->nin; }
  while(nd>lvd[l]){ Drop *d=&D[--nd]; if(d->kind==0){ dh[roff[d->r]+d->g]=d->prev; lo[roff[d->r]+d->g]=d->old; } else if(d->kind==1){ df[roff[d->r]+d->g]=d->prev; hi[roff[d->r]+d->g]=d->old; } else di[d->r]=d->prev; } lev=l0; }
static double *act,ainc=1; static long conf,decs,restarts; static int maxle=4000;
static int full_sat(void){ for(;;){ if(saturate()) return 1; if(timeout) return 0; int any=0; for(int i=0;i<nle;i++){ Learn *x=&le[i]; if(!x->on) continue; int *l=x->l; 
      #define FALSE_(k) (bef(l[2*(k)+1],l[2*(k)]))
      #define TRUE_(k) (bef(l[2*(k)],l[2*(k)+1]))
      if(x->k>1&&!FALSE_(x->w0)&&!FALSE_(x->w1)) continue; int f=0,a=-1,b=-1; for(int k=0;k<x->k&&f<2;k++) if(!FALSE_(k)){ if(f++) b=k; else a=k; } if(f>=2){ x->w0=a; x->w1=b; continue; }
      if(f==0){ ck=4; ccid=i; return 1; } if(TRUE_(a)) continue; if(add_edge(l[2*a],l[2*a+1],LEMMA,i)) return 1; any=1; }
    if(!any) return 0; } }
static void clearq(void){ for(int i=0;i<nq;i++) dirty[queue[i]]=0; nq=0; }
static long max_conf=1L<<40;
static int resolve(int *m){ for(;;){ conf++; clearq(); if(explain()) return 1; if(nle==caple){ caple=caple?2*caple:1024; le=realloc(le,sizeof(Learn)*caple); }
    int alive=0; for(int i=0;i<nle;i++) alive+=le[i].on; if(alive>maxle){ int drop_=maxle/2; for(int i=0;i<nle&&drop_;i++) if(le[i].on&&le[i].k>6){ le[i].on=0; drop_--; } }
    Learn *x=&le[nle]; x->k=nlits; x->l=malloc(8*nlits); for(int i=0;i<nlits;i++){ x->l[2*i]=E[lits[i]].v; x->l[2*i+1]=E[lits[i]].u; } x->w0=x->w1=0; x->line=done_line; x->on=1; if(!act) act=xc(n,8); for(int i=0;i<2*nlits;i++) act[x->l[i]]+=ainc; ainc*=1.02; if(ainc>1e100){ for(int i=0;i<n;i++) act[i]*=1e-100; ainc*=1e-100; } Edge u=E[uip_edge]; int s=second; int mm=wm[s+1]; back_to(s); if(mm<*m) *m=mm; nle++;
    int bad=add_edge(u.v,u.u,LEMMA,nle-1); if(!bad) bad=full_sat(); if(!bad) return 0; if(conf>max_conf||ms_now()>deadline||timeout) return 2; } }
static int closed_from(int p0){ memset(hin,0,P); int st[64],ns=0,m=0; hin[p0]=1; st[ns++]=p0; while(ns){ int p=st[--ns]; m++; int x=hd[p]; int w=block(x); if(w>=0){ if(!hin[w]){ hin[w]=1; st[ns++]=w; } continue; }
    if(!t->op[x].rd) return 0; if(initok[x]&&di[x]<0) return 0; int k=cls[x]; for(int g=0;g<(k<0?0:C->ps[k+1]-C->ps[k]);g++){ int z=roff[x]+g; if(lo[z]>=hi[z]) continue; int q=C->pq[C->ps[k]+g]; if(hd[q]<0||t->op[hd[q]].idx>t->op[C->wl[lo[z]]].idx||q==p) return 0; if(!hin[q]){ hin[q]=1; st[ns++]=q; } } } return m; }
static int stuck(int *cur){ int best=0,bp=-1; for(int p=0;p<P;p++) hd[p]=cur[p]<=t->len[p]?opof(p,cur[p]):-1; for(int p=0;p<P;p++) if(hd[p]>=0){ int m=closed_from(p); if(m&&(!best||m<best)){ best=m; bp=p; } } if(bp<0) return 0; closed_from(bp); ck=3; return 1; }
static int has_cand(int x,int w){ if(w<0) return initok[x]&&di[x]<0; int k=cls[x]; if(k<0||cls[n+L+w]!=k) return 0; int z=roff[x]+urange[w]; return lo[z]<hi[z]&&C->wl[lo[z]]<=w&&w<=C->wl[hi[z]-1]; }
static int judge(int *out){ int cur[64]; for(int p=0;p<P;p++) cur[p]=1; int *mem=xc(L,4); memset(mem,255,4*L); int ok=1; for(int i=0;i<n&&ok;i++){ Op *o=&t->op[out[i]]; if(o->idx!=cur[o->p]++) ok=0; int a=o->loc; if(o->rd){ if(mem[a]<0?!(t->hasinit[a]&&t->init[a]==o->need):t->op[mem[a]].leave!=o->need) ok=0; if(o->org==INITORG&&mem[a]>=0) ok=0; if(o->org>=0&&mem[a]!=o->org) ok=0; } if(o->wr) mem[a]=out[i]; }
  for(int a=0;a<L&&ok;a++) if(t->hasfin[a]){ if(mem[a]<0?!(t->hasinit[a]&&t->init[a]==t->fin[a]):t->op[mem[a]].leave!=t->fin[a]) ok=0; } int *at=xc(n,4); for(int i=0;i<n;i++) at[out[i]]=i; for(int k=0;k<t->nbef&&ok;k++) if(at[t->bef[k].a]>at[t->bef[k].b]) ok=0; free(at); free(mem); return ok; }
static int berk=0; static int berk_pick(int *u,int *v){ int seen=0; for(int i=nle-1;i>=0&&seen<berk;i--){ Learn *x=&le[i]; if(!x->on) continue; seen++; int *l=x->l; int sat=0,b=-1; double bs=-1; for(int k=0;k<x->k;k++){ if(bef(l[2*k],l[2*k+1])){ sat=1; break; } if(bef(l[2*k+1],l[2*k])) continue; double a=act[l[2*k]]+act[l[2*k+1]]; if(a>bs){ bs=a; b=k; } } if(sat||b<0) continue; *u=l[2*b]; *v=l[2*b+1]; return 1; } return 0; }
static int noroll=0; static u64 rs=88172645463325252ull; static double noise=0; static int deepest;
static int search(int *out){ int *cur=front=xc(P,4),*mem=xc(L,4),*pm=xc(n+1,4); int m,m2=0; for(int p=0;p<P;p++) cur[p]=1; 
 restart: m=0; for(int p=0;p<P;p++) cur[p]=1; if(W){ for(int r=0;r<n;r++) if(t->op[r].rd&&t->op[r].idx<=W+1) push(r); } memset(mem,255,4*L); restarts++;
  for(;;){ if(m>deepest) deepest=m; if(m==n){ if(judge(out)) return 0; if(getenv("DBG")) fprintf(stderr,"not legal\n"); if(++m2>20) return 3; goto restart; } if(timeout||ms_now()>deadline||conf>max_conf) return 2; int bu,bv; if(berk&&berk_pick(&bu,&bv)){ new_level(m); decs++; int bad=add_edge(bu,bv,DECISION,lev); if(!bad) bad=full_sat(); else clearq(); int target=m; if(bad){ int r=resolve(&target); if(r) return r; while(m>target){ int x=out[--m]; cur[t->op[x].p]--; if(t->op[x].wr) mem[t->op[x].loc]=pm[m]; } }
      int okp=1; for(int q=0;q<P&&okp;q++) if(cur[q]<=t->len[q]){ u16 *f=fa+IX(opof(q,cur[q]),0); for(int p=0;p<P;p++) if(f[p]<cur[p]&&p!=q){ okp=0; break; } } if(!okp) goto restart; continue; }
    int best=-1; double bs=-1e18;
    for(int p=0;p<P;p++){ if(cur[p]>t->len[p]) continue; int x=opof(p,cur[p]); Op *o=&t->op[x]; int a=o->loc; int ok=1; for(int q=0;q<P&&ok;q++) if(lb[IX(x,q)]>=cur[q]) ok=0; if(!ok) continue; if(o->rd&&!has_cand(x,mem[a])) continue; if(!o->wr){ best=x; break; }
      int open=0,gain=0,loss=0; u64 d=o->leave; int had=mem[a]>=0||t->hasinit[a]; u64 cv=mem[a]>=0?t->op[mem[a]].leave:t->init[a];
      for(int q=0;q<P;q++) if(q!=p){ int i=nx[off[q]+(size_t)a*(t->len[q]+2)+cur[q]]; if(i>t->len[q]||i>=cur[q]+12) continue; Op *y=&t->op[opof(q,i)]; int b=bef(x,opof(q,i)); if(!b) open++; if(y->rd){ if(i==cur[q]&&y->need==d) gain++; if(had&&y->need==cv&&!b) loss++; } }
      double sc=-3.0*loss+1.5*gain-(open?0.5:0)-2.0*cur[p]/(t->len[p]+1.0); if(!open) sc+=100; if(noise){ rs^=rs<<13; rs^=rs>>7; rs^=rs<<17; sc+=noise*(rs%1000)/1000; } if(sc>bs){ bs=sc; best=x; } }
    int bad=0,target=m; if(best<0){ if(!stuck(cur)){ if(++m2>200) return 3; goto restart; } bad=1; }
    else { Op *o=&t->op[best]; int a=o->loc; for(int q=0;q<P&&!bad;q++) if(q!=o->p){ int y=nx[off[q]+(size_t)a*(t->len[q]+2)+cur[q]]; if(!o->wr) while(y<=t->len[q]&&!t->op[opof(q,y)].wr) y=nx[off[q]+(size_t)a*(t->len[q]+2)+y+1];
        if(y<=t->len[q]&&!bef(best,opof(q,y))){ new_level(m); decs++; bad=add_edge(best,opof(q,y),DECISION,lev); } }
      if(!bad) bad=full_sat(); else clearq(); }
    if(bad){ int r=resolve(&target); if(r) return r; if(noroll) goto restart; while(m>target){ int x=out[--m]; cur[t->op[x].p]--; if(t->op[x].wr) mem[t->op[x].loc]=pm[m]; }
      int okp=1; for(int q=0;q<P&&okp;q++) if(cur[q]<=t->len[q]){ u16 *f=fa+IX(opof(q,cur[q]),0); for(int p=0;p<P;p++) if(f[p]<cur[p]&&p!=q){ okp=0; break; } } if(!okp) goto restart; continue; }
    Op *o=&t->op[best]; out[m]=best; pm[m]=mem[o->loc]; m++; cur[o->p]++; if(o->wr) mem[o->loc]=best; if(W&&cur[o->p]+W<=t->len[o->p]) enter(opof(o->p,cur[o->p]+W)); } }
static long probes,failed; static int probe_near=1<<20;
static int probe(double until){ int w0=W; W=0; int any=1,dum=0,rounds=0; while(any&&rounds++<4){ any=0; for(int u=0;u<n;u++){ Op *o=&t->op[u]; int a=o->loc; for(int q=0;q<P;q++) if(q!=o->p){ int v=nx[off[q]+(size_t)a*(t->len[q]+2)+lb[IX(u,q)]+1]; if(v>=fa[IX(u,q)]||v>t->len[q]) continue; int y=opof(q,v); if(!o->wr&&!t->op[y].wr) continue;
        for(int d=0;d<2;d++){ int x=d?y:u,z=d?u:y; if(bef(x,z)||bef(z,x)) break; if(ms_now()>until||timeout){ W=w0; return 0; } probes++; new_level(0); int bad=add_edge(x,z,DECISION,lev); if(!bad) bad=saturate(); if(bad){ failed++; any=1; int r=resolve(&dum); if(r){ W=w0; return r==1; } } back_to(0); clearq(); } } } }
  W=w0; return 0; }
// ------------------------------------------------------------ beam search inside the relation
typedef struct { double sc; int par, op, m; u64 h; } Node; static double LAG=0.03;
static int cmpn(const void *a,const void *b){ double x=((Node*)a)->sc,y=((Node*)b)->sc; return x<y?1:x>y?-1:0; }
static int ready(int x,u16 *cur,int *mem){ Op *o=&t->op[x]; u16 *l=lb+IX(x,0); for(int q=0;q<P;q++) if(l[q]>=cur[q]) return 0; if(o->rd&&!has_cand(x,mem[o->loc])) return 0; return 1; }
static int reads(u16 *cur,int *mem,int *out){ int m=0,again=1; while(again){ again=0; for(int p=0;p<P;p++) while(cur[p]<=t->len[p]){ int x=opof(p,cur[p]); if(t->op[x].wr||!ready(x,cur,mem)) break; if(out) out[m]=x; m++; cur[p]++; again=1; } } return m; }
static int beam(int B,int *out,double until){ back_to(0); 
  u16 *cu=xc((size_t)B*P,2),*cu2=xc((size_t)B*P,2); int *me=xc((size_t)B*L,4),*me2=xc((size_t)B*L,4),*mm=xc(B,4),*mm2=xc(B,4);
  int Wn=0; for(int i=0;i<n;i++) Wn+=t->op[i].wr; int *par=xc((size_t)(Wn+1)*B,4),*ch=xc((size_t)(Wn+1)*B,4); Node *nd_=xc((size_t)B*P+1,sizeof(Node));
  int hs=1; while(hs<4*B*P) hs*=2; u64 *ht=xc(hs,8);
  int nb=1; for(int p=0;p<P;p++) cu[p]=1; for(int a=0;a<L;a++) me[a]=-1; mm[0]=reads(cu,me,0); int lay=0,win=-1; u64 rs=88172645463325252ull;
  u16 c[64]; int *m1=xc(L,4);
  while(lay<Wn&&nb&&ms_now()<until){ int k=0; memset(ht,0,8ul*hs);
    for(int b=0;b<nb;b++) for(int p=0;p<P;p++){ u16 *c0=cu+(size_t)b*P; if(c0[p]>t->len[p]) continue; int x=opof(p,c0[p]); if(!t->op[x].wr||!ready(x,c0,me+(size_t)b*L)) continue;
        memcpy(c,c0,2*P); memcpy(m1,me+(size_t)b*L,4*L); c[p]++; m1[t->op[x].loc]=x; int m=mm[b]+1+reads(c,m1,0);
        u64 h=1469598103934665603ull; for(int q=0;q<P;q++) h=(h^c[q])*1099511628211ull; for(int a=0;a<L;a++) h=(h^(m1[a]<0?77777:t->op[m1[a]].leave))*1099511628211ull; h|=1; size_t z=h>>20&(hs-1); int dup=0; while(ht[z]){ if(ht[z]==h){ dup=1; break; } z=(z+1)&(hs-1); } if(dup) continue; ht[z]=h;
        int blocked=0; double lag=0; double mean=0; for(int q=0;q<P;q++) mean+=(c[q]-1.0)/(t->len[q]?t->len[q]:1); mean/=P; for(int q=0;q<P;q++) if(c[q]<=t->len[q]){ int y=opof(q,c[q]); if(!(t->op[y].wr&&!t->op[y].rd)||!ready(y,c,m1)) blocked++; double z=(mean-(c[q]-1.0)/t->len[q])*t->len[q]; lag+=z*z; }
        rs^=rs<<13; rs^=rs>>7; rs^=rs<<17; nd_[k++]=(Node){m-0.7*blocked-LAG*lag+(rs%1000)*1e-4,b,x,m,h}; }
    if(!k){ nb=0; break; } qsort(nd_,k,sizeof(Node),cmpn); if(k>B) k=B; lay++;
    for(int i=0;i<k;i++){ Node *N=&nd_[i]; u16 *d=cu2+(size_t)i*P; int *e=me2+(size_t)i*L; memcpy(d,cu+(size_t)N->par*P,2*P); memcpy(e,me+(size_t)N->par*L,4*L); d[t->op[N->op].p]++; e[t->op[N->op].loc]=N->op; reads(d,e,0); mm2[i]=N->m; par[(size_t)lay*B+i]=N->par; ch[(size_t)lay*B+i]=N->op; }
    u16 *tc=cu; cu=cu2; cu2=tc; int *tm=me; me=me2; me2=tm; tm=mm; mm=mm2; mm2=tm; nb=k; }
  if(lay==Wn) for(int b=0;b<nb&&win<0;b++) if(mm[b]==n){ int ok=1; for(int a=0;a<L;a++) if(t->hasfin[a]){ int w=me[(size_t)b*L+a]; ok&=w<0?t->hasinit[a]&&t->init[a]==t->fin[a]:t->op[w].leave==t->fin[a]; } if(ok) win=b; }
  if(win>=0){ int *seq=xc(Wn+1,4); for(int l=Wn,b=win;l>=1;l--){ seq[l]=ch[(size_t)l*B+b]; b=par[(size_t)l*B+b]; }
    for(int p=0;p<P;p++) c[p]=1; for(int a=0;a<L;a++) m1[a]=-1; int m=reads(c,m1,out); for(int l=1;l<=Wn;l++){ int x=seq[l]; out[m++]=x; c[t->op[x].p]++; m1[t->op[x].loc]=x; m+=reads(c,m1,out+m); } free(seq); win=judge(out)?win:-1; }
  if(getenv("DBG")) fprintf(stderr,"beam B=%d layers=%d of %d win=%d\n",B,lay,Wn,win);
  free(cu);free(cu2);free(me);free(me2);free(mm);free(mm2);free(par);free(ch);free(nd_);free(ht);free(m1); return win>=0; }
// ------------------------------------------------------------ writing
static void write_cert(const char *path){ FILE *f=fopen(path,"w"); fprintf(f,"vsc-whole 1\n"); char *ul_=xc(nln,1),*uc=xc(ncl+1,1); ul_[nln-1]=1; for(int i=nln-1;i>=0;i--) if(ul_[i]) for(int k=0;k<ln[i].nh;k++){ int h=ln[i].h[k]; if(h&1) ul_[h>>1]=1; else uc[h>>1]=1; }
  // variables of lines
  typedef struct { int u,v; } PV; int hc=1<<12; int nv=0; for(int i=0;i<nln;i++) if(ul_[i]) nv+=ln[i].nl; while(hc<2*nv+2) hc*=2; u64 *hk=xc(hc,8); int *hv=xc(hc,4); nv=0;
  #define VAR(u,v,out) do{ u64 k_=((u64)(u)<<32|(u32)(v))+1; u32 h_=(u32)((k_*0x9E3779B97F4A7C15ull)>>40)&(hc-1); while(hk[h_]&&hk[h_]!=k_) h_=(h_+1)&(hc-1); if(!hk[h_]){ hk[h_]=k_; hv[h_]=++nv; fprintf(f,"v %d %d\n",(u)+1,(v)+1); } out=hv[h_]; }while(0)
  for(int i=0;i<nln;i++) if(ul_[i]) for(int k=0;k<ln[i].nl;k+=2){ int u=ln[i].l[k],v=ln[i].l[k+1],x; if(u<v) VAR(u,v,x); else VAR(v,u,x); (void)x; }
  int *id=xc(ncl+1,4),m=0; // clauses in order of first use
  for(int i=0;i<nln;i++) if(ul_[i]) for(int k=0;k<ln[i].nh;k++){ int h=ln[i].h[k]; if(!(h&1)&&!id[h>>1]){ id[h>>1]=++m; fprintf(f,"%s\n",ct[h>>1]); } }
  fprintf(f,"p\n"); int *lid=xc(nln,4); int used=0; long hh=0; for(int i=0;i<nln;i++) if(ul_[i]){ used++; lid[i]=++m; fprintf(f,"%d",m); for(int k=0;k<ln[i].nl;k+=2){ int u=ln[i].l[k],v=ln[i].l[k+1],x; if(u<v) VAR(u,v,x); else { VAR(v,u,x); x=-x; } fprintf(f," %d",x); } fprintf(f," 0"); for(int k=0;k<ln[i].nh;k++){ int h=ln[i].h[k]; fprintf(f," %d",h&1?lid[h>>1]:id[h>>1]); hh++; } fprintf(f," 0\n"); }
  fclose(f); (void)used; }
int main(int argc,char **argv){ const char *path=0,*cp=0,*sp=0; int nophase=0; double limit=10000,pb=0,beamms=0; int nowalk=0; int nosearch=0,nohall=0; for(int i=1;i<argc;i++){ if(!strcmp(argv[i],"-c")) cp=argv[++i]; else if(!strcmp(argv[i],"-s")) sp=argv[++i]; else if(!strcmp(argv[i],"-t")) limit=atof(argv[++i]); else if(!strcmp(argv[i],"-n")) nosearch=1; else if(!strcmp(argv[i],"-h")) nohall=1; else if(!strcmp(argv[i],"-r")) noroll=1; else if(!strcmp(argv[i],"-w")) W=atoi(argv[++i]); else if(!strcmp(argv[i],"-g")) guess=atof(argv[++i]); else if(!strcmp(argv[i],"-B")) beamms=atof(argv[++i]); else if(!strcmp(argv[i],"-W")) nowalk=1; else if(!strcmp(argv[i],"-k")) berk=atoi(argv[++i]); else if(!strcmp(argv[i],"-1")) nophase=1; else if(!strcmp(argv[i],"-b")) pb=atof(argv[++i]); else if(!strcmp(argv[i],"-z")) noise=atof(argv[++i]); else if(!strcmp(argv[i],"-m")) maxle=atoi(argv[++i]); else path=argv[i]; }
  t=read_trace(path); n=t->n; P=t->P; L=t->L; C=classes(t); double t0=ms_now(); deadline=t0+limit; chash=xc(chcap,4); ffh=xc(ffcap,4); ffst=xc(ffcap,4); dist=xc(n,4); par=xc(n,4); nstamp=xc(n,4); dq=xc(6*n+64,4);
  int r=build(); double t1=ms_now(); const char *how="saturation"; const char *v="UNKNOWN"; if(!r&&!nohall&&counting()){ r=1; how="count0"; } double t1b=ms_now(); if(!r&&nupd&&!nophase){ phase1=1; r=saturate(); phase1=0; if(!r&&!timeout){ if(counting()){ r=1; how="count1"; } else for(int i=0;i<n;i++) if(t->op[i].rd&&t->op[i].wr) push(i); } } if(!r) r=saturate(); double t2=ms_now(); int e0=ne; 
  if(!r&&!timeout&&!nohall&&nupd&&counting()){ r=1; how="counting"; } double t3=ms_now(); int *out=xc(n+1,4); int sr=-1; int unfixed=0; (void)t1b; for(int i=0;i<n;i++) if(na[i]>1) unfixed++;
  if(timeout) v="TIMEOUT"; else if(r){ explain(); v="REFUTED"; } else if(!nosearch){ walkmode=1; if(pb>0&&probe(ms_now()+pb)) sr=1,how="probe"; else { how="walk"; double dl=deadline; if(beamms>0) deadline-=beamms; sr=nowalk?2:search(out); deadline=dl; timeout=0; if(sr>=2&&beamms>0) for(int B=16;B<=4096&&ms_now()<dl;B*=4) if(beam(B,out,dl)){ sr=0; how="beam"; break; } } v=sr==0?"SCHEDULE":sr==1?"REFUTED":sr==2?"GAVEUP":"STUCK"; }
  double t4=ms_now(); if(v[0]=='R'&&cp) write_cert(cp); if(sr==0&&sp){ FILE *f=fopen(sp,"w"); for(int i=0;i<n;i++) fprintf(f,"%s.%d\n",t->pname[t->op[out[i]].p],t->op[out[i]].idx); fclose(f); }
  struct rusage ru; getrusage(RUSAGE_SELF,&ru); printf("probes=%ld failed=%ld ",probes,failed); printf("n=%d P=%d L=%d verdict=%s how=%s edges=%d unfixed=%d build_ms=%.1f sat_ms=%.1f hall_ms=%.1f rest_ms=%.1f all_ms=%.1f conf=%ld decs=%ld restarts=%ld deepest=%d lits=%.1f maxlits=%ld hall=%d kb=%ld\n",n,P,L,v,how,e0,unfixed,t1-t0,t2-t1,t3-t2,t4-t3,t4-t0,conf,decs,restarts,deepest,conf?(double)sumlits/conf:0.,maxlits,nhall,ru.ru_maxrss); return 0; }
