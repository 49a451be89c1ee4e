#define _GNU_SOURCE
#include <stddef.h>
#include <stdio.h>
#include <stdlib.h>
#include <string.h>
#include <unistd.h>
static struct {void*a; size_t n; long c;} T[65536];
static int on=0;
void *memcpy(void *d,const void *s,size_t n){
  void*ra=__builtin_return_address(0);
  if(n>=64){ unsigned h=((unsigned long)ra*2654435761u ^ n*40503u)&65535; while(T[h].a && (T[h].a!=ra||T[h].n!=n)) h=(h+1)&65535; T[h].a=ra;T[h].n=n;T[h].c++; }
  char*p=d;const char*q=s; for(size_t i=0;i<n;i++)p[i]=q[i]; return d;}
__attribute__((destructor)) static void fin(){ FILE*f=fopen("/tmp/sp/mc.out","w"); FILE*m=fopen("/proc/self/maps","r"); char l[300]; fgets(l,300,m); fprintf(f,"%s",l); for(int i=0;i<65536;i++) if(T[i].a) fprintf(f,"%p %zu %ld\n",T[i].a,T[i].n,T[i].c); fclose(f);}
