#include <stddef.h>
#include <stdint.h>
typedef struct {void*p; size_t n;} S;
uint64_t tb_inner(S*,S*,S*,S*,S*,S*,S*,S*,S*,S*);
uint64_t tinuhawe_bench(void*a,size_t an,void*b,size_t bn,void*c,size_t cn,void*d,size_t dn,void*e,size_t en,void*f,size_t fn,void*g,size_t gn,void*h,size_t hn,void*i,size_t in,void*j,size_t jn){
 S A={a,an},B={b,bn},C={c,cn},D={d,dn},E={e,en},F={f,fn},G={g,gn},H={h,hn},I={i,in},J={j,jn};
 return tb_inner(&A,&B,&C,&D,&E,&F,&G,&H,&I,&J);}
