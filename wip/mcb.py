import sys,subprocess,bisect
prog,key,top=sys.argv[1],sys.argv[2],int(sys.argv[3])
def run(n):
    subprocess.run(['env','LD_PRELOAD=/tmp/sp/mc.so',prog,'--once',key,'port','0',str(n)],stdout=subprocess.DEVNULL)
    L=open('/tmp/sp/mc.out').read().split('\n'); base=int(L[0].split('-')[0],16); d={}
    for l in L[1:]:
        if l: a,n,c=l.split(); d[(int(a,16)-base,int(n))]=int(c)
    return d
a=run(10); b=run(30)
sy=[]
for l in subprocess.run(['nm','-n',prog],capture_output=True,text=True).stdout.split('\n'):
    p=l.split(' ',2)
    if len(p)==3: sy.append((int(p[0],16),p[2][0:50]) if p[0] else (0,''))
sy.sort(); ks=[s[0] for s in sy]
R=[]
for k,c in b.items():
    e=c-a.get(k,0)
    if e>0: R.append((e/20.0*k[1],e/20.0,k[1],sy[bisect.bisect(ks,k[0])-1][1],hex(k[0])))
R.sort(reverse=True)
by={}
for r in R: by.setdefault(r[3],[0,0]); by[r[3]][0]+=r[0]; by[r[3]][1]+=r[1]
for k,v in sorted(by.items(),key=lambda x:-x[1][0])[:10]: print(k,'bytes %d calls %.1f'%tuple(v))
for r in R[:top]: print('bytes/block %8d calls %6.1f size %6d %s %s'%r)
