import json,sys
root=sys.argv[1]; tag=sys.argv[2]
deps={}
for l in open(root+'/crates.txt'):
    l=l.split('#')[0].strip()
    if l:
        n,_,d=l.partition(':'); deps[n]=d.split()
lev={}
def L(n):
    if n not in lev: lev[n]=1+max([L(d) for d in deps[n] if d in deps] or [0])
    return lev[n]
for n in deps: L(n)
d=json.load(open('/tmp/cpus-gate.json'))
cpu={}
for k,v in d.items():
    w=k.split()
    if len(w)>2 and tag in w[2]: cpu[w[1]]=max(cpu.get(w[1],0),v)
tot=0; wall=0
for i in range(1,max(lev.values())+1):
    ns=[n for n in deps if lev[n]==i]
    s=sum(cpu.get(n,0) for n in ns); m=max(cpu.get(n,0) for n in ns)
    w=max(s/2,m); wall+=w; tot+=s
    print(i,round(w),round(s),' '.join('%s:%d'%(n,cpu.get(n,-1)) for n in sorted(ns,key=lambda n:-cpu.get(n,0))))
print('cpu',tot/60,'wall',wall/60)
import glob,os
e=0
rows=[]
for n in deps:
    c=len(glob.glob(root+'/crates/%s/must-fail/*.edit'%n))
    e+=c*cpu.get(n,0); rows.append((c*cpu.get(n,0),c,n))
print('edits cpu',e/60)
for r in sorted(rows,reverse=True)[:25]: print(r)
