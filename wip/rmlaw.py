import re,sys
f=sys.argv[1]; names=sys.argv[2:]
s=open(f).read()
paras=re.split(r'\n\n',s)
out=[]
for p in paras:
    hit=False
    for n in names:
        if re.search(r'^ *((abbrev|unfoldable|pub|record) )*'+re.escape(n)+r' ?[ :(]',p,re.M) and re.search(r'^ *((abbrev|unfoldable|pub|record) )+'+re.escape(n)+r'(?=[ :])|^ *'+re.escape(n)+r' :',p,re.M):
            hit=True; print('removed',n)
    if not hit: out.append(p)
open(f,'w').write('\n\n'.join(out).rstrip('\n')+'\n')
