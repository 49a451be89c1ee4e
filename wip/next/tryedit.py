import sys,subprocess,re
# tryedit CRATE EDIT
crate,edit=sys.argv[1:3]
cur={}; parts=[]
for l in open(f'crates/{crate}/must-fail/{edit}.edit').read().split('\n'):
    for k in ('file','old','new'):
        if l.startswith(k+': '):
            cur[k]=l[len(k)+2:]
            if k=='new': parts.append(dict(cur))
for d in parts:
    p=f'crates/{crate}/'+d['file']; s=open(p).read(); n=s.count(d['old'].strip())
    if n<1: print('OLD NOT FOUND',d['old'])
    s=s.replace(d['old'].strip(),d['new'].strip(),1); open(p,'w').write(s)
