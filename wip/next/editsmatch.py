import glob
bad=0;n=0
for e in glob.glob('crates/*/must-fail/*.edit'):
    n+=1
    crate=e.split('/')[1]; cur=None
    for l in open(e,encoding='utf-8').read().split('\n'):
        if l.startswith('file: '): cur=l[6:]
        if l.startswith('old: '):
            s=open(f'crates/{crate}/{cur}',encoding='utf-8').read()
            if s.count(l[5:])!=1: bad+=1; print(e,s.count(l[5:]),l[5:][:100])
print(n,'edits; that do not match once:',bad)
