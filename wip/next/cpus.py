import os,time,re,json,sys
best={}
hz=os.sysconf('SC_CLK_TCK')
out=sys.argv[1]
while True:
    for p in os.listdir('/proc'):
        if not p.isdigit(): continue
        try:
            c=open('/proc/%s/cmdline'%p,'rb').read().split(b'\0')
            if not c or not c[0].endswith(b'/rattle'): continue
            w=[x.decode() for x in c]
            s=open('/proc/%s/stat'%p).read().rsplit(')',1)[1].split()
            t=(int(s[11])+int(s[12]))/hz
            name=''
            if '--crate-name' in w: name=w[w.index('--crate-name')+1]
            path=[x for x in w if x.endswith('.rt')]
            key='%s %s %s'%(p,name,path[0] if path else '')
            best[key]=t
        except Exception: pass
    with open(out,'w') as f: json.dump(best,f)
    time.sleep(1)
