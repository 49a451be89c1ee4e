import sys,glob
n={'src':0,'specs':0,'proofs':0}; show=sys.argv[1:]
for k,pat in (('src','crates/*/src/**/*.rt'),('specs','crates/*/specs/**/*.antt'),('proofs','crates/*/proofs/**/*.antt')):
    for p in glob.glob(pat,recursive=True):
        if 'SessionExamples' in p or 'CompiledExamples' in p: continue
        for i,l in enumerate(open(p,encoding='utf-8').read().split('\n'),1):
            if len(l)>120:
                n[k]+=1
                if k in show: print(f'{p}:{i}: {len(l)} {l[:150]}')
print(n)
