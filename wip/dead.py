import re,glob,sys
crates=sys.argv[1:]
files=glob.glob('*/specs/**/*.antt',recursive=True)+glob.glob('*/proofs/**/*.antt',recursive=True)+glob.glob('*/src/*.rt')
text={f:open(f).read() for f in files}
blob='\n'.join(text.values())
for f in files:
    c=f.split('/')[0]
    if c not in crates or not f.endswith('.antt'): continue
    if '/proofs/' in f and f.count('/')>2: continue
    for m in re.finditer(r"^ *((abbrev|unfoldable|pub|record|data|theorem) )*([^\s:(){}]+) +:[^:]",text[f],re.M):
        n=m.group(3)
        if n in('let','use','in','module'): continue
        pat=r'(?<![^\s(){}.,;⌜«])'+re.escape(n)+r'(?![^\s(){}.,;⌝»])'
        tot=len(re.findall(pat,blob))
        own=len(re.findall(pat,text[f]))
        if tot-own==0:
            # used inside own file beyond signature and equation?
            body=len(re.findall(pat,text[f]))
            eqs=len(re.findall(r'^ *((abbrev|unfoldable|pub) )*'+re.escape(n)+r'(?=[\s{])',text[f],re.M))
            if body-eqs<=0: print(f,n)
