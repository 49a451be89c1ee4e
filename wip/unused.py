import re,sys
def tokens(body):
    return set(re.split(r"[\s(){},;.⌜⌝«»\[\]]+",body))
for f in sys.argv[1:]:
    s=open(f).read()
    lines=s.split('\n')
    isuse=[bool(re.match(r'\s*(ghost )?use ',l)) for l in lines]
    body='\n'.join(l for l,u in zip(lines,isuse) if not u)
    body_nc='\n'.join(l.split('//')[0] if f.endswith('.rt') else l.split('-- ')[0] for l in body.split('\n'))
    toks=tokens(body_nc)
    def used(n):
        n=n.strip()
        if n.startswith('_') or n.endswith('_'):
            core=[x for x in n.split('_') if x]
            return all(x in toks for x in core) or n in toks
        return n in toks
    out=[];ch=False
    for l,u in zip(lines,isuse):
        if u:
            m=re.match(r'(\s*(?:ghost )?use [^{]*\.)\{(.*)\}(;?)\s*$',l)
            if m:
                names=[x.strip() for x in m.group(2).split(',')]
                keep=[x for x in names if used(x.split(' as ')[-1])]
                if keep!=names:
                    ch=True
                    print(f,'drop',[x for x in names if x not in keep])
                    if not keep: continue
                    l=m.group(1)+'{'+', '.join(keep)+'}'+m.group(3)
            else:
                m=re.match(r'\s*(?:ghost )?use .* as (\S+?);?$',l)
                if m and not used(m.group(1)):
                    print(f,'drop as',l); ch=True; continue
                m=re.match(r'\s*use [\w:]+::(\w+);$',l)
                if m and not re.search(r'\b'+m.group(1)+r'\b',body_nc):
                    print(f,'drop',l); ch=True; continue
        out.append(l)
    if ch: open(f,'w').write('\n'.join(out))
