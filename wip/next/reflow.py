#!/usr/bin/env python3
"""reflow FILES: breaks lines above 120 columns in .rt (comments, ghost use, contracts) and specs .antt"""
import re,sys
MOST=120
OPEN='([{⌜'; CLOSE=')]}⌝'
def depth_at(s):
    d=0; out=[]
    for c in s:
        if c in CLOSE: d-=1
        out.append(d)
        if c in OPEN: d+=1
    return out
OPS=[' × ',' → ',' ≡ ',' && ',' || ',' ∷ ',' ∙ ']
def breaks(s):
    """(position of the break: text continues at pos with the operator), depth, rank"""
    d=depth_at(s); out=[]
    for r,op in enumerate(OPS):
        i=s.find(op)
        while i>=0:
            out.append((i+1,d[i+1],r)); i=s.find(op,i+1)
    for m in re.finditer(r' (?=\()',s):
        out.append((m.end(),d[m.start()+1] if m.start()+1<len(d) else 0,20))
    for m in re.finditer(r'; ',s):
        out.append((m.end(),d[m.start()],1))
    return out
def split(s,indent,first_room,protect=()):
    """s without leading blanks; lines; first has first_room columns"""
    lines=[]; room=first_room
    while len(s)>room:
        bs=[b for b in breaks(s) if 30<=b[0]<=room and not any(a<b[0]<e for a,e in spans(s,protect))]
        if not bs: 
            return None
        least=min(b[1] for b in bs)
        cands=[b for b in bs if b[1]==least]
        # among the least deep, the latest of the best rank present in the last half
        late=[b for b in cands if b[0]>room*0.45] or cands
        rank=min(b[2] for b in late)
        if rank>=20 and least<=3:
            pass
        b=max(x for x in late if x[2]==rank)
        lines.append(s[:b[0]].rstrip()); s=s[b[0]:].lstrip(); room=MOST-indent
    lines.append(s)
    return lines
def spans(s,protect):
    for p in protect:
        i=s.find(p)
        while i>=0:
            yield (i,i+len(p)); i=s.find(p,i+1)
def wrap_comment(lines,mark):
    m=re.match(r'(\s*)'+re.escape(mark)+' ?',lines[0]); ind=m.group(1)
    words=' '.join(re.sub(r'^\s*'+re.escape(mark)+' ?','',l) for l in lines).split()
    out=[]; cur=ind+mark
    for w in words:
        if len(cur)+1+len(w)>MOST: out.append(cur); cur=ind+mark
        cur+=' '+w
    out.append(cur); return out
def split_use(line):
    m=re.match(r'(\s*(?:ghost )?use [^{]*\.)\{(.*)\}(;?)\s*$',line)
    if not m: return None
    pre,names,semi=m.groups(); names=[n.strip() for n in names.split(',')]
    out=[]; cur=[]
    for n in names:
        t=pre+'{'+', '.join(cur+[n])+'}'+semi
        if len(t)>MOST and cur: out.append(pre+'{'+', '.join(cur)+'}'+semi); cur=[n]
        else: cur.append(n)
    out.append(pre+'{'+', '.join(cur)+'}'+semi)
    return out
def do(path,protect):
    src=open(path,encoding='utf-8').read().split('\n'); out=[]; i=0; left=[]
    rt=path.endswith('.rt'); mark='//' if rt else '--'
    while i<len(src):
        l=src[i]
        if l.lstrip().startswith(mark):
            j=i
            while j<len(src) and src[j].lstrip().startswith(mark) and re.match(r'\s*',src[j])[0]==re.match(r'\s*',l)[0] and not src[j].lstrip().startswith(mark+' ----'): j+=1
            j=max(j,i+1)
            para=src[i:j]
            out+= wrap_comment(para,mark) if any(len(x)>MOST for x in para) else para
            i=j; continue
        if len(l)<=MOST: out.append(l); i+=1; continue
        if re.match(r'\s*(ghost )?use ',l):
            r=split_use(l)
            out+= r if r else [l]; i+=1; continue
        ind=len(l)-len(l.lstrip()); s=l.strip()
        if rt:
            r=split(s,12,MOST-ind-4,protect)
            if r is None: left.append((path,i+1)); out.append(l)
            else: out.append(' '*ind+r[0]); out+=[' '*8+x for x in r[1:]]
        else:
            m=re.match(r'unfolding ',s)
            if m:
                w=s.split(); cur='unfolding'; lines=[]
                for x in w[1:]:
                    if len(cur)+1+len(x)+ind>MOST: lines.append(' '*ind+cur); cur='   '+x if False else '    '+x
                    else: cur+=' '+x
                lines.append(' '*ind+cur); out+=lines; i+=1; continue
            cont=ind+4
            # a clause: put the right side on its own line
            m=re.match(r'([^=]*[^=≡≤<>]) = (.*)$',s)
            if m and not re.match(r'(abbrev|unfoldable|pub|record)',s) and ' : ' not in m.group(1) and ind==0 and len(m.group(1))<90:
                rest=m.group(2)
                if len(rest)+4<=MOST: out+=[m.group(1)+' =',' '*4+rest]; i+=1; continue
                r=split(rest,4,MOST-4,protect)
                if r: out.append(m.group(1)+' ='); out+=[' '*4+x for x in r]; i+=1; continue
            r=split(s,cont,MOST-ind,protect)
            if r is None: left.append((path,i+1)); out.append(l)
            else: out.append(' '*ind+r[0]); out+=[' '*cont+x for x in r[1:]]
        i+=1
    new='\n'.join(out)
    if new!='\n'.join(src): open(path,'w',encoding='utf-8').write(new)
    return left
if __name__=='__main__':
    import glob,os
    left=[]
    for p in sys.argv[1:]:
        crate=p.split('/specs/')[0].split('/src/')[0]
        prot=[]
        for e in glob.glob(crate+'/must-fail/*.edit'):
            for l in open(e,encoding='utf-8').read().split('\n'):
                if l.startswith('old: '): prot.append(l[5:].strip())
        left+=do(p,prot)
    for a,b in left: print(f'{a}:{b} left')
