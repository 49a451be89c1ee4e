import sys
# fillproof.py CRATE FN MEETS INV MU [use ...]
crate,name,meets,inv,mu=sys.argv[1:6]
uses=sys.argv[6:]
p='crates/%s/proofs/%s/Proof.antt'%(crate,name)
out=[]
for l in open(p).read().split('\n'):
    if l.startswith('-- src/'): continue
    if ' as reads' in l or ' as lts' in l or '-reads' in l: continue
    if l.startswith('Inv-loop ') and l.endswith('= ?'): l=l[:-1]+inv
    elif l.startswith('μ-loop ') and l.endswith('= ?'): l=l[:-1]+mu
    elif l.endswith('= ?'): l=l[:-1]+'search needs'
    out.append(l)
head=['-- `%s::%s` %s. Assumes nothing.'%(crate,name.replace('/','::'),meets)]
if 'use borrow.Author.Needs.{needs}' not in '\n'.join(out): head.append('use borrow.Author.Needs.{needs}')
open(p,'w').write('\n'.join(head+uses+out))
