import sys,struct
def f(x): return struct.pack('>f',x).hex().upper()
# kind voices frames blocks
kind,voices,frames,blocks=sys.argv[1],int(sys.argv[2]),int(sys.argv[3]),int(sys.argv[4])
o=["print none","config %s %d 64"%(f(48000.0),frames)]
for i in range(64): o.append("source s%d signal v u"%i)
if kind in('a','b','c'):
    nd={'a':1,'b':64,'c':64}[kind]; rate={'a':'audio','b':'audio','c':'control'}[kind]
    for d in range(nd): o.append("dest p:%d v %s %s %s -"%(d,rate,f(-1.0),f(1.0)))
    for n in range(64): o.append("slot %d src=%d dst=p:%d amt=%s pol=%s"%(n,n,n%nd,f((n-31.5)/64),'ub'[n%2]))
elif kind=='d':
    for d in range(16):
        feed='-'
        if d<4: feed='amt:%d'%(48+d)
        elif d<8: feed='out:%d'%(48+d)
        o.append("dest p:%d v control %s %s %s"%(d,f(-1.0),f(1.0),feed))
    o.append("table q sq")
    for n in range(64):
        o.append("slot %d src=%d dst=p:%d amt=%s pol=%s aux=%d sc=q:%s:%s ac=q:%s:%s"%(n,n,n%16,f((n-31.5)/64),'ub'[n%2],(n+1)%64,f(0.01),f(0.02),f(0.02),f(0.01)))
o.append("compile x");o.append("engine");o.append("swap x")
ns=64
for i in range(64): o.append("bind %d 64 gen %d %d u"%(i,i if kind!='x' else 0,64*frames))
for v in range(voices): o.append("note_on %d %s %s 0 %s"%(v,f(60.0),f(1.0),f(0.0)))
for b in range(blocks): o.append("process 0 %d"%frames)
o.append("print hash");o.append("out 0 %d"%frames)
print("\n".join(o))
