import subprocess,sys
base=sys.argv[1]
o=subprocess.run(['git','diff','-U0',base,'--','crates/*/src/*','crates/*/specs/*'],capture_output=True,text=True).stdout
f=''
n=0
import re
for l in o.split('\n'):
    if l.startswith('+++'): f=l[6:]
    elif l.startswith('@@'): n=int(re.search(r'\+(\d+)',l)[1])-1
    elif l.startswith('+'):
        n+=1
        if len(l)-1>120 and 'Examples' not in f: print('%s:%d (%d) %s'%(f,n,len(l)-1,l[1:200]))
