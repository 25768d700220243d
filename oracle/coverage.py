#!/usr/bin/env python3
"""coverage.py [DIR]: which parents have which kinds of children at which place, over the DIR/*.body (lawful sheets)."""
import glob,os,struct,sys,collections
where = sys.argv[1] if len(sys.argv) > 1 else os.path.dirname(os.path.abspath(__file__)) + "/../crates/comparison/data"
exprs=[1,2,3,4,5,7,8,9,10,11,12,13]; pats=[20,21,22,23]; tys=[30,31,32]; sts=[40,41,42,43]
want=set()
def w(k,pos,kinds):
    for c in kinds: want.add((k,pos,c))
for k in (3,): w(k,'e',exprs)
for k in (4,): w(k,'l',exprs+[6]); w(k,'r',exprs+[6])
w(5,'cond',exprs+[6]); w(5,'then',exprs); w(5,'else',exprs+[0])
w(6,'p',pats); w(6,'e',exprs)
w(7,'tail',exprs+[0]); w(7,'s',sts)
w(8,'b',exprs); w(9,'b',exprs); w(9,'ret',tys+[0]); w(9,'p',pats); w(9,'t',tys+[0])
w(10,'e',exprs); w(10,'a',[50]); w(11,'e',exprs); w(12,'e',exprs); w(12,'len',exprs); w(13,'e',exprs); w(13,'t',tys)
w(21,'p',pats); w(22,'p',pats); w(23,'e',exprs); w(31,'t',tys); w(32,'t',tys); w(32,'len',exprs)
w(40,'p',pats); w(40,'t',tys+[0]); w(40,'init',exprs+[0]); w(40,'else',exprs+[0]); w(41,'e',exprs)
w(50,'p',pats); w(50,'g',exprs+[6,0]); w(50,'e',exprs); w(60,'e',exprs); w(60,'p',pats)
seen=collections.Counter()
for f in sorted(glob.glob(where+'/*.body')):
    b=open(f,'rb').read(); p=5
    n,=struct.unpack_from('>H',b,p); p+=2; nodes=[]
    for _ in range(n): nodes.append(struct.unpack_from('>BHII',b,p)); p+=11
    p+=2; kinds=[0]+[x[0] for x in nodes]
    for k,c,a,bb in nodes:
        ch=struct.unpack_from('>%dH'%c,b,p); p+=2*c
        for j,x in enumerate(ch):
            pos={3:'e',4:'lr'[j] if j<2 else '',5:['cond','then','else'][j] if j<3 else '',6:['p','e'][j] if j<2 else '',7:'tail' if j==0 else 's',8:'b',
             9:'b' if j==0 else 'ret' if j==1 else 'p' if j%2==0 else 't',10:'e' if j==0 else 'a',11:'e',12:['e','len'][j] if j<2 else '',13:['e','t'][j] if j<2 else '',21:'p',22:'p',23:'e',31:'t',32:['t','len'][j] if j<2 else '',40:['p','t','init','else'][j] if j<4 else '',41:'e',50:['p','g','e'][j] if j<3 else '',60:'e' if j==0 else 'p'}[k]
            seen[(k,pos,kinds[x])]+=1
print(len(want),'combinations, missing:',sorted(want-set(seen)),'unexpected:',sorted(set(seen)-want))
print('rarest',sorted((v,k) for k,v in seen.items())[:12])
