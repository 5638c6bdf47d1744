#!/usr/bin/env python3
"""listing_cases.py: make stdout of crates/writings, and data/, args and stdout of crates/listings, from a model that
shares nothing with the code: document 01's listing read anew, and a register into which keys are inserted step by
step, word for word.
In order: reading; inserting; writing; the cases; the files. Run it from the repository's root."""
import os

D = 'crates/listings/'
BIG=4294967295
def num(b):
    if not b or any(not 48<=c<=57 for c in b): return None
    if len(b)>1 and b[0]==48: return None
    v=int(b)
    return v if v<=BIG else None
def field(line,name):
    return num(line[len(name):]) if line.startswith(name) else None
def read(s,most=510):
    p=0; state='edition'; stamp=None; keys=[]; vals=[]; last=0
    while True:
        if p==len(s):
            if state=='whole': return ('whole',stamp,keys,vals)
            return ('bad',p)
        e=s.find(b'\n',p)
        if e<0: return ('bad',p)
        l=s[p:e]
        if state=='edition':
            if l!=b'edition=1': return ('bad',p)
            state='stamp'
        elif state=='stamp':
            stamp=field(l,b'stamp=')
            if stamp is None: return ('bad',p)
            state='key'
        elif state=='key':
            k=field(l,b'key='); c=field(l,b'count=')
            if k is not None:
                if not (last<k<BIG): return ('bad',p)
                if len(keys)==most: return ('many',)
                keys.append(k); last=k; state='value'
            elif c is not None and c==len(keys): state='whole'
            else: return ('bad',p)
        elif state=='value':
            v=field(l,b'value=')
            if v is None: return ('bad',p)
            vals.append(v); state='key'
        else: return ('bad',p)
        p=e+1
class Reg:
    def __init__(r):
        r.n=[0]*3072; r.e=[0]*8192; r.nu=2; r.eu=1; r.stamp=0
        r.n[2]=1; r.n[5]=1; r.n[6]=BIG; r.e[0]=1
    def insert(r,k,v):   # walk, lock, check, prepare, number, link, finish
        N=r.n; E=r.e
        pred=0; curr=N[2]
        while N[6*curr]<k: pred=curr; curr=N[6*curr+2]
        N[6*pred+3]=1
        assert N[6*pred+2]==curr and N[6*curr]!=k
        new=r.nu; r.nu+=1; a=r.eu; b=r.eu+1; r.eu+=2
        N[6*new:6*new+6]=[k,v,curr,0,0,0]
        E[4*a:4*a+4]=[new,r.stamp,1,N[6*pred+5]]; N[6*pred+5]=a+1
        E[4*b:4*b+4]=[curr,r.stamp,1,N[6*new+5]]; N[6*new+5]=b+1
        r.stamp+=1
        N[6*pred+2]=new
        for x in (a,b): E[4*x+1]=r.stamp; E[4*x+2]=0
        N[6*pred+3]=0
def hsum(ws):
    h=0
    for w in ws: h=(3*h+w)%(1<<64)
    return h
def listing(stamp,keys,vals):
    return b'edition=1\nstamp=%d\n'%stamp+b''.join(b'key=%d\nvalue=%d\n'%kv for kv in zip(keys,vals))+b'count=%d\n'%len(keys)
def write(stamp,keys,vals,room,most=510):
    if len(keys)!=len(vals) or len(keys)>most or any(not 0<k<BIG for k in keys) or any(a>=b for a,b in zip(keys,keys[1:])): return ('refused=12',None)
    l=listing(stamp,keys,vals)
    return ('refused=11',None) if room<len(l) else ('written=%d'%len(l),l)
out=[]
def trywrite(stamp,keys,vals,room):
    a,l=write(stamp,keys,vals,room)
    out.append(a.encode()+b'\n'); b=bytearray(b'#'*80)
    if l: b[:len(l)]=l
    out.append(bytes(b)+b'\n')
out.append(b'== no keys, room to spare, just enough, one byte too few, none\n')
for r in (80,26,25,0): trywrite(0,[],[],r)
out.append(b'== two keys\n'); trywrite(BIG,[1,BIG-1],[0,BIG],80)
out.append(b'== more keys than values, more values than keys\n')
trywrite(0,[1,2],[3],80); trywrite(0,[1],[3,4],80)
out.append(b'== key 0, key 4294967295, a key twice, falling keys, and no room either\n')
for ks,vs,r in (([0],[3],80),([BIG],[3],80),([5,5],[3,4],80),([5,4],[3,4],80),([5,4],[3,4],0)): trywrite(0,ks,vs,r)
out.append(b'== 510 keys, 511 keys\n')
for n in (510,511): out.append(write(1,list(range(1,n+1)),[0]*n,16384)[0].encode()+b'\n')
open('crates/writings/stdout','wb').write(b''.join(out))
out=[]
out.append(b'== a node table too short, an entry table too long\n')
for a,b in ((3071,8192),(3072,8193)):
    out.append(b'refused=7\nwords=%d,%d\n'%(hsum([7]*a),hsum([7]*b)))
cases={}
def case(n,b):
    assert n not in cases; cases[n]=b
two=listing(300,[20,4294967294],[7,0])
big=[4294967294-509+i for i in range(510)]
longest=listing(BIG,big,[BIG]*510); assert len(longest)==16357
case('empty-listing',listing(0,[],[]))
case('one-key',listing(1,[20],[7]))
case('two-keys',two)
case('five-keys',listing(9,[1,10,20,30,4294967294],[5,0,4294967295,10,1]))
case('longest',longest)
more=[b-1 for b in big[:1]]+big
case('511-keys',listing(1,more,[0]*511))
case('511th-not-rising',longest.replace(b'count=510\n',b'key=4294967294\nvalue=1\ncount=511\n'))
case('511th-out-of-bounds',longest.replace(b'count=510\n',b'key=4294967295\nvalue=1\ncount=511\n'))
low=list(range(1,511))
full=listing(5,low,[0]*510)
case('511th-no-value',full.replace(b'count=510\n',b'key=4000\n'))
case('511th-unended',full.replace(b'count=510\n',b'key=4000'))
case('511th-leading-zero',full.replace(b'count=510\n',b'key=04000\nvalue=1\n'))
case('nothing',b'')
lines=two.split(b'\n')[:-1]
names=['edition','stamp','key','value','second-key','second-value','count']
for i,nm in enumerate(names):
    head=b''.join(l+b'\n' for l in lines[:i]); tail=b''.join(l+b'\n' for l in lines[i+1:])
    case(nm+'-unended',head+lines[i])
    case(nm+'-cut',head+lines[i][:3])
    case(nm+'-missing',head+tail)
    if i: case(nm+'-not-begun',head)
    name,value=lines[i].split(b'=')
    def put(tag,l): case(nm+'-'+tag,head+l+b'\n'+tail)
    put('leading-zero',name+b'=0'+value)
    put('no-number',name+b'=')
    put('too-large',name+b'=4294967296')
    put('eleven-digits',name+b'=12345678901')
    put('other-byte',name+b'='+value+b'x')
    put('return-byte',name+b'='+value+b'\r')
    put('space',name+b'= '+value)
    put('sign',name+b'=+'+value)
    put('other-name',b'x'+name+b'='+value)
    put('no-equals',name+value)
    put('twice',lines[i]+b'\n'+lines[i])
    put('high-byte',name+b'='+value+b'\xff')
case('edition-2',two.replace(b'edition=1',b'edition=2'))
case('stamp-largest',two.replace(b'stamp=300',b'stamp=4294967295'))
case('key-zero',listing(0,[0],[1]))
case('key-tail',listing(0,[BIG],[1]))
case('key-repeated',listing(0,[5,5],[1,2]))
case('key-falling',listing(0,[5,4],[1,2]))
case('value-largest',listing(0,[5],[BIG]))
case('count-one-less',listing(0,[5,6],[1,2]).replace(b'count=2',b'count=1'))
case('count-one-more',listing(0,[5,6],[1,2]).replace(b'count=2',b'count=3'))
case('after-count-line',two+b'\n'); case('after-count-byte',two+b'x'); case('after-count-key',two+b'key=4294967294\n')
case('empty-line-first',b'\n'+two); case('empty-line-inside',two.replace(b'value=7\n',b'value=7\n\n'))
os.makedirs(D+'data',exist_ok=True)
for f in os.listdir(D+'data'): os.remove(D+'data/'+f)
for n in cases:
    s=cases[n]; open(D+'data/'+n,'wb').write(s)
    out.append(b'== '+n.encode()+b'\n')
    r=read(s)
    if r[0]=='whole':
        _,stamp,ks,vs=r
        l=listing(stamp,ks,vs)
        out.append(b'read=%d,%d\nwritten=%d\n'%(stamp,len(ks),len(l))+(b'same bytes\n' if l==s else b''))
        g=Reg()
        for k,v in zip(ks,vs): g.insert(k,v)
        out.append(b'loaded=%d,%d,%d\nwords=%d,%d\n'%(g.nu,g.eu,g.stamp,hsum(g.n),hsum(g.e)))
    else:
        a=b'refused=9,%d\n'%r[1] if r[0]=='bad' else b'refused=10\n'
        out.append(a+a+b'words=%d,%d\n'%(hsum([7]*3072),hsum([7]*8192)))
open(D+'stdout','wb').write(b''.join(out))
open(D+'args','w').write('\n'.join(cases)+'\n')
print(len(cases),'cases',sum(map(len,cases.values())),'bytes')
