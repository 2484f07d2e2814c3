# What crates/queries must write, worked out from the rules that docs/TRACE.md quotes, with a build and queries of its own; of
# the crate only its cases are read.
# From the top folder: python3 hosts/expected/queries.py crates/queries/stdin | cmp - crates/queries/stdout
import sys
BIG=4294967295
class R(Exception): pass   # refusal
def ref(k,a=0,b=0): raise R(k,a,b)

def columns(rows): return 4 if any(r[3] for r in rows) else 3
def rowsof(L): return [L[i:i+4] for i in range(0,len(L),4)]
def corners(r): return r[:3] if r[3]==0 else r[:]
def well(r,q):
    # whether two rows share no corner, one, or exactly two that are a side of both
    s=set(corners(r))&set(corners(q))
    joins=lambda cs: any({cs[i-1],cs[i]}==s for i in range(len(cs)))
    return len(s)<2 or len(s)==2 and joins(corners(r)) and joins(corners(q))
def build(n,rows):
    # accepted lists only
    m=len(rows)
    assert all(well(r,q) for i,r in enumerate(rows) for q in rows[:i])
    sides={}
    order=[]
    for f,r in enumerate(rows,1):
        cs=corners(r)
        for i in range(len(cs)):
            c=8*f+i+1
            sides[c]=(cs[i],cs[(i+1)%len(cs)])
            order.append(c)
    partner={}
    for c in order:
        o=[d for d in order if d!=c and set(sides[d])==set(sides[c])]
        assert len(o)<=1
        if o:
            assert sides[o[0]]==sides[c][::-1]
            partner[c]=o[0]
    B=[c for c in order if c not in partner]
    bn={c:i+1 for i,c in enumerate(B)}
    E=[]
    for f,r in enumerate(rows,1):
        for i in range(1,columns(rows)+1):
            c=8*f+i
            if c not in sides: E.append(0)
            elif c in partner: E.append(partner[c])
            else: E.append(8*bn[c])
    V=[]
    for v in range(1,n+1):
        ends=[c for c in B if sides[c][1]==v]
        if ends:
            assert len(ends)==1
            V.append(8*bn[ends[0]])
        else: V.append(min((c for c in order if sides[c][0]==v),default=0))   # 0: no element has v
    return V,E,B,(len(order)+len(B))//2

class M:
    def __init__(s,n,told,L,V,E,B): s.n,s.told,s.L,s.V,s.E,s.B=n,told,L,V,E,B
    def check(s):
        if s.n>1000000 or len(s.L)//4>1000000 or len(s.L)%4: ref(1)
        m=len(s.L)//4
        if s.told not in (0,3,4): ref(2)
        c=s.told or columns(rowsof(s.L))
        if len(s.V)!=s.n or len(s.E)!=c*m or len(s.B)>4*m: ref(2)
        s.m,s.c=m,c
    def row(s,f): return s.L[4*(f-1):4*f]
    def corners(s,f):
        r=s.row(f)
        return r[:3] if r[3]==0 else r
    def isside(s,c):
        f,i=divmod(c,8)
        if not 1<=f<=s.m: return False
        return 1<=i<=len(s.corners(f))
    def isborder(s,c): return c%8==0 and 1<=c//8<=len(s.B)
    def ishalf(s,c): return s.isside(c) or s.isborder(c)
    def rE(s,c):
        f,i=divmod(c,8)
        if i>s.c: ref(12)   # a fourth side, told three columns
        x=s.E[s.c*(f-1)+i-1]
        if not s.ishalf(x): ref(12)
        return x
    def rB(s,c):
        x=s.B[c//8-1]
        if not s.isside(x): ref(12)
        return x
    def rV(s,v):
        x=s.V[v-1]
        if x and not s.ishalf(x): ref(12)
        return x
    def vert(s,x):
        if not 1<=x<=s.n: ref(12)
        return x
    def org(s,c):
        f,i=divmod(c,8); return s.vert(s.corners(f)[i-1])
    def dst(s,c):
        f,i=divmod(c,8); cs=s.corners(f); return s.vert(cs[i%len(cs)])
    def nx(s,c):
        f,i=divmod(c,8); k=len(s.corners(f)); return 8*f+(i+1 if i<k else 1)
    def pv(s,c):
        f,i=divmod(c,8); k=len(s.corners(f)); return 8*f+(i-1 if i>1 else k)
    # queries
    def O(s,c):
        s.check()
        if s.isside(c): return s.rE(c)
        if s.isborder(c): return s.rB(c)
        ref(11)
    def bnext(s,c):
        side=s.rB(c); v=s.org(side); x=s.V[v-1]
        if not s.isborder(x): ref(12)
        return x
    def X(s,c):
        s.check()
        if s.isside(c): return s.nx(c)
        if s.isborder(c): return s.bnext(c)
        ref(11)
    def P(s,c):
        s.check()
        if s.isside(c): return s.pv(c)
        ref(11)
    def El(s,c):
        s.check()
        if s.isside(c): return c//8
        ref(11)
    def F(s,c):
        s.check()
        if s.isside(c): return s.org(c)
        if s.isborder(c): return s.dst(s.rB(c))
        ref(11)
    def T(s,c):
        s.check()
        if s.isside(c): return s.dst(c)
        if s.isborder(c): return s.org(s.rB(c))
        ref(11)
    def A(s,c):
        s.check()
        if not s.isside(c): ref(11)
        x=s.rE(c)
        return 0 if s.isborder(x) else x//8
    def H(s,c):
        s.check()
        if not s.ishalf(c): ref(11)
        return 1 if s.isborder(c) else 0
    def Vb(s,v):
        s.check()
        if not 1<=v<=s.n: ref(11)
        x=s.rV(v)
        if x==0: return 2
        return 1 if s.isborder(x) else 0
    def start(s,v):
        c=s.rV(v)
        if s.isborder(c): return s.nx(s.rB(c))
        return c
    def rsides(s,v):
        st=s.start(v); out=[]; c=st
        if st==0: return []
        while True:
            out.append(c)
            x=s.rE(c)
            if s.isborder(x): return out
            c=s.nx(x)
            if c==st: return out
            if len(out)==s.m: ref(12)
    def Rg(s,v):
        s.check()
        if not 1<=v<=s.n: ref(11)
        return [c//8 for c in s.rsides(v)]
    def N(s,v):
        s.check()
        if not 1<=v<=s.n: ref(11)
        us=[]
        c=s.rV(v)
        if s.isborder(c): us.append(s.org(s.rB(c)))
        return us+[s.dst(c) for c in s.rsides(v)]
    def Lp(s,b):
        s.check()
        if not 1<=b<=len(s.B): ref(11)
        out=[b]
        while True:
            x=s.bnext(8*out[-1])//8
            if x==b: return out
            if len(out)==len(s.B): ref(12)
            out.append(x)
    def wstart(s,w,v):
        s.check()
        if not 1<=v<=s.n: ref(11)
        st=s.start(v); w[:]=[st,st,0]; return 0
    def wstep(s,w):
        s.check()
        if w[1]==0: return 0
        if not s.isside(w[0]) or not s.isside(w[1]) or w[2]>=s.m: ref(12)
        x=s.rE(w[1]); e=w[1]//8
        if s.isborder(x) or s.nx(x)==w[0]: t=0
        else:
            t=s.nx(x)
            if w[2]+1>=s.m: ref(12)
        w[1]=t; w[2]+=1
        return e

out=[]
def line(l,xs): out.append(",".join([l]+[str(x) for x in xs]))
def coded(f,*a):
    try: return f(*a)
    except R as r:
        k,p,q=r.args
        assert (p,q)==(0,0)
        return 1000+k
def singles(M,codes):
    for l,f in (("O",M.O),("X",M.X),("P",M.P),("E",M.El),("F",M.F),("T",M.T),("A",M.A),("H",M.H),("V",M.Vb)):
        line(l,[coded(f,c) for c in range(codes)]); line(l,[coded(f,BIG)])
def lists(M,end,room):
    for l,f in (("R",M.Rg),("N",M.N),("L",M.Lp)):
        for x in range(end):
            o=[7]*room
            try:
                r=f(x)
                if len(r)>room: ref(13,len(r))
                o[:len(r)]=r; a=[0,len(r),0]
            except R as e: a=list(e.args)
            line(l,[x]+a); line('=',o)
def steps(M,w):
    xs=[]
    for _ in range(9):
        a=coded(M.wstep,w); line("S",[a]+w)
    return xs
def walks(M,end):
    for v in range(end):
        w=[7,7,7]; a=coded(M.wstart,w,v); line("W",[a]+w); steps(M,w)
def parts(entries,lengths):
    for k in lengths:
        yield entries[:k]; entries=entries[k:]
# a case is a label and numbers, as the program's first lines say
for text in open(sys.argv[1]):
    if ";" not in text: continue
    label,rest=text.rstrip("\n").split(";",1)
    numbers=[int(x) for x in rest.replace(";"," ").replace(","," ").split()]
    kind,a,b,c,codes,end,room,n,told=numbers[:9]; lengths=numbers[9:13]; entries=numbers[13:]
    out.append(label)
    if kind==1:
        V,E,B,ed=build(n,rowsof(entries))
        assert lengths==[len(entries),len(V),len(E),0],label
        line("K",[0,len(B),ed])
        t=[entries,V,E,B]
        if a: t[a-1][b]=c
    else:
        assert sum(lengths)==len(entries),label
        t=list(parts(entries,lengths))
    m=M(n,told,*t)
    if kind==3: steps(m,[a,b,c]); continue
    singles(m,codes); lists(m,end,room); walks(m,end)
sys.stdout.write("\n".join(out)+"\n")
