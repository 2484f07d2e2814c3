# What crates/recoveries must write, worked out from the rules that docs/TRACE.md quotes, with a build and a
# recovery of its own.
# From the top folder: python3 hosts/expected/recoveries.py | cmp - crates/recoveries/stdout
import functools, itertools, sys
TRI=lambda r: 3 if r[3]==0 else 4
def columns(rows): return max(map(TRI,rows),default=3)   # the sides of the widest element
def sides(rows):
    out=[]
    for f,r in enumerate(rows,1):
        c=TRI(r)
        for i in range(1,c+1):
            out.append((8*f+i, r[i-1], r[i%c]))
    return out
def fit(n,rows):
    for r in rows:
        if any(x==0 for x in r[:3]) or any(x>n for x in r): return False
        nz=[x for x in r if x]
        if len(set(nz))!=len(nz): return False
    return True
def well(r,q):
    """whether two rows share no corner, one, or exactly two that are a side of both"""
    s={x for x in r if x} & {x for x in q if x}
    return len(s)<2 or len(s)==2 and all(any({a,b}==s for _,a,b in sides([t])) for t in (r,q))
def nxt(rows,code):
    f,i=divmod(code,8); c=TRI(rows[f-1]); return 8*f+(i%c)+1
def tables(n,rows):
    """(V2e,E2e,B2e) when accepted, else None; straight from the rules."""
    return paired(n,rows) if all(well(r,q) for r,q in itertools.combinations(rows,2)) else None
def paired(n,rows):
    """the same, however elements meet: what pairing and turn orders give"""
    if not fit(n,rows): return None
    S=sides(rows)
    bypair={}
    for c,a,b in S: bypair.setdefault(frozenset((a,b)),[]).append((c,a,b))
    partner={}
    for g in bypair.values():
        if len(g)>2: return None
        if len(g)==2:
            if g[0][1]==g[1][1]: return None
            partner[g[0][0]]=g[1][0]; partner[g[1][0]]=g[0][0]
        else: partner[g[0][0]]=None
    turn={c:(None if partner[c] is None else nxt(rows,partner[c])) for c,_,_ in S}
    turned=set(t for t in turn.values() if t)
    for v in range(1,n+1):
        own=[c for c,a,b in S if a==v]
        ok=not own   # an empty turn order counts
        for start in own:
            l=[start]
            while True:
                t=turn[l[-1]]
                if t is None or t in l: break
                l.append(t)
            if sorted(l)!=sorted(own): continue
            if turn[l[-1]]==l[0] or (turn[l[-1]] is None and l[0] not in turned): ok=True; break
        if not ok: return None
    border=sorted(c for c in partner if partner[c] is None)
    num={c:b for b,c in enumerate(border,1)}
    E=[]
    for f,r in enumerate(rows,1):
        for i in range(1,columns(rows)+1):
            c=8*f+i
            E.append(0 if c not in partner else (8*num[c] if partner[c] is None else partner[c]))
    V=[]
    for v in range(1,n+1):
        e=[c for c,a,b in S if b==v and partner[c] is None]
        V.append(8*num[e[0]] if e else min((c for c,a,b in S if a==v),default=0))
    return V,E,border
@functools.cache
def rowsof(n,corners): return [r+(0,)*(4-corners) for r in itertools.permutations(range(1,n+1),corners)]
def every(n,m):
    """all accepted lists of m rows on n vertices, by tables"""
    R=rowsof(n,3)+rowsof(n,4); D={}
    def go(rows,dirs):
        if len(rows)==m:
            t=tables(n,rows)
            if t: D.setdefault((tuple(t[0]),tuple(t[1])),[]).append(list(rows))
            return
        for r in R:
            c=TRI(r); d={(r[i],r[(i+1)%c]) for i in range(c)}
            if d&dirs: continue
            go(rows+[r],dirs|d)
    go([],set())
    return D
def search(n,m,V,E):
    """every accepted list of m rows on n vertices with these tables: rows tried one by one, dropped as soon as a rule of
    the tables is broken"""
    cols=len(E)//m if m else 3
    assert len(V)==n and len(E)==cols*m and cols in (3,4)
    found=[]
    bnum={}
    for j,x in enumerate(E):
        if x and x%8==0: bnum.setdefault(x,[]).append(8*(j//cols+1)+j%cols+1)
    if any(len(l)>1 for l in bnum.values()): return []   # border numbers are all different
    pin={}
    for v,x in enumerate(V,1):
        if x==0: continue   # no element has v, as `tables` sees in the end
        if x%8==0:
            if x not in bnum: return []
            pin.setdefault(bnum[x][0],[]).append(('d',v))
        else: pin.setdefault(x,[]).append(('o',v))
    def ok(rows):
        f=len(rows); r=rows[-1]; c=TRI(r)
        for i in range(1,5):
            x=8*f+i
            if i<=c:
                for k,v in pin.get(x,[]):
                    if k=='o' and r[i-1]!=v: return False
                    if k=='d' and r[i%c]!=v: return False
                y=E[cols*(f-1)+i-1]
                if y==0: return False
                if y%8:
                    g,j=divmod(y,8)
                    if g<1 or g>m or j>4: return False
                    if g<=f:
                        q=rows[g-1]; cq=TRI(q)
                        if j>cq or q[j-1]!=r[i%c] or q[j%cq]!=r[i-1]: return False
            elif x in pin: return False
        return True
    def go(rows):
        if len(rows)==m:
            t=tables(n,rows)
            if t and t[0]==list(V) and t[1]==list(E): found.append(list(rows))
            return
        for r in rowsof(n,3 if cols==3 or E[4*len(rows)+3]==0 else 4):
            rows.append(r)
            if ok(rows): go(rows)
            rows.pop()
    go([])
    return found
def parse(s): return [tuple(int(c,13) for c in w) for w in s.split()]   # a, b and c are vertices 10, 11 and 12
def change(T,n,p,kind):
    q=p+1
    if q==n: q=0
    elif q==len(T): q=n
    T=list(T); x,y=T[p],T[q]
    if kind=='+': T[p]=x+1
    elif kind=='0': T[p]=0
    elif kind=='N': T[p]=y
    else: T[p],T[q]=y,x
    return T
CASES=[("listing",4,"1230 1340"),("sample surface mesh",9,"1450 1520 2530 3560 6590 8950 7850 5470"),
 ("tetrahedron",4,"1230 1420 2430 3410"),("quadrilaterals and triangles",9,"1254 2365 4587 5690 5980"),
 ("pyramid",5,"1432 1250 2350 3450 4150"),
 ("listing and a vertex",5,"1230 1340"),("vertex and tetrahedron",5,"2340 2530 3540 4520"),("vertices only",3,""),
 ("quadrilateral",4,"1234"),("quadrilateral last",6,"1230 2430 3456"),
 ("four triangles apart",12,"3120 6450 9780 cab0"),("three quadrilaterals apart",12,"4123 8567 c9ab")]
# no two elements that meet otherwise than at one corner or one edge are in an accepted list
CLASHES=[("back to back",3,"1230 1320"),("three corners in common",4,"1234 3210"),
 ("a diagonal in common",6,"1234 1536 1450 3540")]
full={}
def sols(n,m,V,E):
    s=search(n,m,V,E)
    if (n,m) in FULL:
        if (n,m) not in full: full[n,m]=every(n,m)
        s2=full[n,m].get((tuple(V),tuple(E)),[])
        assert s==s2,(V,E,s,s2)
    assert len(s)<=1
    return s
FULL={(4,1),(4,2),(3,2),(5,2),(3,0)} | ({(4,4)} if len(sys.argv)>1 else set())
out=[]
def shown(s): return [",".join(["L"]+[str(x) for r in s[0] for x in r])] if s else ["R,10,0,0"]
def each_changed(n,m,V,E):
    for k in "+0NS":
        a=b=0
        for p in range(len(V)+len(E)):
            T=change(V+E,n,p,k)
            if sols(n,m,T[:n],T[n:]): b+=1
            else: a+=1
        out.append(f"{k},{a},{b},0")
for name,n,s in CASES:
    rows=parse(s); m=len(rows); V,E,B=tables(n,rows)
    out.append(name); r=sols(n,m,V,E); assert r==[rows]; out+=shown(r)+["clean"]
    each_changed(n,m,V,E)
assert tables(12,parse(CASES[-1][2]))[:2]==tables(12,parse(CASES[-2][2]))[:2]   # of the lists apart
for name,n,s in CLASHES:
    rows=parse(s); m=len(rows); V,E,B=paired(n,rows)
    out.append(name); r=sols(n,m,V,E); assert r==[] and tables(n,rows) is None; out+=shown(r)+["clean"]
    each_changed(n,m,V,E)
V,E,B=tables(4,parse("1230 1340"))
for name,W in (("V2e swapped",[8,32,16,24]),("V2e twice alike",[32,8,16,16])):
    out.append(name); out+=shown(sols(4,2,W,E))+["clean"]
for name,W in (("0 for a vertex with sides",[0,8,16,24]),
               ("a side for a vertex that gets none",[32,8,16,24,9]),("a border for a vertex that gets none",[32,8,16,24,32])):
    out.append(name); out+=shown(sols(len(W),2,W,E))+["clean"]
def recut(E,c,d): return [x for j in range(0,len(E),c) for x in (E[j:j+c]+[0])[:d]]   # from c columns to d
for name,n,s,d in (("listing in four columns",4,"1230 1340",4),("listing and a vertex in four columns",5,"1230 1340",4),
                   ("quadrilateral in three columns",4,"1234",3),("quadrilateral last in three columns",6,"1230 2430 3456",3),
                   ("quadrilaterals and triangles in three columns",9,"1254 2365 4587 5690 5980",3)):
    rows=parse(s); V,E,B=tables(n,rows); assert columns(rows)==7-d
    out.append(name); out+=shown(sols(n,len(rows),V,recut(E,7-d,d)))+["clean"]
# checks 1 and 2; where they find nothing, the tables are the first entries of the listing's
LV=[32,8,16,24]; LE=[8,16,17,11,24,32]
def cut(name,n,m,v,e,l,w):
    out.append(name)
    if n>1000000 or m>1000000 or l%4: out.append("R,1,0,0")
    elif v!=n or e not in (3*m,4*m) or l!=4*m or w<n+16*m: out.append("R,2,0,0")
    else: out.extend(shown(sols(n,m,LV[:v],LE[:e])))
    out.append("clean")
cut("n over its maximum",1000001,2,4,6,8,36)
cut("n at its maximum",1000000,2,4,6,8,36)
cut("m over its maximum",4,1000001,4,6,8,36)
cut("m at its maximum",4,1000000,4,6,8,36)
cut("m the largest number",4,4294967295,4,6,8,36)
cut("m 1 less",4,1,4,6,8,36)
cut("m 1 more",4,3,4,6,8,60)
cut("m 0 for an element",3,0,3,3,4,19)
cut("m 1 less, which E2e fits",12,3,12,12,16,76)
cut("m 1 more, which E2e fits",12,4,12,12,12,76)
cut("E2e neither in threes nor in fours",4,2,4,7,8,36)
cut("list not in fours",4,2,4,6,9,36)
cut("both not in fours",4,2,4,7,7,36)
cut("V2e short",4,2,3,6,8,36)
cut("V2e long",4,2,5,6,8,36)
cut("E2e short",4,2,4,3,8,36)
cut("E2e of 4m + 1 entries",4,2,4,9,8,36)
cut("E2e long",4,2,4,12,8,52)
cut("no list",4,2,4,6,0,36)
cut("list short",4,2,4,6,4,36)
cut("list long",4,2,4,6,12,60)
cut("work short",4,2,4,6,8,35)
cut("work exact",4,2,4,6,8,36)
cut("work long",4,2,4,6,8,60)
cut("1 and 2",4,2,3,7,9,0)
cut("empty",0,0,0,0,0,0)
cut("vertex with a border and no element",1,0,1,0,0,1)
print("\n".join(out))
