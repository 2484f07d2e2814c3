# What swaps.py, splits.py, contracts.py and shapes.py share: the rules that docs/TRACE.md quotes of a list, by looking at
# every pair of sides and every pair of elements.
import struct,sys
MOST=1000000
FILL=4294967295   # what the three tables hold before
# three numbers for each vertex
POINTS=[(1.0,-2.0,0.1),(4.0,8.5,0.2),(-3.0,2.0**52,0.3),(7.0,2.0**52-1,1e16),
        (sys.float_info.max,1.0,3.0),(sys.float_info.max,2.0**53,5e-324),
        (-0.0,5e-324,5e-324),(0.0,15e-324,-5e-324),(-0.0,-0.0,sys.float_info.min),
        (2.5,-1e300,1e-300),(6.0,1e300,-1e-300)]+[(v,v+1.0,v+2.0) for v in (11.0,14.0,17.0,20.0)]
def bits(numbers): return [half for x in numbers for half in struct.unpack(">II",struct.pack(">d",x))]
def corners(row): return row if row[3] else row[:3]
def columns(rows): return max([len(corners(row)) for row in rows],default=3)
def sides(rows):
    # the origin and destination of each side, by its code, in order of code
    def ends(around,i): return around[i-1],around[i%len(around)]
    return {8*f+i:ends(corners(row),i) for f,row in enumerate(rows,1) for i in range(1,len(corners(row))+1)}
def refusal(n,rows):
    # what build says of the list but for 9; None: it is accepted
    for f,row in enumerate(rows,1):
        for i,v in enumerate(row,1):
            if v>n or v==0 and i<4: return 3,f,i
    for f,row in enumerate(rows,1):
        for i,v in enumerate(row,1):
            if v and v in row[:i-1]: return 4,f,i
    joins=sides(rows)
    same={c:[d for d in joins if set(joins[d])==set(joins[c])] for c in joins}
    for c in joins:
        if len(same[c])>2: return 6,*divmod(c,8)
    for c in joins:
        if any(d!=c and joins[d]==joins[c] for d in same[c]): return 7,*divmod(c,8)
    for v in range(1,n+1):
        if not is_fan(v,rows): return 8,v,0
    for f in range(1,len(rows)+1):
        for g in range(f+1,len(rows)+1):
            if not meet_well(corners(rows[f-1]),corners(rows[g-1])): return 18,f,g
def neighbours(v,row):
    around=corners(row)
    i=around.index(v)
    return {around[i-1],around[(i+1)%len(around)]}
def is_fan(v,rows):
    # of the elements at v, all hang together by edges at v
    apart=[neighbours(v,row) for row in rows if v in corners(row)]
    joined=apart.pop() if apart else set()
    while apart:
        near=[ends for ends in apart if ends&joined]
        if not near: return False
        joined|=near[0]
        apart.remove(near[0])
    return True
def meet_well(a,b):
    shared=set(a)&set(b)
    def on_side(around): return shared in [{around[i-1],around[i]} for i in range(len(around))]
    return len(shared)<2 or len(shared)==2 and on_side(a) and on_side(b)
def border_sides(rows):
    joins=sides(rows)
    return [c for c,(a,b) in joins.items() if (b,a) not in joins.values()]
def tables(n,rows):
    joins,border=sides(rows),border_sides(rows)
    reverse={ends:c for c,ends in joins.items()}
    def entry(c): return 8*(border.index(c)+1) if c in border else reverse[joins[c][::-1]]
    def of_vertex(v):
        # the border half-edge that leaves v is opposite the border side that ends there
        leaving=[8*b for b,c in enumerate(border,1) if joins[c][1]==v]
        return min(leaving or [c for c in joins if joins[c][0]==v],default=0)
    e2e=[entry(8*f+i) if 8*f+i in joins else 0 for f in range(1,len(rows)+1) for i in range(1,columns(rows)+1)]
    return [of_vertex(v) for v in range(1,n+1)],e2e,border
def edges(rows): return len({frozenset(ends) for ends in sides(rows).values()})
def edge(rows,code):
    # the ends of the side with this code, and the elements on its edge, its own first; or 11 or 15
    joins=sides(rows)
    if code%8==0 and 1<=code//8<=len(border_sides(rows)): return 15
    if code not in joins: return 11
    a,b=joins[code]
    beside=[code//8]+[c//8 for c in joins if joins[c]==(b,a)]
    return 15 if any(rows[f-1][3] for f in beside) else (a,b,beside)
def holds(entries,rows,v,e,work,n,m):
    # whether buffers of these lengths have room for n vertices and m elements, in the columns of these rows
    return len(entries)>=4*m and v>=n and e>=columns(rows)*m and work>=n+16*m
def held(entries,m): return [entries[p:p+4] for p in range(0,min(4*m,len(entries)//4*4),4)]
def over(new,held,buffer):
    # the buffer with the new entries in the place of so many held before: 0 where there are fewer now
    put=new+[0]*(held-len(new))
    return put+buffer[len(put):]
def written(n,rows,was,entries,v,e,b):
    # the lines after an answer, in buffers of these lengths that held a list of `was`, n and rows; or 9
    v2e,e2e,b2e=tables(n,rows)
    if b<len(b2e): return 9,len(b2e),0
    return [("N",[len(b2e),edges(rows)]),("L",over(sum(rows,[]),4*len(was[1]),entries)),
            ("V",over(v2e,was[0],[FILL]*v)),("E",over(e2e,columns(was[1])*len(was[1]),[FILL]*e)),
            ("B",over(b2e,0,[FILL]*b))]
def line(letter,numbers): print(*[letter]+list(numbers),sep=",")
def print_cases(path,answer,head,most):
    # A case is a label and numbers, each after one byte; the first `head` of them, of which those from the fourth on are
    # lengths, each at most what the program has room for, and then the entries of the list. An answer is a refusal, or
    # the lines after one.
    text=open(path).read()
    assert len(text)<=8192
    for case in text.splitlines():
        if ";" not in case: continue
        label,rest=case.split(";",1)
        numbers=[int(x) for x in rest.replace(";"," ").replace(","," ").split()]
        assert len(numbers)<=127 and all(a<=b for a,b in zip(numbers[3:head],most)),label
        assert len(rest.replace(",",";").replace(" ",";").split(";"))==len(numbers),label
        print(label)
        found=answer(*numbers[:head],numbers[head:])
        if isinstance(found,tuple): line("R",found)
        else:
            for letter,entries in found: line(letter,entries)
        print("clean")
