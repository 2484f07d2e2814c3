# What crates/hole_cases must write, worked out from the rules that docs/TRACE.md quotes: by the border loop of every
# border half-edge. Of the crate only its cases are read.
# From the top folder: python3 hosts/expected/holes.py crates/hole_cases/stdin | cmp - crates/hole_cases/stdout
import sys
MOST=1000000
FILL=4294967295   # what both outputs hold before
def corners(rows,f): return rows[f-1] if rows[f-1][3] else rows[f-1][:3]
def columns(rows): return 4 if any(r[3] for r in rows) else 3
def lengths_unfit(n,told,work,rows,v2e,e2e,b2e):
    m=len(rows)
    if told not in (0,3,4): return True
    return len(v2e)!=n or len(e2e)!=(told or columns(rows))*m or len(b2e)>4*m or work<n+16*m
def follows(n,rows,v2e,b2e,b):
    # next of border half-edge b, as a border number; None: an entry that is read names nothing
    f,i=divmod(b2e[b-1],8)
    if not 1<=f<=len(rows) or not 1<=i<=len(corners(rows,f)): return None
    v=corners(rows,f)[i-1]
    if not 1<=v<=n: return None
    c,i=divmod(v2e[v-1],8)
    return c if i==0 and 1<=c<=len(b2e) else None
def loop(n,rows,v2e,b2e,b):
    # None: 12
    listed=[b]
    while True:
        c=follows(n,rows,v2e,b2e,listed[-1])
        if c==b: return listed
        if c is None or len(listed)==len(b2e): return None
        listed.append(c)

def line(letter,numbers): print(*[letter]+list(numbers),sep=",")
def filled(numbers,length): return numbers+[FILL]*(length-len(numbers))
def parts(entries,lengths):
    for length in lengths:
        yield entries[:length]
        entries=entries[length:]
# a case is a label; n; the columns told; the lengths of hole, lengths and work; those of the list, V2e, E2e and B2e;
# and their entries
for text in open(sys.argv[1]):
    if ";" not in text: continue
    label,rest=text.rstrip("\n").split(";",1)
    numbers=[int(x) for x in rest.replace(";"," ").replace(","," ").split()]
    n,told,h,l,work=numbers[:5]
    entries,v2e,e2e,b2e=parts(numbers[9:],numbers[5:9])
    # what the program can take, each number after one byte
    assert len(numbers)<=127 and h<=20 and l<=20 and work<=200 and len(numbers)==9+sum(numbers[5:9]),label
    assert len(rest.replace(",",";").replace(" ",";").split(";"))==len(numbers),label
    rows=list(parts(entries,[4]*(len(entries)//4)))
    k=len(b2e)
    print(label)
    if n>MOST or len(entries)//4>MOST or len(entries)%4: line("R",(1,0,0))
    elif lengths_unfit(n,told,work,rows,v2e,e2e,b2e): line("R",(2,0,0))
    else:
        loops=[loop(n,rows,v2e,b2e,b) for b in range(1,k+1)]
        if None in loops: line("R",(12,0,0))
        elif h<k or l<k: line("R",(13,k,0))
        else:
            # a hole is known by the least of its loop
            least=sorted({min(each) for each in loops})
            hole=[least.index(min(each))+1 for each in loops]
            line("N",[len(least)])
            line("H",filled(hole,h))
            line("L",filled([hole.count(x+1) for x in range(len(least))],l))
    print("clean")
