# What crates/sibling_cases must write, worked out from the rules that docs/TRACE.md quotes; of the crate only its cases are read.
# From the top folder: python3 hosts/expected/siblings.py crates/sibling_cases/stdin | cmp - crates/sibling_cases/stdout
import sys
MOST=1000000
def sides(rows):
    # code, origin and destination of each side, in order of code
    for f,row in enumerate(rows,1):
        corners=row if row[3] else row[:3]
        for i,v in enumerate(corners,1): yield 8*f+i,v,corners[i%len(corners)]
def places(rows):
    for f,row in enumerate(rows,1):
        for i,v in enumerate(row,1): yield f,i,v,row[:i-1]
def refusal(n,v2e,siblings,work,entries,rows):
    # number and place; None: there is an answer
    m=len(entries)//4
    if n>MOST or m>MOST or len(entries)%4: return 1,0,0
    if v2e!=n or siblings!=4*m or work<n+16*m: return 2,0,0
    for f,i,v,_ in places(rows):
        if v>n or v==0 and i<4: return 3,f,i
    for f,i,v,before in places(rows):
        if v and v in before: return 4,f,i
def least_side(rows,v): return min((c for c,a,_ in sides(rows) if a==v),default=0)
def sibling(rows,code):
    # the next higher side of the same two vertices, or the first; 0 where there is no such side
    ends={c:{a,b} for c,a,b in sides(rows)}
    if code not in ends: return 0
    same=[c for c in ends if ends[c]==ends[code]]
    return min([c for c in same if c>code] or same)

def line(letter,numbers): print(*[letter]+list(numbers),sep=",")
# a case is a label; n; the lengths of V2e, the siblings and the work; the rows
for text in open(sys.argv[1]):
    if ";" not in text: continue
    label,rest=text.rstrip("\n").split(";",1)
    n,v2e,siblings,work,*entries=[int(x) for x in rest.replace(";"," ").replace(","," ").split()]
    # what the program can take
    assert len(entries)<=123 and v2e<=12 and siblings<=40 and work<=200,label
    rows=[entries[p:p+4] for p in range(0,len(entries)-len(entries)%4,4)]
    print(label)
    refused=refusal(n,v2e,siblings,work,entries,rows)
    if refused: line("R",refused)
    else:
        line("V",[least_side(rows,v) for v in range(1,n+1)])
        for f in range(1,len(rows)+1): line("S",[sibling(rows,8*f+i) for i in range(1,5)])
    print("clean")
