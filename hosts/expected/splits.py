# What crates/split_cases must write, worked out from the rules that docs/TRACE.md quotes: every pair of sides and every
# pair of elements is looked at. Of the crate only its cases are read.
# From the top folder: python3 hosts/expected/splits.py crates/split_cases/stdin | cmp - crates/split_cases/stdout
import sys
sys.dont_write_bytecode=True
from edits import MOST,POINTS,bits,edge,held,holds,print_cases,refusal,written
def midpoint(a,b): return [(x+y)*0.5 for x,y in zip(POINTS[a-1],POINTS[b-1])]
def with_for(row,corner,v): return [v if x==corner else x for x in row]
def split(n,rows,code):
    # the two ends and the new rows, or 11 or 15
    found=edge(rows,code)
    if isinstance(found,int): return found
    a,b,beside=found
    halves=list(zip(beside,[(a,b),(b,a)]))
    new={f:with_for(rows[f-1],to,n+1) for f,(_,to) in halves}
    appended=[with_for(rows[f-1],start,n+1) for f,(start,_) in halves]
    return a,b,[new.get(f,row) for f,row in enumerate(rows,1)]+appended
def answer(n,m,code,v,e,b,work,points,entries):
    # a refusal, or the lines after an answer
    rows=held(entries,m)
    def has_room(n,m): return holds(entries,rows,v,e,work,n,m) and points>=3*n
    if n>MOST or m>MOST: return 1,0,0
    if not has_room(n,m): return 2,0,0
    if refusal(n,rows): return refusal(n,rows)
    found=split(n,rows,code)
    if isinstance(found,int): return found,0,0
    a,b_end,new=found
    if n+1>MOST or len(new)>MOST or not has_room(n+1,len(new)): return 19,0,0
    assert not refusal(n+1,new),"the new list is accepted"
    lines=written(n+1,new,(n,rows),entries,v,e,b)
    if isinstance(lines,tuple): return lines
    return lines[:1]+[("S",[n+1,len(new)])]+lines[1:]+[("P",bits(midpoint(a,b_end)))]
# a case is a label; n; m; the code; the lengths of V2e, E2e, B2e, work and points; and the entries of the list
print_cases(sys.argv[1],answer,8,(40,60,40,240,45))
