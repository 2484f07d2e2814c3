# What crates/contract_cases must write, worked out from the rules that docs/TRACE.md quotes: every pair of sides and
# every pair of elements is looked at, neighbours are sets, and rows are known by the numbers of their elements. Of the
# crate only its cases are read. From the top folder:
# python3 hosts/expected/contracts.py crates/contract_cases/stdin | cmp - crates/contract_cases/stdout
import sys
sys.dont_write_bytecode=True
from edits import MOST,POINTS,bits,corners,edge,held,holds,print_cases,refusal,sides,written
def neighbours(v,rows): return {x for ends in sides(rows).values() if v in ends for x in ends}-{v}
def used(rows): return {v for row in rows for v in corners(row)}
def staying(count,going):
    # the element in each row once these have gone: the last takes the freed number, unless it is the one that goes
    stands=list(range(1,count+1))
    for f in sorted(going,reverse=True):
        last=stands.pop()
        if f<=len(stands): stands[f-1]=last
    return stands
def with_for(rows,old,new): return [[new if x==old else x for x in row] for row in rows]
def contract(n,rows,code):
    # the vertex that goes and the new rows, or 11, 15, 20 or 21
    found=edge(rows,code)
    if isinstance(found,int): return found
    a,b,beside=found
    if neighbours(a,rows)&neighbours(b,rows)-used([rows[f-1] for f in beside]): return 20
    merged=with_for([rows[f-1] for f in staying(len(rows),beside)],b,a)
    if used(rows)-used(merged)-{b}: return 21
    return b,with_for(merged,n,b)
def points_after(n,b,count):
    # so many numbers, once the last vertex has number b
    points=list(POINTS)
    points[b-1]=points[n-1]
    points[n-1]=(0.0,0.0,0.0)
    return sum(map(list,points),[])[:count]
def answer(n,m,code,v,e,b,work,points,entries):
    # a refusal, or the lines after an answer
    rows=held(entries,m)
    if n>MOST or m>MOST: return 1,0,0
    if not holds(entries,rows,v,e,work,n,m) or points<3*n: return 2,0,0
    if refusal(n,rows): return refusal(n,rows)
    found=contract(n,rows,code)
    if isinstance(found,int): return found,0,0
    gone,new=found
    said=refusal(n-1,new)
    assert not said or said[0] in (8,18),"of the new list only these can be said"
    lines=said or written(n-1,new,(n,rows),entries,v,e,b)
    if isinstance(lines,tuple): return lines
    return lines[:1]+[("S",[n-1,len(new)])]+lines[1:]+[("P",bits(points_after(n,gone,points)))]
# a case is a label; n; m; the code; the lengths of V2e, E2e, B2e, work and points; and the entries of the list
print_cases(sys.argv[1],answer,8,(40,60,40,240,44))
