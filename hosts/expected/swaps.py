# What crates/swap_cases must write, worked out from the rules that docs/TRACE.md quotes: every pair of sides and every
# pair of elements is looked at. Of the crate only its cases are read.
# From the top folder: python3 hosts/expected/swaps.py crates/swap_cases/stdin | cmp - crates/swap_cases/stdout
import sys
sys.dont_write_bytecode=True
from edits import MOST,edge,held,holds,print_cases,refusal,written
def swapped(rows,code):
    # the new rows, or 11 or 15
    found=edge(rows,code)
    if isinstance(found,int): return found
    a,b,beside=found
    if len(beside)<2: return 15
    c,d=[(set(rows[e-1])-{a,b,0}).pop() for e in beside]
    new=dict(zip(beside,([c,a,d,0],[d,b,c,0])))
    return [new.get(e,row) for e,row in enumerate(rows,1)]
def answer(n,m,code,v,e,b,work,entries):
    # a refusal, or the lines after an answer
    rows=held(entries,m)
    if n>MOST or m>MOST: return 1,0,0
    if not holds(entries,rows,v,e,work,n,m): return 2,0,0
    if refusal(n,rows): return refusal(n,rows)
    new=swapped(rows,code)
    if isinstance(new,int): return new,0,0
    return refusal(n,new) or written(n,new,(n,rows),entries,v,e,b)
# a case is a label; n; m; the code; the lengths of V2e, E2e, B2e and work; and the entries of the list
print_cases(sys.argv[1],answer,7,(40,60,40,200))
