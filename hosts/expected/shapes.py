# What crates/shape_cases must write, worked out from the rules that docs/TRACE.md quotes: the pairs of vertices that a side
# joins are gathered in a set. Of the crate only its cases are read.
# From the top folder: python3 hosts/expected/shapes.py crates/shape_cases/stdin | cmp - crates/shape_cases/stdout
import sys
sys.dont_write_bytecode=True
from edits import MOST,edges,held,print_cases,refusal
def answer(n,work,entries):
    # a refusal, or the line after an answer: the number's two halves, in two's complement in 56 bits
    m=len(entries)//4
    rows=held(entries,m)
    # what the program can take
    assert work<=500
    if n>MOST or m>MOST or len(entries)%4: return 1,0,0
    if work<n+16*m: return 2,0,0
    return refusal(n,rows) or [("N",divmod((n-edges(rows)+m)%2**56,2**28))]
# a case is a label; n; the length of the work; and the entries of the list
print_cases(sys.argv[1],answer,2,())
