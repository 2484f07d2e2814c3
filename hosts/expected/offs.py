# What crates/off_cases must write, worked out from the rules that docs/TRACE.md quotes: comments are blanked, items are
# taken out of what is left, and each is held to the form that is due. Of the crate only its cases are read.
# From the top folder: python3 hosts/expected/offs.py crates/off_cases/stdin | cmp - crates/off_cases/stdout
import re,sys
sys.dont_write_bytecode=True
from edits import line
WHOLE,DECIMAL=rb"[0-9]{1,7}",rb"[+-]?[0-9]+(\.[0-9]+)?"
class Bad(Exception): pass
def faces(text):
    # the vertex count and each face's corners, counted from 1; or Bad, with the line
    blanked=re.sub(rb"#[^\n]*",lambda comment: b" "*len(comment[0]),text)
    found=[(item[0],item.start()) for item in re.finditer(rb"[^ \t\r\n]+",blanked)]
    # after the last item comes nothing, at the text's end
    items=iter(found+[(b"",len(text))])
    def take(form):
        item,start=next(items)
        if not re.fullmatch(form,item): raise Bad(1+text[:start].count(b"\n"))
        return item
    take(b"OFF")
    n,m,_=[int(take(WHOLE)) for _ in range(3)]
    for _ in range(3*n): take(DECIMAL)
    rows=[[int(take(WHOLE))+1 for _ in range(int(take(WHOLE)))] for _ in range(m)]
    take(b"")
    return n,rows
def answer(room,text):
    # a refusal, or the lines after an answer; no text here is so long that 1 could come
    try: n,rows=faces(text)
    except Bad as bad: return 16,*bad.args,0
    unfit=[f for f,row in enumerate(rows,1) if len(row) not in (3,4)]
    if unfit: return 17,unfit[0],0
    if room<4*len(rows): return 13,4*len(rows),0
    return [("N",[n,len(rows)]),("L",sum([(row+[0])[:4] for row in rows],[]))]
# a case is a label; the length of the list; and that of the text, which comes after it and before a newline
cases=open(sys.argv[1],"rb").read()
# what the program can take
assert len(cases)<=16000
while cases:
    head,cases=cases.split(b"\n",1)
    if b";" not in head: continue
    label,room,count=head.decode().split(";")
    text,end,cases=cases[:int(count)],cases[int(count):int(count)+1],cases[int(count)+1:]
    assert int(room)<=64 and len(text)==int(count) and end==b"\n",label
    print(label)
    found=answer(int(room),text)
    if isinstance(found,tuple): line("R",found)
    else:
        for letter,entries in found: line(letter,entries)
    print("clean")
