#!/usr/bin/env python3
# Functions of crates/*/src that differ only in a type, a size, a constant or the function that they call: those names are struck out of
# signature and body, and what is equal then is one group. Says each group and how many functions are one too many.
# Use: python3 tools/twins.py [FOLDER]
import re,glob,sys,collections
root=sys.argv[1] if len(sys.argv)>1 else '.'
groups=collections.defaultdict(list)
for p in sorted(glob.glob(root+'/crates/*/src/*.rt')):
    s=open(p).read()
    for m in re.finditer(r'^(?:#\[[^\n]*\]\n)*[ ]*(?:pub )?(?:extern "C" )?fn (\w+)([^{]*?)(?:\n\s*(?:requires|ensures)[^\n]*(?:\n {8}[^\n]*)*)*\s*\n?\{\n(.*?)^\}',s,re.M|re.S):
        name,sig,body=m.groups()
        t=sig.split('requires')[0].split('ensures')[0]+body
        t=re.sub(r'//[^\n]*','',t)
        t=re.sub(r"b?'[^']*'|\"[^\"]*\"",'C',t)
        t=re.sub(r'\b0x[0-9A-Fa-f]+\b|\b\d+\w*\b','N',t)
        t=re.sub(r'\b[a-z_]+::','',t)
        t=re.sub(r'\b[A-Z]\w*(?:::[A-Z]\w*)*\b','T',t)
        t=re.sub(r'\bu(8|16|32|64|size)\b|\bi(8|16|32|64|size)\b','T',t)
        # called function names differ too
        t=re.sub(r'\b\w+\(','f(',t)
        t=re.sub(r'\s+','',t)
        groups[t].append((p.replace(root+'/crates/','').replace('/src/',':'),name))
n=0
for t,g in groups.items():
    if len(g)>1:
        n+=len(g)-1
        print(len(t),[f'{a}::{b}' for a,b in g])
print('twins:',n)
