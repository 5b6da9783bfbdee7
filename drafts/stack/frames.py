import subprocess,re,sys
a=sys.argv[1]; root=sys.argv[2]
out=subprocess.run(['objdump','-dr','--no-show-raw-insn',a],capture_output=True,text=True).stdout
fr={};calls={};cur=None
for l in out.splitlines():
    m=re.match(r'^[0-9a-f]+ <(.+)>:$',l)
    if m: cur=m.group(1); fr[cur]=8; calls[cur]=[]; lastcall=False; continue
    if cur is None: continue
    if re.search(r'\bpush\s',l): fr[cur]+=8
    m=re.search(r'sub\s+\$0x([0-9a-f]+),%rsp',l)
    if m: fr[cur]+=int(m.group(1),16)
    m=re.search(r'R_X86_64_(?:PLT32|PC32)\s+(.+?)-0x4$',l)
    if m and lastcall: calls[cur].append(re.sub(r'^\.text\.','',m.group(1)))
    if re.search(r'\b(call|jmp)\b',l): lastcall=True
    else:
        if 'R_X86' not in l: lastcall=False
sys.setrecursionlimit(10000)
memo={}
def deep(f):
    if f in memo: return memo[f]
    memo[f]=(fr.get(f,0),[f])
    best=(0,[])
    for c in set(calls.get(f,[])):
        if c in fr:
            d=deep(c)
            if d[0]>best[0]: best=d
    memo[f]=(fr.get(f,0)+best[0],[f]+best[1])
    return memo[f]
for r in sys.argv[2:]:
    d=deep(r); print(r,d[0]); 
    for f in d[1]: print('   ',fr.get(f),f)
    for c in sorted(set(calls[d[1][1] if len(d[1])>1 else r])): print('      calls',c,deep(c)[0] if c in fr else '-')
