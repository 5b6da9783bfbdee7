#!/usr/bin/env python3
"""rename.py TREE: one name, one meaning. Each row: crate, old name of a definition, new name; with fn: the function too."""
import re,sys,glob,os,subprocess
ROWS=[
 ('station_theorems','Fit','FitFrame'),
 ('script','Keeps','KeepsLine'),
 ('rtep_theorems','Made','MakeOutcome'),
 ('rtep_theorems','Queued','QueueOutcome'),
 ('replay_theorems','Proper','ProperFlight'),
 ('packet_codec','ReadsAs','PacketReads'),
 ('station_theorems','Ring','RingInRange'),
 ('wire_theorems','Stored','StoredBy'),
 ('packet_codec','Typed','TypedFields'),
 ('bench','addressOf','benchAddress'),
 ('replay','afterEvent','wayThrough'),
 ('replay','begunBy','begunFrom'),
 ('cell_theorems','composed','composedIn'),
 ('replay','courseOf','courseNow'),
 ('replay_theorems','courseOf','courseThrough'),
 ('day','eventNumber','eventRefusal'),
 ('cell_theorems','eventOf','eventFor'),
 ('codec','fieldTests','headFieldTests'),
 ('station','goesOn','goesOnSending'),
 ('bench','goesOn','stepsOn'),
 ('records','headOctets','frontOctets'),
 ('rtep','headTests','headValueTests'),
 ('bench','hearing','whoHears'),
 ('rtep_theorems','informationOf','informationTold'),
 ('sent','informationOf','informationSent'),
 ('day','isMember','isSomebody'),
 ('script','joined','joinedNumber'),
 ('station','joining','accepting'),
 ('cell_theorems','left','inTransit'),
 ('records','liveAt','liveSetAt'),
 ('replay','longest','longestRecord'),
 ('bench','longest','longestRow'),
 ('bench_theorems','longest','longestWay'),
 ('wire_theorems','madeOf','madeWith'),
 ('station','messageAt','messageAtPlace'),
 ('bench_theorems','numberIn','numberSent'),
 ('rtep','octetsOf','octetsOfNumbers'),
 ('station_theorems','onward','stepsFrom'),
 ('script','opening','putBefore'),
 ('codec','others','othersBits'),
 ('replay','output','dayOutput'),
 ('bench','packetOf','benchPacket'),
 ('driver_buffers','packetOf','packetFor'),
 ('bench','printed','printedStep'),
 ('records','priorityIn','priorityFrom'),
 ('day','pushed','pushedFrame'),
 ('records','readRecord','readStation'),
 ('station','received','receivedInto'),
 ('capture','recordLength','eventLength'),
 ('replay','recordNumber','recordRefusal'),
 ('capture','recordOctets','eventOctets'),
 ('bench','refused','refusedText'),
 ('bench','replyTo','replyWith'),
 ('cell_theorems','requestIn','requestBy'),
 ('capture','requestOf','requestAsked'),
 ('bench','ringOf','ownRing'),
 ('driver_calls','ringOf','membersIn'),
 ('rtep_theorems','ringWith','ringMade'),
 ('cell_theorems','rowOf','rowSeen'),
 ('replay','stopped','stoppedWith'),
 ('station_theorems','stops','stopsBy'),
 ('replay_theorems','struckBy','saidStruck'),
 ('day','timerAnswer','timerAnswerAt'),
 ('replay','timerLines','timerPrints'),
 ('day','told','toldWith'),
 ('script','told','toldThrough'),
 ('bench','wentOn','steppedOn'),
 ('replay_theorems','written','writtenIn'),
]
FNS=[ # crate, module, old fn, new fn
 ('bench','rows','address_of','bench_address'),
 ('bench','rows','packet_of','bench_packet'),
 ('bench','table','goes_on','steps_on'),
 ('driver_buffers','packets','packet_of','packet_for'),
]
tree=sys.argv[1]; os.chdir(tree)
ID=r"[\w\-′·'?₀-₉]"
def tok(n): return re.compile(r'(?<!'+ID+r')(?<!\.)'+re.escape(n)+r'(?!'+ID+r')')
files=[p for p in glob.glob('crates/**/*.antt',recursive=True)+glob.glob('crates/**/*.rt',recursive=True)+glob.glob('crates/*/must-fail/*',recursive=True)]
text={p:open(p).read() for p in files}
orig=dict(text)
def crate(p): return p.split('/')[1]
def module_of(c,n):
    for p in glob.glob(f'crates/{c}/specs/**/*.antt',recursive=True):
        if re.search(r'(?m)^(?:abbrev |unfoldable )?pub (?:record )?'+re.escape(n)+r'(?= *[:(])',orig[p]): return p
    return None
def imports(t,c,mod,n):
    # use Rattle·c[·specs].specs.Mod.{... n ...}
    for m in re.finditer(r'use Rattle·'+c+r'(?:·specs|·proofs)?\.specs\.'+re.escape(mod)+r'(?:\.\{([^}]*)\})?',t):
        if m.group(1) is not None and re.search(r'(?<!'+ID+r')'+re.escape(n)+r'(?!'+ID+r')(?!\s+as\b)',m.group(1)): return True
    return False
def sub_antt(t,old,new):
    out=[]
    r=tok(old)
    def rep(m):
        i,j=m.start(),m.end()
        pre=t[max(0,i-3):i]; post=t[j:j+3]
        # projection: space-dot or dot before
        if t[:i].endswith('.'): return m.group(0)
        # field of a record literal
        k=t[:i].rstrip()
        if re.match(r' = ',t[j:j+3]) and (k.endswith('{') or k.endswith(';')): return m.group(0)
        return new
    lines=t.split('\n')
    # comments: rename only in backticks
    res=[]; pos=0
    return r.sub(rep,t)
def sub_rt(t,old,new):
    # ghost use lines and ⌜ ⌝ regions
    t=re.sub(r'ghost use [^;]*;',lambda m:tok(old).sub(new,m.group(0)),t,flags=re.S)
    return re.sub(r'⌜.*?⌝',lambda m:sub_antt(m.group(0),old,new),t,flags=re.S)
allnames={}
for c,old,new in ROWS:
    p=module_of(c,old)
    if p is None: print('no definition',c,old); continue
    clash=[q for q in files if re.search(r'(?<!'+ID+r')'+re.escape(new)+r'(?!'+ID+r')',orig[q])]
    if clash: print('CLASH',c,old,new,len(clash),clash[:3])
    mod=p.split('/specs/')[1][:-5].replace('/','.')
    hit=[]
    for q in files:
        t=text[q]
        if q==p or imports(orig[q],c,mod,old) or (q.endswith('.edit') and crate(q)==c):
            n=(sub_rt if q.endswith('.rt') else sub_antt)(t,old,new)
            if n!=t: text[q]=n; hit.append(q)
    print(f'{c}.{old} -> {new}: {len(hit)} files')
for c,mod,old,new in FNS:
    ko,kn=old.replace('_','-'),new.replace('_','-')
    cams=lambda s:s
    for q in files:
        t=text[q]; n=t
        own=crate(q)==c
        if q.endswith('.rt'):
            if own or re.search(c+r'::'+mod+r'::'+old+r'\b',orig[q]):
                n=re.sub(r'\b'+old+r'\b',new,n)
        else:
            srcs=[s for s in files if s.endswith('.rt') and crate(s)==crate(q)]
            callers=own or any(re.search(c+r'::'+mod+r'::'+old+r'\b',orig[s]) for s in srcs)
            if callers:
                if own: n=re.sub(r'(?<!'+ID+r')'+old+r'(?!'+ID+r')',new,n); n=re.sub(r'\.'+mod+r'\.'+old+r'\.','.'+mod+'.'+new+'.',n)
                n=re.sub(r'(?<![\w])'+ko+r'(?![\w])',kn,n)
        if n!=t: text[q]=n
for q in files:
    if text[q]!=orig[q]: open(q,'w').write(text[q])
for c,mod,old,new in FNS:
    a,b=f'crates/{c}/proofs/{mod}/{old}',f'crates/{c}/proofs/{mod}/{new}'
    if os.path.isdir(a): os.rename(a,b)
    else: print('no folder',a)
print(sum(text[q]!=orig[q] for q in files),'files')
