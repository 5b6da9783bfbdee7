#!/bin/bash
# arch3.sh REPO OUTDIR : like librtep.a, with no proof; then the stack of each call

REPO=$1; O=$2; mkdir -p $O
B=/opt/rattle/on/x86_64/toolchain/bin/clang
cd $REPO
rm -rf /tmp/rc3 /tmp/keep3; mkdir -p /tmp/rc3 /tmp/keep3
(while true; do for d in /tmp/rc3/rattle-native*; do [ -d "$d" ] || continue; mkdir -p /tmp/keep3/$(basename $d); ln $d/* /tmp/keep3/$(basename $d)/ 2>/dev/null; done; sleep 0.01; done) & p=$!
TMPDIR=/tmp/rc3 timeout 300 rt try probe > $O/try.log 2>&1 || { tail -20 $O/try.log; kill $p; exit 1; }
kill $p
cp /tmp/keep3/*-2/module.bc $O/probe.bc
$B -x ir -S -emit-llvm -O0 -Xclang -disable-llvm-passes $O/probe.bc -o $O/probe.ll
cat > /tmp/wrap3.py <<'P'
import sys
# name, path, params: s = slice, p = thin pointer, i64
calls = [
 ("rtep_make","rtep::driver::rtep_make","s s i64"),
 ("rtep_start","rtep::driver::rtep_start","s s p"),
 ("rtep_frame","rtep::driver::rtep_frame","s s i64 i64 s s p"),
 ("rtep_timer","rtep::driver::rtep_timer","s s s p"),
 ("rtep_queue","rtep::driver::rtep_queue","s s i64 i64 i64 s"),
 ("rtep_take","rtep::driver::rtep_take","s s i64 s p"),
 ("rtep_ring","rtep::rtep_ring","s p"),
 ("rtep_read","rtep::rtep_read","s s p"),
 ("rtep_to_form_1","rtep::rtep_to_form_1","s p p"),
 ("rtep_to_form_2","rtep::rtep_to_form_2","s p p"),
 ("rtep_write","rtep::rtep_write","s p s s p"),
]
out=[]
for n,path,ps in calls:
    ps=ps.split()
    sig=[];body=[];args=[]
    for k,t in enumerate(ps):
        if t=='s':
            sig+= [f"ptr %p{k}", f"i64 %l{k}"]
            body+=[f"  %s{k} = alloca [16 x i8], align 8", f"  store ptr %p{k}, ptr %s{k}, align 8", f"  %g{k} = getelementptr i8, ptr %s{k}, i64 8", f"  store i64 %l{k}, ptr %g{k}, align 8"]
            args.append(f"ptr %s{k}")
        elif t=='p':
            sig.append(f"ptr %p{k}"); args.append(f"ptr %p{k}")
        else:
            sig.append(f"i64 %p{k}"); args.append(f"i64 %p{k}")
    out.append(f'define i32 @{n}({", ".join(sig)}) #0 {{\nstart:\n'+"\n".join(body)+f'\n  %r = call i32 @"{path}"({", ".join(args)})\n  ret i32 %r\n}}\n')
for n,t in [("rtep_layout","i32")]+[(x,"i64") for x in "rtep_file_size rtep_given_up_at rtep_lost_at rtep_out_size rtep_packet_size rtep_place_size rtep_record_size rtep_ring_size rtep_state_at rtep_store_size rtep_taken_size rtep_told_size".split()]:
    out.append(f'define {t} @{n}() #0 {{\n  %r = call {t} @"rtep::sizes::{n}"()\n  ret {t} %r\n}}\n')
src=open(sys.argv[1]).read()
src=src.replace("define i32 @main(","define internal i32 @main(").replace("define dso_local i32 @main","define internal i32 @main")
i=src.index("\nattributes #0")
open(sys.argv[1],'w').write(src[:i]+"\n"+"\n".join(out)+src[i:])
P
python3 /tmp/wrap3.py $O/probe.ll
F="-march=x86-64 -ffunction-sections -fdata-sections -mllvm -trap-unreachable -mllvm -no-trap-after-noreturn --no-default-config -no-canonical-prefixes -fPIC -O3 -Xclang -fmerge-functions -mllvm -mergefunc-use-aliases"
$B $F -Wno-override-module -c -x ir $O/probe.ll -o $O/rtep.o 2>$O/cc.log || { tail $O/cc.log; exit 1; }
rm -f $O/librtep.a; ar rcs $O/librtep.a $O/rtep.o
gcc -O2 -std=c11 -I /work/int5/include /work/int5/tests/c/stack.c $O/librtep.a -Wl,-z,now -o $O/stack && $O/stack
