#!/bin/sh
# An archive libexports.a of the crates of a repository WITHOUT proof, for counting: ulib.sh REPO OUT
# rattle-cases lowers the program (exports' source with a main); a stand-in for its clang keeps the bitcode; the kit's clang compiles
# it at -O3 with the flags of `rattle build`. Proves nothing.
set -eu
repo=$(cd "$1" && pwd); mkdir -p "$2"; out=$(cd "$2" && pwd)
H=${RATTLE_HOME:-$(dirname "$(dirname "$(readlink -f "$(command -v rt)")")")}; own=$H/on/$(uname -m); T=$own/toolchain
w=$out/work; rm -rf "$w"; mkdir -p "$w/tool/bin" "$w/main/src"
ln -s "$T/lib" "$w/tool/lib"; ln -s "$T/bin/qemu-x86_64" "$w/tool/bin/qemu-x86_64"
ln -s "$T/bin/ld.lld" "$w/tool/bin/ld.lld"; ln -s "$T/bin/llvm-ar" "$w/tool/bin/llvm-ar"
cat > "$w/tool/bin/clang" <<X
#!/bin/sh
[ -e "$w/module.bc" ] || cp module.bc "$w/module.bc"
exit 1
X
chmod +x "$w/tool/bin/clang"
python3 - "$repo" "$w" <<'P'
import sys,re
repo,w=sys.argv[1:]
src=open(repo+'/crates/exports/src/lib.rt').read()
src=re.sub(r'^    ensures \{.*?\n(?=\{)','',src,flags=re.S|re.M)
src=re.sub(r'^ghost use.*\n','',src,flags=re.M)
src+='''
fn main() {
    let mut a = [0u8; 64];
    let n = io::read_full(libc::STDIN_FILENO, &mut a);
    let mut b = [0u32; 64];
    let mut c = [0u8; 64];
    let mut d = [0u8; 64];
    let mut e = [0u32; 64];
    let mut f = [0u8; 64];
    let mut p: u32 = 0;
    let mut q: u32 = 0;
    let mut s: u32 = 0;
    let mut t: usize = 0;
    drevaloci_run(&a[..n], &mut b, &mut c, &mut d, &mut e, &mut f, &mut p);
    drevaloci_decode(&a[..n], &mut b, &mut c, &mut p, &mut q);
    drevaloci_walk(&a[..n], &c, &b, &mut p);
    drevaloci_arrows(&a[..n], &b, &a, &a, &c, &mut p);
    drevaloci_hashes(&a[..n], &b, &a, &a, &c, &a, &mut p);
    drevaloci_bounds(&a[..n], &b, &a, &a, &c, &mut p, &mut q, &mut s);
    drevaloci_run_tables(&a[..n], &b, &a, &a, &c, &a, &a, 1, &a, 1, &mut d, &mut e, &mut f, &mut p);
    drevaloci_natural(&a[..n], 0, 5, &mut p, &mut t);
    io::write_all(libc::STDOUT_FILENO, b"x");
}
'''
open(w+'/main/src/main.rt','w').write(src)
P
printf x > "$w/stdout"; : > "$w/stdin"
deps=$(python3 - "$repo" <<'P'
import sys
d={}
for l in open(sys.argv[1]+'/crates.txt'):
    l=l.split('#')[0].strip()
    if l:
        n,r=l.split(':'); d[n]=r.split()
seen=[]
def go(n):
    for x in d.get(n,[]):
        go(x)
        if x not in seen: seen.append(x)
go('exports'); print(' '.join(x for x in seen if x!='check'))
P
)
set -- --toolchain "$w/tool" --stdin "$w/stdin" --stdout "$w/stdout" "$w/main/src/main.rt" --crate-name exports --lib "std=$H/libs/std/src/lib.rt"
set -- "$@" --lib "io:std,libc=$H/libs/io/src/lib.rt" --lib "libc:std=$H/libs/libc/src/lib.rt"
set -- "$@" --lib "check:std=$H/libs/check/src/lib.rt"
for d in $deps; do set -- "$@" --lib "$d=$repo/crates/$d/src/lib.rt"; done
"$own/bin/rattle-cases" "$@" > "$w/log" 2>&1 || true
if [ ! -e "$w/module.bc" ]; then cat "$w/log"; shift 6; "$own/bin/rattle-print-mir" "$@" 2>&1 | grep error | head; exit 1; fi
"$T/bin/clang" --target=x86_64-unknown-linux-gnu -x ir "$w/module.bc" -S -emit-llvm -O0 -Xclang -disable-llvm-passes -o "$w/module.ll"
python3 - "$w" <<'P'
import sys,re
w=sys.argv[1]
ll=open(w+'/module.ll').read()
src=open(w+'/main/src/main.rt').read()
# main and what only it calls go: make main internal and unused
ll=ll.replace('define i32 @main()','define internal i32 @main_unused()')
out=[]
for name,params in re.findall(r'pub extern "C" fn (\w+)(?:<[^>]*>)?\(\n(.*?)\n\)',src,flags=re.S):
    ps=[p.split(':',1)[1].strip().rstrip(',') for p in params.strip().split('\n')]
    args=[];body=[];call=[]
    for k,p in enumerate(ps):
        if '[' in p:
            args+= [f'ptr noundef %p{k}',f'i64 noundef %n{k}']
            body+= [f'  %s{k} = alloca [16 x i8], align 8',f'  store ptr %p{k}, ptr %s{k}, align 8',f'  %g{k} = getelementptr i8, ptr %s{k}, i64 8',f'  store i64 %n{k}, ptr %g{k}, align 8']
            call.append(f'ptr %s{k}')
        else:
            t='ptr' if p.startswith('&') else {'u32':'i32','usize':'i64'}[p]
            args.append(f'{t} noundef %p{k}'); call.append(f'{t} %p{k}')
    out.append(f'define noundef i32 @{name}({", ".join(args)}) #0 {{\nstart:\n'+'\n'.join(body)+f'\n  %r = call i32 @"exports::{name}"({", ".join(call)})\n  ret i32 %r\n}}\n')
ll=ll.replace('\nattributes #0','\n'+'\n'.join(out)+'\nattributes #0',1)
open(w+'/lib.ll','w').write(ll)
P
"$T/bin/clang" --target=x86_64-unknown-linux-gnu -march=x86-64 -ffunction-sections -fdata-sections -mllvm -trap-unreachable -mllvm -no-trap-after-noreturn --no-default-config -no-canonical-prefixes -fintegrated-cc1 -fno-crash-diagnostics -c -x ir "$w/lib.ll" -o "$w/exports.o" -fPIC -O3 --sysroot="$w/tool"
rm -f "$out/libexports.a"; (cd "$w" && "$T/bin/llvm-ar" rcsD --format=gnu "$out/libexports.a" exports.o)
