import subprocess,sys,re,os
bench=sys.argv[1]
which=sys.argv[2:] or ['n','d']
def ir(n,rival,line):
    out=subprocess.run(['valgrind','--tool=callgrind','--callgrind-out-file=/dev/null',bench,'--calls',str(n),rival,line],capture_output=True,text=True)
    m=re.search(r'Collected : (\d+)',out.stderr)
    return int(m.group(1))
def call(rival,line): return ir(2,rival,line)-ir(1,rival,line)
cache={}
N=[('8,000 naturals, 1 to 8',),('8,000 naturals, 1 to 2,048',),('8,000 naturals, of any length',)]
D=['chain, 1000 nodes','pairs, 1000 nodes','gates, 1000 nodes','gates, 2048 nodes']
orig=os.environ.get('ORIG','')=='1'
from concurrent.futures import ThreadPoolExecutor
ex=ThreadPoolExecutor(2)
if 'n' in which:
    for (l,) in N:
        lib=ex.submit(call,'library',l)
        o=ex.submit(call,'original',l) if orig else None
        print(l,'library',lib.result(),'original',o.result() if o else '',flush=True)
if 'd' in which:
    for l in D:
        lib=ex.submit(call,'library, stores just large enough',l)
        o=ex.submit(call,'original, reading alone',l) if orig else None
        r=ex.submit(call,'library, reading alone',l)
        print(l,'library',lib.result(),'reading',r.result(),'original reading',o.result() if o else '',flush=True)
