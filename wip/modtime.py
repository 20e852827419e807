#!/usr/bin/env python3
# modtime.py REPO CRATE: seconds by function and by kind of module of a fresh check, from the times of the saved modules
import os,glob,collections,sys,subprocess,shutil,time
repo,c=sys.argv[1:3]
shutil.rmtree(f'{repo}/target/inc/{c}',ignore_errors=True)
t=time.time(); p=subprocess.run(['rt','dev',c],cwd=repo,capture_output=True,text=True); print('wall',round(time.time()-t,1),'rc',p.returncode)
d=glob.glob(f'{repo}/target/inc/{c}/antt*')[0]
fs=sorted((os.stat(f).st_mtime_ns,os.path.basename(f)) for f in glob.glob(d+'/*.oantt'))
agg=collections.Counter(); kinds=collections.Counter(); p=fs[0][0]
print('until first module',round(fs[0][0]/1e9-t,1),'span',round((fs[-1][0]-p)/1e9,1))
for m,f in fs:
    dt=(m-p)/1e9; p=m
    n=f.replace(f'Rattle·{c}·proofs.proofs.','').replace('.oantt','')
    parts=n.split('.')
    agg['.'.join(parts[:-1]) if len(parts)>1 else n]+=dt; kinds[parts[-1]]+=dt
for k,v in agg.most_common(int(sys.argv[3]) if len(sys.argv)>3 else 14): print(f'{v:6.1f} {k}')
print(' '.join(f'{k}:{v:.1f}' for k,v in kinds.most_common(9)))
