import glob,sys,os
bad=0;n=0
for e in sorted(glob.glob('crates/*/must-fail/*.edit')):
    crate=e.split('/')[1]; f=None; old=None; pairs=0; texts={}
    for line in open(e).read().split('\n'):
        if line.startswith('file: '): f=line[6:]
        elif line.startswith('old: '): old=line[5:]
        elif line.startswith('new:'):
            p=f'crates/{crate}/{f}'
            if not os.path.isfile(p): print('NOFILE',e,p); bad+=1; break
            t=texts.get(p) or open(p).read()
            if t.count(old)!=1: print('COUNT',t.count(old),e); bad+=1; break
            new=line[4:]; new=new[1:] if new.startswith(' ') else new
            texts[p]=t.replace(old,new); pairs+=1
    n+=1
    if pairs==0: print('NOPAIR',e); bad+=1
print(n,'edits',bad,'bad')
