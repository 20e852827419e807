import glob,re,sys,os
root=sys.argv[1]
bad=0
for e in sorted(glob.glob(root+'/crates/*/must-fail/*.edit')):
    crate=e.split('/must-fail/')[0]
    cur=None;f=None;key=None;parts=[];blk=None
    for line in open(e,encoding='utf8').read().split('\n'):
        m=re.match(r'(file|old|new): ?(.*)$',line)
        if m:
            if m[1]=='file': f=m[2].strip()
            else:
                parts.append([m[1],f,m[2]])
        elif line.startswith('#'): pass
        elif parts and line.strip(): parts[-1][2]+='\n'+line
    for k,f,t in parts:
        if k!='old': continue
        p=os.path.join(crate,f)
        if not os.path.exists(p): print(e,'no file',f); bad+=1; continue
        s=open(p,encoding='utf8').read()
        t2=t.lstrip('\n')
        n=s.count(t2)
        if n!=1: print(os.path.relpath(e,root),n,repr(t2[:100])); bad+=1
print('bad',bad)
