import subprocess,sys
bad=n=0
for f in ['edges','random']:
    for l in open(f'/work/shared/cases/{f}.tsv'):
        if l.startswith('#') or not l.strip(): continue
        p=l.rstrip('\n').split('\t')
        if p[0]=='name': continue
        name,ans,d=p[0],p[1],p[-1]
        try: b=bytes.fromhex(d)
        except ValueError: print('skip',name,d[:30]); continue
        o=subprocess.run(['target/bin/drevaloci'],input=b,capture_output=True).stdout.decode().rstrip('\n')
        n+=1
        if o!=ans: bad+=1; print(name,'want',ans[:60],'got',o[:60])
print(n,'cases',bad,'wrong')
