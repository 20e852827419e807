import sys,re,subprocess,os
def answer(crate,fn,uses,needs):
    p=f'crates/{crate}/proofs/{fn}/Proof.antt'
    s=open(p).read()
    lines=s.split('\n')
    # collapse imports
    for need,(unf,text) in needs.items():
        pat=re.compile(r'(?m)^('+re.escape(need)+r') : (.*)\n(?:unfolding .*\n)?'+re.escape(need)+r'( c| c κs| t c| t c κs) = (?:.|\n)*?(?=\n\n)')
        m=pat.search(s)
        if not m: print('no need',fn,need); continue
        s=s[:m.start()]+f'{need} : {m[2]}\n'+(f'unfolding {unf}\n' if unf else '')+f'{need}{m[3]} = {text}'+s[m.end():]
    s=s.replace('use borrow.Author.Needs.{needs}\nuse borrow.Author.Needs.{needs}\n','use borrow.Author.Needs.{needs}\n')
    head=uses
    for u in head.strip().split('\n'):
        if u and u not in s: s=u+'\n'+s
    open(p,'w').write(s)
    subprocess.run(['python3','tools/prove.py','fill',p],stdout=subprocess.DEVNULL)
