# puts the tables that compare printed into docs/DIFFERENCES.md: figures.py LOG PAGE
import re,sys
log=open(sys.argv[1],encoding='utf8').read(); page=open(sys.argv[2],encoding='utf8').read()
tables=re.findall(r'(?m)^(\|[^\n]*\|)\n\|[-|]+\|\n((?:\|[^\n]*\n)*)',log)
n=0
for head,rows in tables:
    pat=re.compile(re.escape(head)+r'\n\|[-|]+\|\n(?:\|[^\n]*\n)*')
    m=pat.search(page)
    if not m: print('no table',head); continue
    sep='|'+'---|'*(head.count('|')-1)
    page=page[:m.start()]+head+'\n'+sep+'\n'+rows+page[m.end():]; n+=1
m=re.search(r'Of the visits of case: [^\n]*',log)
page=re.sub(r'Of the visits of case: [^\n]*',m[0],page)
last=re.search(r'(\d+) programs, (\d+) run by both, each kind visited at least (\d+) times',log)
f=lambda s:f'{int(s):,}'
page=re.sub(r'seed 1, [\d,]+ programs, each made once\. [\d,]+\s+were accepted and run by both, each kind that can be visited was visited at least [\d,]+ times',
  f'seed 1, {f(last[1])} programs, each made once. {f(last[2])}\nwere accepted and run by both, each kind that can be visited was visited at least {f(last[3])} times',page)
open(sys.argv[2],'w',encoding='utf8').write(page)
print(n,'tables',last[0], '0 differences' in log)
