# writes refusal's proof of keeps_table for so many cases, of which number 17 is the one with a place
import sys
n=int(sys.argv[1])
name=lambda b,k: b if k==1 else f'{b}-{k}'
told=[name('enum-told',k) for k in range(1,17)]+['enum-known-refusal']+[name('enum-told',k) for k in range(17,n)]
rets=[name('returns',k) for k in range(1,n+1)]
out='''-- `refusal::keeps_table` meets its contract, case by case.
use mathlib.Core.Path.{sym, ap}
use Rattle·refusal·specs.specs.Numbers.{keepsTable}
use borrow.Author.Needs.{needs}
use Rattle·refusal·proofs.proofs.keeps_table.Statement.{statement}
use Rattle·refusal·proofs.proofs.keeps_table.Tie as tie

'''
for t in told+rets:
    body='ap keepsTable (sym (c .before .refusal .given .1))' if t=='returns-17' else 'search needs'
    out+=f'{t} : tie.Need-{t}\n{t} c = {body}\n\n'
out+='pub keeps-table-spec : {M : Type 1} → statement M\nkeeps-table-spec =\n    tie.close\n    (tie.spec\n    '+'\n    '.join(told+rets)+')\n'
open('crates/refusal/proofs/keeps_table/Proof.antt','w').write(out)
