" Scripts of diddy.
if exists("b:current_syntax")
  finish
endif
syntax match diddyComment "--.*$"
syntax match diddyCommand "%\s*\(dim\|nodes\|alphabet\|topology\|only\|weights\|limits\|rule\|auto\|compose\|conf\|member\|contains\|equal\|empty\|same\|maps\|conjugate\|forbidden\|minimal\|density\|least\|discharge\)\>"
syntax keyword diddyCase when give else
syntax match diddyQuantifier "[AE]\ze\s*[a-z]\+\s*\["
syntax match diddyConnective "<->\|->\|!=\|[!&|=~@:]"
syntax match diddyNumber "-\?\<[0-9]\+\>"
syntax match diddyMove "\.\s*[a-z]\+"
highlight default link diddyComment Comment
highlight default link diddyCommand Statement
highlight default link diddyCase Conditional
highlight default link diddyQuantifier Repeat
highlight default link diddyConnective Operator
highlight default link diddyNumber Number
highlight default link diddyMove Identifier
let b:current_syntax = "diddy"
