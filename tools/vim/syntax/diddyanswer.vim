" Outputs of diddy.
if exists("b:current_syntax")
  finish
endif
syntax match diddyAnswerHead "^diddy 1$\|^script [0-9]\+$\|^end$\|^status [0-8]$"
syntax match diddyAnswerQuery "^query [0-9]\+"
syntax match diddyAnswerYes "\<\(YES\|IN\)\>"
syntax match diddyAnswerNo "\<\(NO\|OUT\|EMPTY\)\>"
syntax match diddyAnswerNumber "\<\(LIST\|DENSITY\|BOUND\)\>"
syntax match diddyAnswerUnknown "\<UNKNOWN\>.*$"
syntax match diddyAnswerUnknown "^refused .*$\|\<rejected$"
syntax match diddyAnswerQuery "\<accepted$\|^checked [0-9]\+$"
syntax match diddyAnswerEvidence "^\(refutation\|step\|conf\|pattern\|cycle\|potentials\|ranks\|denominator\|amounts\|duals\)\>"
highlight default link diddyAnswerHead Comment
highlight default link diddyAnswerQuery Statement
highlight default link diddyAnswerYes Type
highlight default link diddyAnswerNo Constant
highlight default link diddyAnswerNumber Number
highlight default link diddyAnswerUnknown Todo
highlight default link diddyAnswerEvidence Identifier
let b:current_syntax = "diddyanswer"
