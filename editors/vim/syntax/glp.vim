" Vim syntax file. Language: job texts of GLP (*.glp).
" One match for each kind of token of documents 01 and 02; of two that begin at one place Vim takes the later, so that they stand in the reverse order of
" editors/textmate/glp.tmLanguage.json. tests/editors holds both to the reference's reader and to each other.
" Guards have no matches of their own but ==: their names are names as others are, a list's bar is a clause's, and only the bar tells a guard from a goal.
if exists("b:current_syntax") | finish | endif
syntax case match

syntax match glpBad /\v-?[0-9][0-9A-Z_a-z]*|[A-Z][0-9A-Z_a-z]*\??|[_a-z][0-9A-Z_a-z]*|[^ \t\r]/
syntax match glpStop /\v\./
syntax match glpBar /\v\|/
syntax match glpComma /\v,/
syntax match glpCloseSquare /\v\]/
syntax match glpOpenSquare /\v\[/
syntax match glpCloseRound /\v\)/
syntax match glpOpenRound /\v\(/
syntax match glpInteger /\v%(0|-?%([1-9][0-9]{0,8}|1[0-9]{9}|20[0-9]{8}|21[0-3][0-9]{7}|214[0-6][0-9]{6}|2147[0-3][0-9]{5}|21474[0-7][0-9]{4}|214748[0-2][0-9]{3}|2147483[0-5][0-9]{2}|21474836[0-3][0-9]|214748364[0-7])|-2147483648)%([0-9A-Z_a-z])@!/
syntax match glpName /\v[a-z][0-9A-Z_a-z]{0,30}%([0-9A-Z_a-z])@!/
syntax match glpWriter /\v[A-Z][0-9A-Z_a-z]{0,30}%([0-9?A-Z_a-z])@!/
syntax match glpReader /\v[A-Z][0-9A-Z_a-z]{0,30}\?/
syntax match glpEqual /\v\=\=/
syntax match glpIf /\v:-/
syntax match glpAsk /\v\?-/
syntax match glpRemark /\v\%.*/

highlight default link glpRemark Comment
highlight default link glpAsk Statement
highlight default link glpIf Statement
highlight default link glpEqual Operator
highlight default link glpReader Type
highlight default link glpWriter Identifier
highlight default link glpName Function
highlight default link glpInteger Number
highlight default link glpOpenRound Delimiter
highlight default link glpCloseRound Delimiter
highlight default link glpOpenSquare Delimiter
highlight default link glpCloseSquare Delimiter
highlight default link glpComma Delimiter
highlight default link glpBar Delimiter
highlight default link glpStop Delimiter
highlight default link glpBad Error

let b:current_syntax = "glp"
