" Made by tools/editors/make of the lists that the definitions have; a change here is refused by .ci/run.
if exists("b:current_syntax") | finish | endif
syn case match
syn keyword eventwaveDeclaration service context var method event
syn keyword eventwaveStatement here down reply let if else while for in to require send spawn drop return finish
syn keyword eventwaveType int bool text map
syn keyword eventwaveConstant true false empty
syn match eventwaveCall /\<\%(has\|size\|key\|len\|str\|part\|min\|max\|abs\|sum\|starts\|num\)\ze\s*(/
syn match eventwaveNumber /\<\d\+\>/
syn match eventwaveOperator /\V!=\|&&\|<=\|==\|>=\|||\|!\|%\|*\|+\|-\|\/\|<\|=\|>/
syn region eventwaveText start=/"/ skip=/\\["\\]/ end=/"/ oneline
syn match eventwaveComment /\/\/.*$/
" behind the line of four signs stands the script
syn region eventwaveScript matchgroup=PreProc start=/^----\r\=$/ end=/\%$/ contains=eventwaveLine,eventwaveScriptText,eventwaveScriptNumber,eventwavePath,eventwaveTruth,eventwaveRemark
syn keyword eventwaveLine contained hosts request move snapshot settle to
syn keyword eventwaveTruth contained true false
syn match eventwaveScriptNumber /-\=\<\d\+\>/ contained
syn match eventwavePath /\%(\/\h\w*\[-\=\d\+\]\)\+\|\/\ze\s/ contained
syn region eventwaveScriptText start=/"/ skip=/\\["\\]/ end=/"/ oneline contained
syn match eventwaveRemark /^\s*#.*$/ contained
syn sync fromstart
hi def link eventwaveDeclaration Structure
hi def link eventwaveStatement Statement
hi def link eventwaveType Type
hi def link eventwaveConstant Constant
hi def link eventwaveCall Function
hi def link eventwaveNumber Number
hi def link eventwaveOperator Operator
hi def link eventwaveText String
hi def link eventwaveComment Comment
hi def link eventwaveLine Statement
hi def link eventwaveTruth Constant
hi def link eventwaveScriptNumber Number
hi def link eventwavePath Identifier
hi def link eventwaveScriptText String
hi def link eventwaveRemark Comment
let b:current_syntax = "eventwave"
