" Vim syntax file
" Language: bds, scripts of pipelines

if exists('b:current_syntax')
  finish
endif

syntax sync fromstart

syntax keyword bdsType bool int string void
syntax keyword bdsConstant true false
syntax keyword bdsControl if else while for switch case default break continue return include
syntax keyword bdsCall print println error exit
syntax keyword bdsTask task dep goal par wait checkpoint
syntax keyword bdsReserved real class try catch throw kill breakpoint debug

syntax match bdsNumber /\<\d\+\>/
syntax match bdsOperator "[-+*/%<>=!&|?:]"
syntax match bdsOption /\<\%(cpus\|canFail\|retry\|taskName\)\ze\s*:=/

" In double quotes and in commands a variable stands for its value, with one index or key behind it at most.
syntax match bdsPiece /\$\h\w*\%(\[\%(\d\+\|\h\w*\)\]\|{\%('[^']*'\|\h\w*\)}\)\?/ contained
syntax match bdsEscape /\\[btnfr"'\\$]/ contained
syntax match bdsPlain /\\./ contained

syntax region bdsText start=/'/ end=/'/
syntax region bdsText start=/"/ skip=/\\./ end=/"/ contains=bdsEscape,bdsPiece

" What is behind `sys` is the shell's, up to the end of a line without a backslash.
syntax region bdsCommand matchgroup=bdsTask start=/\<sys\>/ skip=/\\$/ end=/$/ contains=bdsPlain,bdsPiece

syntax region bdsComment start=/#/ end=/$/
syntax region bdsComment start=/\/\// end=/$/
syntax region bdsComment start=/\/\*/ end=/\*\//

highlight default link bdsType Type
highlight default link bdsConstant Boolean
highlight default link bdsControl Conditional
highlight default link bdsCall Function
highlight default link bdsTask Statement
highlight default link bdsReserved Error
highlight default link bdsNumber Number
highlight default link bdsOperator Operator
highlight default link bdsOption Identifier
highlight default link bdsPiece Identifier
highlight default link bdsEscape SpecialChar
highlight default link bdsText String
highlight default link bdsCommand PreProc
highlight default link bdsComment Comment

let b:current_syntax = 'bds'
