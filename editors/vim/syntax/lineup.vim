" Bundles of lineup: source or component, matrix, and what else a command takes.
if exists('b:current_syntax')
  finish
endif
syntax case match
syntax match lineupLabel /^\s*[A-Za-z_][A-Za-z0-9_]*:/
syntax match lineupRegister /\<r[0-7]\>/
syntax match lineupNumber /\<\d\+\>/
syntax keyword lineupDeclaration component object const word local op end let
syntax keyword lineupMatrix thread setup
syntax keyword lineupInstruction set add sub mul eq lt load store cas lock unlock await awaitne pick jump jz return
syntax match lineupInstruction /\%(\<op\s\+\)\@<!\<\%(fetch_\%(add\|sub\|max\|min\)\|swap\|compare_exchange\)\>\ze\s*(/
syntax keyword lineupControl if else while loop break continue assert
syntax keyword lineupConstant true false
syntax match lineupOperator /&&\|||\|[-+=!<>]=\|[-+*<>!=]/
syntax keyword lineupReport lineup report spec bound serial pass complete stuck cut fail nondeterministic before earlier
syntax keyword lineupReport schedule history trap call ret
syntax match lineupReport /\<serial-cut\>/
syntax match lineupSeparator /^---$/
syntax match lineupComment /#.*$/
syntax match lineupComment /\/\/.*$/
highlight default link lineupSeparator PreProc
highlight default link lineupComment Comment
highlight default link lineupLabel Label
highlight default link lineupRegister Identifier
highlight default link lineupNumber Number
highlight default link lineupDeclaration Structure
highlight default link lineupMatrix Keyword
highlight default link lineupInstruction Statement
highlight default link lineupControl Conditional
highlight default link lineupConstant Constant
highlight default link lineupOperator Operator
highlight default link lineupReport Type
let b:current_syntax = 'lineup'
