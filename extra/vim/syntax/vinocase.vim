" Cases (*.case) of vino: cases/README.md says what each mark means. Copy extra/vim to ~/.vim, or add it to 'runtimepath'.
if exists("b:current_syntax")
  finish
endif

syntax case match

syntax match caseTitle "^#.*$"
syntax match caseWords "^\$ .*$" contains=caseMark,caseValue,casePlace
syntax match caseInput "^>>\= .*$" contains=caseMark,caseValue,caseCommand,casePlace
syntax match caseLanguage "^&.*$" contains=caseMark
syntax match caseWanted "^[<~!] .*$" contains=caseMark,caseCode,caseStar,caseValue
syntax match caseStatus "^? \d\+$" contains=caseMark
syntax match caseDisk "^[@=] .*$" contains=caseMark,caseValue
syntax match caseRow "^% .*$" contains=caseMark,caseArrow,caseValue,caseCode
syntax match caseMark "^\(>>\|[$>&<~!?@=%]\)" contained
syntax match caseArrow " -> " contained
syntax match caseCommand "\(^>>\= \)\@<=[a-z]\+" contained
syntax match caseCode "\<[SELCAG]\d\{1,2}\>" contained
syntax match caseStar "\*" contained
syntax match casePlace "\<\(KEY\|OTHER\|PATH\|PROGRAM\)\>" contained
syntax region caseValue start="{" end="}" contained contains=caseValue oneline

highlight default link caseTitle Comment
highlight default link caseWords PreProc
highlight default link caseLanguage Special
highlight default link caseWanted String
highlight default link caseStatus Number
highlight default link caseDisk Type
highlight default link caseMark Operator
highlight default link caseArrow Operator
highlight default link caseCommand Function
highlight default link caseCode Error
highlight default link caseStar Special
highlight default link casePlace Constant
highlight default link caseValue Identifier

let b:current_syntax = "vinocase"
