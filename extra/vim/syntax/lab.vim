" Lab files (*.lab) and scripts (*.vino) of vino. Copy extra/vim to ~/.vim, or add it to 'runtimepath'.
if exists("b:current_syntax")
  finish
endif

syntax case match
syntax sync minlines=200

" Lines of a script.
syntax keyword labSetup frames patience grant boot key disk fail contained
syntax keyword labEvent tick step raw image contained
syntax keyword labCall spawn exit yield sync open close read write lock unlock poke peek contained
syntax keyword labCall tune default give install remove fund bill serve sread swrite contained
syntax match labFirst "^\s*\zs[a-z]\+\ze\(\s\|$\)" contains=labSetup,labEvent,labCall
syntax keyword labKind steps records locks graft acct cell queue cache pol
syntax match labNumber "\<\(0x\x\+\|\d\+\)\>"
syntax match labHex "\<\x\{16,}\>"

" What is wanted: its codes, and the star for a number that doesn't matter.
syntax match labWanted "\(^\|\s\)=\s.*$" contains=labCode,labStar,labDrop,labRemark
syntax match labCode "\<\([SELCAG]\d\{1,2}\)\>" contained
syntax keyword labDrop drop contained
syntax match labStar "\*" contained

" Grafts: assembler text, or the graft language.
syntax region labGraft matchgroup=labBlock start="^graft\s\+\S\+\(\s\+keep\)\=\s*$" end="^\s*end\s*$" contains=labOperation,labRegister,labCallable,labLabel,labTarget,labNumber,labRemark
syntax region labLanguage matchgroup=labBlock start="^graft\s\+\S\+\s\+language\>.*$" end="^\s*end\s*$" contains=labWord,labCallable,labNumber,labArgument,labRemark
syntax keyword labOperation li mov add sub mul and or xor shl shr divu remu sltu addi andi contained
syntax keyword labOperation ldw stw ldb stb jmp jz jnz call callr trap ret contained
syntax keyword labCallable cell_get cell_set nice_get nice_set window_get window_set contained
syntax keyword labCallable frames_mine frame_at frame_block frame_mark tune_get tune_set contained
syntax keyword labCallable take_lock ask_ra ask_victim ask_sched contained
syntax match labRegister "\<r\(1[0-5]\|\d\)\>" contained
syntax match labLabel "\<[a-z][a-z0-9_]*:" contained
syntax match labTarget "@\d\+" contained
syntax keyword labWord if else while trap answer contained
syntax match labArgument "\<a[0-3]\>" contained

syntax match labRemark "\(^\|\s\)\zs#.*$"

highlight default link labSetup PreProc
highlight default link labEvent Statement
highlight default link labCall Function
highlight default link labKind Type
highlight default link labNumber Number
highlight default link labHex Number
highlight default link labWanted String
highlight default link labCode Error
highlight default link labDrop Error
highlight default link labStar Special
highlight default link labBlock Structure
highlight default link labOperation Keyword
highlight default link labRegister Identifier
highlight default link labCallable Function
highlight default link labLabel Label
highlight default link labTarget Label
highlight default link labWord Keyword
highlight default link labArgument Identifier
highlight default link labRemark Comment

let b:current_syntax = "lab"
