" Vim syntax file
" Language: the assembly language of mmachine (docs/ASSEMBLER.md)
"
" A line is an optional label and an optional statement. Labels, operations, directives and the names of segments and targets are told by their
" places, so a segment may be named `full` or `r1`. A name that is no statement, and a byte that begins no token, are errors.

if exists('b:current_syntax')
  finish
endif

syntax case match

" Tokens in the places of operands. Of two that match at one place the later one is taken.
syntax match mmasmError /[^ \t\r]/
syntax match mmasmName /\h\w*/
syntax match mmasmCondition /\%(any\|full\|empty\|keep\|retry\|skip\|kill\)\w\@!/
syntax match mmasmRegister /r\%(1[0-5]\|\d\)\w\@!/
syntax match mmasmNumber /0x\x\+\|-\?\d\+/
syntax match mmasmNumber /'\%(\\x\x\x\|\\.\|[^'\\]\)'/
syntax match mmasmSign /[,:+]/
syntax match mmasmComment /;.*/ contains=mmasmTodo,@Spell
syntax keyword mmasmTodo contained TODO FIXME XXX

" The beginning of a line: a label, and then a statement.
syntax match mmasmBegin /^/ nextgroup=mmasmComment,mmasmLabel,@mmasmStatement skipwhite
syntax match mmasmColon /:/ contained nextgroup=mmasmComment,@mmasmStatement skipwhite
syntax cluster mmasmStatement contains=mmasmUnknown,mmasmOperation,mmasmBranch,mmasmBranchIf,mmasmDirective,mmasmEmpty,mmasmPtr,mmasmSegment,mmasmThread,mmasmReg
syntax match mmasmUnknown /\.\?\h\w*/ contained

syntax match mmasmOperation /\%(halt\|nop\|ldi\|ldhi\|mov\|isptr\|eqw\|out\|self\)\w\@!/ contained
syntax match mmasmOperation /\%(add\|sub\|mul\|divu\|remu\|and\|or\|xor\|shl\|shr\|sar\|eq\|ltu\|lts\|addi\)\w\@!/ contained
syntax match mmasmOperation /\%(lea\|leai\|leab\|restrict\|subseg\|setptr\)\w\@!/ contained
syntax match mmasmOperation /\%(ld\|st\)\w\@!/ contained
syntax match mmasmBranch /br\w\@!/ contained nextgroup=mmasmTarget skipwhite
syntax match mmasmBranchIf /\%(bz\|bnz\|lip\)\w\@!/ contained nextgroup=mmasmTested skipwhite
syntax match mmasmTested /r\%(1[0-5]\|\d\)\w\@!/ contained nextgroup=mmasmComma skipwhite
syntax match mmasmComma /,/ contained nextgroup=mmasmTarget skipwhite
syntax match mmasmOperation /\%(jmp\|jal\)\w\@!/ contained
syntax match mmasmOperation /\%(trap\|evt\|resume\|rreg\|wreg\|map\|unmap\)\w\@!/ contained

syntax match mmasmDirective /\.\%(spare\|int\|fill\)\w\@!/ contained
syntax match mmasmDirective /\.asciiz\?\w\@!/ contained nextgroup=mmasmText skipwhite
syntax match mmasmText /"\%(\\.\|[^"\\]\)*"/ contained
syntax match mmasmEmpty /\.empty\w\@!/ contained nextgroup=mmasmUnknown,mmasmOperation,mmasmBranch,mmasmBranchIf,mmasmWord,mmasmPtr skipwhite
syntax match mmasmWord /\.int\w\@!/ contained

" A pointer is a permission and a target.
syntax match mmasmPtr /\.ptr\w\@!/ contained nextgroup=mmasmPermission skipwhite
syntax match mmasmPermission /\%(ro\|rw\|xu\|xp\|eu\|ep\|key\)\w\@!/ contained nextgroup=mmasmTarget skipwhite
syntax match mmasmTarget /\h\w*/ contained

syntax match mmasmSegment /\.segment\w\@!/ contained nextgroup=mmasmSegmentName skipwhite
syntax match mmasmSegmentName /\h\w*/ contained

" A thread is a slot, a group, a handler, a permission and a target.
syntax match mmasmThread /\.thread\w\@!/ contained nextgroup=mmasmSlot skipwhite
syntax match mmasmSlot /0x\x\+\|-\?\d\+/ contained nextgroup=mmasmGroup skipwhite
syntax match mmasmGroup /0x\x\+\|-\?\d\+/ contained nextgroup=mmasmHandler,mmasmNone skipwhite
syntax match mmasmHandler /0x\x\+\|-\?\d\+/ contained nextgroup=mmasmPermission skipwhite
syntax match mmasmNone /none\w\@!/ contained nextgroup=mmasmPermission skipwhite

" A register of a thread is its number, and an integer or a pointer.
syntax match mmasmReg /\.reg\w\@!/ contained nextgroup=mmasmIndex skipwhite
syntax match mmasmIndex /0x\x\+\|-\?\d\+/ contained nextgroup=mmasmInt,mmasmPointer skipwhite
syntax match mmasmInt /int\w\@!/ contained
syntax match mmasmPointer /ptr\w\@!/ contained nextgroup=mmasmPermission skipwhite

" A name with a colon behind it is a label, whatever else it may be.
syntax match mmasmLabel /\h\w*\ze\s*:/ contained nextgroup=mmasmColon skipwhite

highlight default link mmasmComment Comment
highlight default link mmasmText String
highlight default link mmasmTodo Todo
highlight default link mmasmLabel Label
highlight default link mmasmColon Delimiter
highlight default link mmasmSign Delimiter
highlight default link mmasmComma Delimiter
highlight default link mmasmOperation Statement
highlight default link mmasmBranch Statement
highlight default link mmasmBranchIf Statement
highlight default link mmasmDirective PreProc
highlight default link mmasmEmpty PreProc
highlight default link mmasmWord PreProc
highlight default link mmasmPtr PreProc
highlight default link mmasmSegment PreProc
highlight default link mmasmThread PreProc
highlight default link mmasmReg PreProc
highlight default link mmasmSegmentName Function
highlight default link mmasmTarget Identifier
highlight default link mmasmName Identifier
highlight default link mmasmRegister Special
highlight default link mmasmTested Special
highlight default link mmasmNumber Number
highlight default link mmasmSlot Number
highlight default link mmasmGroup Number
highlight default link mmasmHandler Number
highlight default link mmasmIndex Number
highlight default link mmasmPermission StorageClass
highlight default link mmasmCondition Constant
highlight default link mmasmNone Constant
highlight default link mmasmInt Type
highlight default link mmasmPointer Type
highlight default link mmasmUnknown Error
highlight default link mmasmError Error

let b:current_syntax = 'mmasm'
