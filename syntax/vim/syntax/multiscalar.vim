" Program texts of multiscalar.
if exists('b:current_syntax')
  finish
endif

syntax case match
syntax match multiscalarLabel /^\s*\zs[A-Za-z_][A-Za-z0-9_]*\ze\s*:/
syntax match multiscalarDirective /\.\(task\|start\|text\|data\|rodata\|word\|byte\|space\)\>/
syntax match multiscalarClause /\<\(create\|targets\)\ze\s*=/
syntax match multiscalarRegister /$[A-Za-z0-9_]\+/
syntax match multiscalarNumber /\<-\?\(0x[0-9A-Fa-f]\+\|[0-9]\+\)\>/
syntax match multiscalarPlace /@[0-9]\+/
syntax match multiscalarMark /!\(f\|s\|st\|sn\)\>/
syntax match multiscalarComment /#.*$/
syntax keyword multiscalarInstruction addu subu and or xor nor slt sltu sll srl sra sllv srlv srav addiu slti sltiu andi ori xori lui mult multu mfhi mflo mthi mtlo lw lh lhu lb lbu sw sh sb beq bne blez bgtz bltz bgez j jal jr jalr out release halt nop move li la

highlight default link multiscalarLabel Label
highlight default link multiscalarDirective PreProc
highlight default link multiscalarClause Keyword
highlight default link multiscalarRegister Identifier
highlight default link multiscalarNumber Number
highlight default link multiscalarPlace Number
highlight default link multiscalarMark Special
highlight default link multiscalarComment Comment
highlight default link multiscalarInstruction Statement

let b:current_syntax = 'multiscalar'
