" Syntax of jobs, for Vim: copy this to ~/.vim/syntax/romp801.vim, and put this into ~/.vimrc:
"     autocmd BufRead,BufNewFile *.job setfiletype romp801
" The mnemonics are those of docs/FORMATS.md, "Rows", the directives those of "Assembler".
if exists("b:current_syntax")
    finish
endif
syntax case match
syntax iskeyword @,48-57,_,.
syntax keyword romp801Mnemonic a abs ae aei ai ais bala balax bali balix balr balrx bb bbr bbrx bbx bnb bnbr bnbrx bnbx c cal cas cau ci cis
syntax keyword romp801Mnemonic cl cli clrbl clrbu dec exts inc jb jnb l lc lcs lh lha lhas lhs lis lm ls n nilo nilz niuo niuz o oil oiu onec
syntax keyword romp801Mnemonic s sar sari16 sari se setbl setbu sf sfi sis sl sli16 sli sr sri16 sri st stc stcs sth sths stm sts svc tgte ti
syntax keyword romp801Mnemonic tlt twoc x xil xiu
syntax keyword romp801Directive .word .half .byte .space .window .entry .export .part
syntax keyword romp801Condition pz lt eq gt c0 ov
syntax keyword romp801Right r rw
syntax keyword romp801Line frames program schedule begin turn drain checkpoint crash end
syntax match romp801Register "\<r\(1[0-5]\|[0-9]\)\>"
syntax match romp801Number "\<\(0x[0-9A-Fa-f]\+\|[0-9]\+\)\>"
syntax match romp801Label "^\s*[A-Za-z_][A-Za-z0-9_]*\ze\s*:"
syntax match romp801Comment ";.*$"

highlight default link romp801Mnemonic Statement
highlight default link romp801Directive PreProc
highlight default link romp801Condition Type
highlight default link romp801Right Type
highlight default link romp801Line Keyword
highlight default link romp801Register Identifier
highlight default link romp801Number Number
highlight default link romp801Label Label
highlight default link romp801Comment Comment

let b:current_syntax = "romp801"
