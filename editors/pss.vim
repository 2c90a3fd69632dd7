" Colours for sources of portable stimulus; copy it to syntax/pss.vim below ~/.vim or ~/.config/nvim.
if exists("b:current_syntax")
  finish
endif
syntax keyword pssDeclaration component action buffer stream state resource enum function pool constraint activity exec body
syntax keyword pssModifier abstract rand import target input output lock share bind unique in
syntax keyword pssControl if else repeat foreach match default select do with parallel schedule sequence join_branch join_none join_select
syntax keyword pssType int bit bool void
syntax keyword pssConstant true false
syntax keyword pssSpecial prev initial instance_id
syntax keyword pssLeftOut array as assert atomic bins break chandle class compile const continue covergroup coverpoint cross declaration disable dist dynamic export extend file float32 float64 forall has header iff ignore_bins illegal_bins init init_down init_up inout instance join_first list map null override package post_solve pre_body pre_solve private protected public pure randomize ref replicate return run_end run_start set solve static string struct super symbol this type typedef while yield
syntax match pssNumber /\<\(0x[0-9A-Fa-f]\+\|0\|[1-9][0-9]*\)\>/
syntax match pssComment "//.*$" contains=@Spell
syntax region pssComment start="/\*" end="\*/" contains=@Spell
highlight default link pssDeclaration Structure
highlight default link pssModifier StorageClass
highlight default link pssControl Statement
highlight default link pssType Type
highlight default link pssConstant Boolean
highlight default link pssSpecial Identifier
highlight default link pssLeftOut Error
highlight default link pssNumber Number
highlight default link pssComment Comment
setlocal commentstring=//\ %s
let b:current_syntax = "pss"
