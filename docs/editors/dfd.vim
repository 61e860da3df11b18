" Vim syntax file for programs of dfd, files *.dfd.
" To use it, copy it to ~/.vim/syntax/dfd.vim, and put this line into ~/.vimrc, below `syntax on`:
"   autocmd BufRead,BufNewFile *.dfd set filetype=dfd

if exists('b:current_syntax')
  finish
endif
syntax case match
" How commands that comment lines out write a comment.
setlocal commentstring=#\ %s

syntax keyword dfdFunction fn return call
syntax keyword dfdConditional if else
syntax keyword dfdRepeat while
syntax keyword dfdDeclaration let alloc
syntax keyword dfdParallel par and
syntax keyword dfdSplit split at into
syntax keyword dfdOwnership use own free
syntax keyword dfdBuiltin len print

syntax match dfdFunctionName /\(\<fn\s\+\)\@<=[A-Za-z_][A-Za-z0-9_]*/
syntax match dfdOperator /[-+*\/%<>=]\|[<>=!]=/
syntax match dfdNumber /\<[0-9]\+\>/
" Not a token: digits directly followed by a letter, and a name of more than 32 bytes.
syntax match dfdBadToken /\<[0-9]\+[A-Za-z_][A-Za-z0-9_]*\|\<[A-Za-z_][A-Za-z0-9_]\{32,}/
syntax match dfdComment /#.*$/

highlight default link dfdFunction Keyword
highlight default link dfdConditional Conditional
highlight default link dfdRepeat Repeat
highlight default link dfdDeclaration Type
highlight default link dfdParallel Statement
highlight default link dfdSplit Statement
highlight default link dfdOwnership StorageClass
highlight default link dfdBuiltin Function
highlight default link dfdFunctionName Identifier
highlight default link dfdOperator Operator
highlight default link dfdNumber Number
highlight default link dfdBadToken Error
highlight default link dfdComment Comment

let b:current_syntax = 'dfd'
