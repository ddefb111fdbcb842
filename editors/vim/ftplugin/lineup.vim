" Sources and bundles of lineup: `#` begins a comment, and `:make` is of compiler/lineup.vim.
if exists('b:did_ftplugin')
  finish
endif
let b:did_ftplugin = 1
setlocal comments=:# commentstring=#\ %s formatoptions-=t formatoptions+=croql
compiler lineup
let b:undo_ftplugin = 'setlocal comments< commentstring< formatoptions< makeprg< errorformat< | unlet! b:current_compiler'
