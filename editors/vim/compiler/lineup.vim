" Compiler file for lineup: `:make` certifies the file and lists what is found; `:make --lint` and `:make --check` do less.
" The options of `lineup certify` come after `--`, as in `:make -- --nodes 1000`.
" It runs `lineup findings` (scripts/findings) of the clone or tarball that this file is in or that a link to it leads to, else of
" the `lineup` on the path. Set g:lineup_program to run another.
if exists('current_compiler')
  finish
endif
let current_compiler = 'lineup'
let s:cpo_save = &cpo
set cpo&vim
if exists(':CompilerSet') != 2
  command -nargs=* CompilerSet setlocal <args>
endif

let s:beside = fnamemodify(resolve(expand('<sfile>:p')), ':h:h:h:h')
if exists('g:lineup_program')
  let s:program = g:lineup_program
elseif executable(s:beside . '/lineup') && filereadable(s:beside . '/scripts/findings')
  let s:program = s:beside . '/lineup'
else
  let s:program = 'lineup'
endif
execute 'CompilerSet makeprg=' . escape(shellescape(s:program, 1) . ' findings gcc %:S', ' \|"')
" (the last one is what `lineup` says where the program is not proved)
CompilerSet errorformat=
      \%f:%l:\ %trror:\ %m,
      \%f:%l:\ %tarning:\ %m,
      \%f:%l:\ %tote:\ %m,
      \%-Glineup:\ this\ program\ is\ not\ proved\ yet%.%#

let &cpo = s:cpo_save
unlet s:cpo_save s:beside s:program
