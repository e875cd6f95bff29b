" :compiler comet, and then :make runs the program in the buffer and goes to the place of its message. Options of the
" command line, as `--data p.data`, stand in g:comet_options.
if exists('current_compiler')
  finish
endif
let current_compiler = 'comet'

let s:run = expand('<sfile>:p:h:h:h') . '/comet-here'
if !executable(s:run)
  let s:run = 'comet-here'
endif
execute 'CompilerSet makeprg=' . escape(shellescape(s:run) . ' ' . get(g:, 'comet_options', '') . ' %:S', ' |\"')
CompilerSet errorformat=%f:%l:%c:\ %m
