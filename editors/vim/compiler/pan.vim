" `:make SOURCE OUT` builds a site, and `:cwindow` lists its faults at their places.
let current_compiler = 'pan'
CompilerSet makeprg=pan\ --quiet\ --format\ gcc\ build\ $*
CompilerSet errorformat=%f:%l:%c:\ %trror:\ %m,%f:%l:%c:\ %tote:\ %m
