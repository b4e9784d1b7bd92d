" Comments of templates begin with a hash and a blank.
setlocal commentstring=#\ %s comments=:#
compiler pan
" `gggqG` lays the file out; where it has a fault, `u` brings it back, and `:%!pan format -` says why.
setlocal formatprg=pan\ format\ -
let b:undo_ftplugin = 'setlocal commentstring< comments< makeprg< errorformat< formatprg<'
