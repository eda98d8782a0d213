" Vim compiler of fault scripts: after `:compiler hwp`, `:make` leads to where hwp refuses the script (docs/TOOLS.md). It takes the
" hwp-lint of the repository that this file stands in, or else the one on the PATH.

if exists("current_compiler")
  finish
endif
let current_compiler = "hwp"

let s:lint = fnamemodify(resolve(expand("<sfile>:p")), ":h:h:h:h") . "/bin/hwp-lint"
if !executable(s:lint)
  let s:lint = "hwp-lint"
endif

execute "CompilerSet makeprg=" . escape(shellescape(s:lint) . " %:S", ' \|"')
CompilerSet errorformat=%f:%l:%c:\ %m
