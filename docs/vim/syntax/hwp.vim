" Vim syntax of fault scripts (docs/FORMATS.md). Copy docs/vim/ftdetect and docs/vim/syntax into ~/.vim, or add docs/vim to
" 'runtimepath'. What hwp would refuse by its first word, by a tab, or by a kind of step that is none, is shown as an error.

if exists("b:current_syntax")
  finish
endif

" a word that no line begins with, until one of the matches below takes it
syntax match hwpError /^ *\zs[^ #][^ ]*/
syntax match hwpError /^ \+\zs#.*/
syntax match hwpError /\t/

syntax match hwpComment /^#.*/

syntax match hwpDeclaration /^ *\zs\%(hwp\|cpus\|frames\|kernel\|recovery\|early\|file\|proc\|thread\|page\|trans\|cow\|guest\)\ze\%( \|$\)/
syntax match hwpList /^ *\zs\%(cpu\|end\)\ze\%( \|$\)/

" accesses; commands on pages, files and policies; commands by which memory fails, is tested and is taken back
syntax match hwpCommand /^ *\zs\%(load\|store\|fetch\|kload\)\ze\%( \|$\)/
syntax match hwpCommand /^ *\zs\%(free\|drop\|sync\|out\|fsync\|open\|prctl\|fork\)\ze\%( \|$\)/
syntax match hwpFailure /^ *\zs\%(bad\|weak\|scrub\|log\|raise\|inject\|soft\|unpoison\|watch\)\ze\%( \|$\)/

syntax match hwpWord / \zs\%(handler\|nohandler\|anon\|file\|fill\|locked\|user\|kernel\|nested\)\ze\%( \|$\)/
syntax match hwpNumber / \zs\%(0\|[1-9]\d*\)\ze\%( \|$\)/
syntax match hwpNumber / \zs0x\x\{1,16}\ze\%( \|$\)/

" the words of a schedule: C, C. and C@KIND
syntax region hwpSchedule matchgroup=hwpList start=/^ *schedule\ze / end=/$/ contains=hwpTurn,hwpBadTurn
syntax match hwpBadTurn /[^ ]\+/ contained
syntax match hwpTurn /\<\%(0\|[1-9]\d*\)\.\?\ze\%( \|$\)/ contained
syntax match hwpTurn /\<\%(0\|[1-9]\d*\)@\%(load_\%(pte\|cache\|frame\|avail\|free\|bad\|proc\|policy\|stop\|count\)\|reserve\|take_bit\|give_bit\|unreserve\|adopt\|get_ref\|put_ref\|lock_frame\|unlock_frame\|retire\|revive\|set_owner\|lock_page\|unlock_page\|set_pte\|set_cache\|poison\|count_poison\|uncount\|spoil\|stop\|give_up\|kill\|set_policy\|lose\|report_lost\)\ze\%( \|$\)/ contained

highlight default link hwpComment Comment
highlight default link hwpDeclaration Type
highlight default link hwpList Keyword
highlight default link hwpCommand Statement
highlight default link hwpFailure Special
highlight default link hwpWord Constant
highlight default link hwpNumber Number
highlight default link hwpTurn Identifier
highlight default link hwpBadTurn Error
highlight default link hwpError Error

let b:current_syntax = "hwp"
