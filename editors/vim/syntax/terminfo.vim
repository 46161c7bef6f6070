" Terminfo source: head lines, items, the parts of strings, and errors of their spelling.
" The names of capabilities are not listed: the language server ti-lsp knows them.
if exists('b:current_syntax')
  finish
endif
let s:cpo_save = &cpo
set cpo&vim

" A later line wins over an earlier one where both begin at the same place.
syn match terminfoComma /,/
" the items of a line
syn match terminfoCapability /[^ \t,#=.][^,#=]*/ nextgroup=terminfoNumber,terminfoString,terminfoFormat
syn match terminfoCancelled /[^ \t,#=.][^,#=]*@\s*\ze\%(,\|$\)/ contains=terminfoCancel
syn match terminfoCancel /@/ contained
syn match terminfoUse /\<use\ze=/ nextgroup=terminfoUsed
syn match terminfoUsed /=[^,]*/ contained contains=terminfoEquals
syn match terminfoEquals /=/ contained
syn region terminfoDisabled start=/\%(^\s\+\|,\s*\)\@<=\./ skip=/\\.\|%\@1<!\^[^,]/ end=/,/me=s-1 end=/^[^ \t#]/me=s-1
  \ contains=terminfoComment

" a comment that does not begin in the first column is an item
syn match terminfoBadComment /\%(^\s\+\|,\s*\)\@<=#[^,]*/

" numbers: hexadecimal, octal, decimal, or none
syn match terminfoNumber /#[^,]*/ contained contains=terminfoHash,terminfoBadNumber,terminfoGoodNumber
syn match terminfoBadNumber /#\@1<=[^,]\+/ contained
syn match terminfoGoodNumber /#\@1<=\%(0[xX]\x\+\|0\o*\|[1-9]\d*\)\s*\%(,\|$\)\@=/ contained
syn match terminfoHash /#/ contained

" strings, and among them formats, which take parameters: only there a `%` always begins a code
syn region terminfoString matchgroup=terminfoEquals start=/=/ matchgroup=NONE end=/,/me=s-1 end=/^[^ \t#]/me=s-1
  \ contained contains=terminfoComment,@terminfoPieces
syn region terminfoFormat matchgroup=terminfoEquals start=/=\%(\%(\^\\\|\\.\|[^,\\^]\|\^\\\@!\)*%p[1-9]\)\@=/
  \ matchgroup=NONE end=/,/me=s-1 end=/^[^ \t#]/me=s-1
  \ contained contains=terminfoComment,terminfoBadCode,@terminfoPieces
syn cluster terminfoPieces contains=terminfoBadEscape,terminfoEscape,terminfoCode,terminfoCondition,terminfoPadding

" an escape or a control of which nothing can come; at the end of a line it may go on in the next
syn match terminfoBadEscape /\\[^Eenlrtbfsa^\\,:0-7]/ contained
syn match terminfoBadEscape /\\[4-7]\o\o/ contained
syn match terminfoBadEscape /%\@1<!\^\%(,\@=\|[^ -~]\)/ contained
syn match terminfoEscape /\\[Eenlrtbfsa^\\,:]/ contained
syn match terminfoEscape /\\\%([0-3]\o\{,2}\|[4-7]\o\?\o\@!\)/ contained
syn match terminfoEscape /%\@1<!\^[ -+\--~]/ contained

" an unknown code, unless the line ends in it
syn match terminfoBadCode /%\%(\%('\\\?.\?\|{\d*\|[pPg]\|:\?[-+# ]*\d*\%(\.\d*\)\?\)$\)\@![^\\,]\?/ contained
syn match terminfoCode /%\%(:[-+# ]*\|[# ]*\)\d*\%(\.\d*\)\?[doxXs]/ contained
syn match terminfoCode "%[%clmAOi+*/&|=><!~^-]" contained
syn match terminfoCode /%p[1-9]\|%[Pg]\a\|%{\d\+}/ contained
syn match terminfoCode /%'\%(\\\%(\o\{1,3}\|.\)\|\^.\|[^\\^]\)'/ contained
syn match terminfoCondition /%[?te;]/ contained
syn match terminfoPadding "\$<\d\{1,5}\%(\.\d\)\?\%(\*/\?\|/\*\?\)\?>" contained

" head lines and comments
syn match terminfoHead /^[^ \t#,|][^,]*/ contains=terminfoBar,terminfoDescription
syn match terminfoBar /|/ contained
syn match terminfoDescription /|\@1<=[^|,]*\%(,\|$\)\@=/ contained
syn match terminfoComment /^#.*/ contains=terminfoTodo,@Spell
syn keyword terminfoTodo contained TODO FIXME XXX

" an entry begins at its head line
syn sync match terminfoSync grouphere NONE /^[^ \t#]/
syn sync maxlines=1000

hi def link terminfoComment Comment
hi def link terminfoDisabled Comment
hi def link terminfoTodo Todo
hi def link terminfoHead Function
hi def link terminfoDescription Title
hi def link terminfoBar Delimiter
hi def link terminfoComma Delimiter
hi def link terminfoEquals Operator
hi def link terminfoHash Operator
hi def link terminfoCancel Operator
hi def link terminfoCapability Identifier
hi def link terminfoCancelled Identifier
hi def link terminfoUse Keyword
hi def link terminfoUsed Function
hi def link terminfoGoodNumber Number
hi def link terminfoString String
hi def link terminfoFormat String
hi def link terminfoEscape SpecialChar
hi def link terminfoCode Special
hi def link terminfoCondition Conditional
hi def link terminfoPadding PreProc
hi def link terminfoBadComment Error
hi def link terminfoBadNumber Error
hi def link terminfoBadEscape Error
hi def link terminfoBadCode Error

let b:current_syntax = 'terminfo'
let &cpo = s:cpo_save
unlet s:cpo_save
