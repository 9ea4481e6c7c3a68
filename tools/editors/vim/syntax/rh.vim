" Syntax of recordings and their reports. Written by tools/terminal_files.py.
if exists("b:current_syntax")
  finish
endif
syntax case match
syntax match rhHeader /^\%(rh 1 direct\|rh 1 roles\)$/
syntax match rhLine /^\%(break\|close\|end\|give\|move\|open\|recycle\|send\|set\|settle\|take\|tick\)\>/
syntax match rhKey /\%(^set \)\@<=\%(cwin\|iwin\|owin\|swin\|ilife\|olife\|itime\|otime\|keep\|same\)\>/
syntax match rhLeg /\<\%(cs\|\%(co\|os\|ci\|is\)[1-9]\d*\)\>/
syntax match rhNumber /\<\d\+\>/
syntax match rhHex /\<\%(\x\x\)\{8,}\>/
syntax keyword rhAnswer ok no bad full empty pdu ended closed closing quiet spent given taken up down client server opening in out busy notopen last
syntax match rhComment /#.*$/
highlight default link rhHeader PreProc
highlight default link rhLine Statement
highlight default link rhKey Type
highlight default link rhLeg Identifier
highlight default link rhNumber Number
highlight default link rhHex String
highlight default link rhAnswer Constant
highlight default link rhComment Comment
let b:current_syntax = "rh"
