" Colours for sources of Ocelot.
if exists("b:current_syntax")
  finish
endif

syntax keyword ocelotDeclaration sensor port nv fn let mut
syntax keyword ocelotConditional if else
syntax keyword ocelotRepeat for in while bound
syntax keyword ocelotStatement return emit sense atomic
syntax keyword ocelotAnnotation Fresh Consistent
syntax keyword ocelotType i32 bool
syntax keyword ocelotBoolean true false
syntax match ocelotNumber /\<[0-9][0-9_]*\>/
syntax match ocelotFunction /\%(\<fn\s\+\)\@<=[A-Za-z_][A-Za-z0-9_]*/
syntax keyword ocelotTodo TODO contained
syntax match ocelotComment +//.*$+ contains=ocelotTodo,@Spell
" What Rust has and the language doesn't.
syntax match ocelotError /[-+*\/%]=\|++\|--\|\.\.=\|'\|"/

highlight default link ocelotDeclaration Keyword
highlight default link ocelotConditional Conditional
highlight default link ocelotRepeat Repeat
highlight default link ocelotStatement Statement
highlight default link ocelotAnnotation PreProc
highlight default link ocelotType Type
highlight default link ocelotBoolean Boolean
highlight default link ocelotNumber Number
highlight default link ocelotFunction Function
highlight default link ocelotTodo Todo
highlight default link ocelotComment Comment
highlight default link ocelotError Error

let b:current_syntax = "ocelot"
