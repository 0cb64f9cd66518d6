" Vim syntax file
" Language: assembly texts of ABC files, as `abc dis` writes and `abc asm` reads them
" Filenames: *.abcasm

if exists("b:current_syntax")
  finish
endif

syntax case match
syntax iskeyword @,48-57,_
setlocal commentstring=;\ %s

" the first token of a line: a line word, an instruction or a label
syntax match abcasmHead "^[ \t\r]*[A-Za-z_][A-Za-z0-9_]*" contains=abcasmLine,abcasmBranch,abcasmInstruction
syntax keyword abcasmLine contained abc int uint double string ns set name method param option pname metadata
syntax keyword abcasmLine contained item instance protected implements iinit trait tmeta class script body
syntax keyword abcasmLine contained catch
syntax keyword abcasmBranch contained ifeq iffalse ifge ifgt ifle iflt ifne ifnge ifngt ifnle ifnlt ifstricteq
syntax keyword abcasmBranch contained ifstrictne iftrue jump lookupswitch
syntax keyword abcasmInstruction contained add add_i applytype astype astypelate bitand bitnot bitor bitxor
syntax keyword abcasmInstruction contained call callmethod callproperty callproplex callpropvoid callstatic
syntax keyword abcasmInstruction contained callsuper callsupervoid checkfilter coerce coerce_a coerce_s
syntax keyword abcasmInstruction contained construct constructprop constructsuper convert_b convert_d
syntax keyword abcasmInstruction contained convert_i convert_o convert_s convert_u debug debugfile debugline
syntax keyword abcasmInstruction contained declocal declocal_i decrement decrement_i deleteproperty divide dup
syntax keyword abcasmInstruction contained dxns dxnslate equals esc_xattr esc_xelem findproperty
syntax keyword abcasmInstruction contained findpropstrict getdescendants getglobalscope getglobalslot getlex
syntax keyword abcasmInstruction contained getlocal getlocal_0 getlocal_1 getlocal_2 getlocal_3 getproperty
syntax keyword abcasmInstruction contained getscopeobject getslot getsuper greaterequals greaterthan hasnext
syntax keyword abcasmInstruction contained hasnext2 in inclocal inclocal_i increment increment_i initproperty
syntax keyword abcasmInstruction contained instanceof istype istypelate kill label lessequals lessthan lshift
syntax keyword abcasmInstruction contained modulo multiply multiply_i negate negate_i newactivation newarray
syntax keyword abcasmInstruction contained newcatch newclass newfunction newobject nextname nextvalue nop not
syntax keyword abcasmInstruction contained pop popscope pushbyte pushdouble pushfalse pushint pushnamespace
syntax keyword abcasmInstruction contained pushnan pushnull pushscope pushshort pushstring pushtrue pushuint
syntax keyword abcasmInstruction contained pushundefined pushwith returnvalue returnvoid rshift setglobalslot
syntax keyword abcasmInstruction contained setlocal setlocal_0 setlocal_1 setlocal_2 setlocal_3 setproperty
syntax keyword abcasmInstruction contained setslot setsuper strictequals subtract subtract_i swap throw typeof
syntax keyword abcasmInstruction contained urshift
syntax match abcasmLabel "^[ \t\r]*[A-Za-z_][A-Za-z0-9_]*:"

" operands
syntax keyword abcasmKind Private Namespace Package PackageInternal Protected Explicit StaticProtected QName
syntax keyword abcasmKind QNameA RTQName RTQNameA RTQNameL RTQNameLA Multiname MultinameA MultinameL
syntax keyword abcasmKind MultinameLA TypeName Undefined Utf8 Int UInt Double False True Null
syntax match abcasmTrait "\(^[ \t\r]*trait[ \t\r]\+\)\@<=\(slot\|const\|method\|getter\|setter\|class\|function\)\>"
syntax match abcasmNumber "\<\(0\|[1-9][0-9]*\)\>"
syntax match abcasmNumber "-[1-9][0-9]*\>"
syntax match abcasmDouble "\<[0-9a-fA-F]\{16}\>"

" quoted texts: `\` and two hexadecimal digits stand for a byte, and a text ends on its line
syntax region abcasmText start=+"+ end=+"+ oneline contains=abcasmEscape,abcasmBadEscape
syntax match abcasmBadEscape +\\+ contained
syntax match abcasmEscape "\\[0-9a-fA-F]\{2}" contained

syntax match abcasmComment ";.*$"

highlight default link abcasmLine Statement
highlight default link abcasmBranch Conditional
highlight default link abcasmInstruction Function
highlight default link abcasmLabel Label
highlight default link abcasmKind Type
highlight default link abcasmTrait StorageClass
highlight default link abcasmNumber Number
highlight default link abcasmDouble Float
highlight default link abcasmText String
highlight default link abcasmEscape SpecialChar
highlight default link abcasmBadEscape Error
highlight default link abcasmComment Comment

let b:current_syntax = "abcasm"
