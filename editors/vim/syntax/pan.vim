" Vim syntax of Pan, the configuration language of Quattor. Made by editors/make.py: change the table there.
if exists("b:current_syntax")
  finish
endif
syn case match
syn iskeyword a-z,A-Z,48-57,_

" Words of the language, and names that have a meaning of their own.
syn keyword panHeader object structure unique declaration
syn keyword panStatement final variable function type bind valid include prefix
syn keyword panTypeWord with extensible choice
syn keyword panConditional if else
syn keyword panLoop while for foreach
syn keyword panConstant true false undef null
syn keyword panHeader template nextgroup=panName skipwhite skipempty
syn keyword panAutomatic SELF OBJECT TEMPLATE FUNCTION ARGC ARGV
syn match panBasicType /\<\%(string\|long\|boolean\|number\|property\|resource\|element\|list\|dict\|nlist\)\>/
syn match panFunction /\<\%(append\|base64_decode\|base64_encode\|clone\|create\|debug\|delete\|deprecated\|dict\|digest\|error\|escape\|exists\|file_contents\|file_exists\|format\|if_exists\|index\|ip4_to_long\|is_boolean\|is_defined\|is_dict\|is_list\|is_long\|is_nlist\|is_null\|is_number\|is_property\|is_resource\|is_string\|join\|json_decode\|json_encode\|key\|length\|list\|long_to_ip4\|match\|matches\|merge\|nlist\|path_exists\|prepend\|replace\|return\|splice\|split\|substr\|to_boolean\|to_long\|to_lowercase\|to_string\|to_uppercase\|traceback\|unescape\|value\)\ze\_s*(/

" Signs.
syn match panOperator /\~/
syn match panBracket /}/
syn match panOperator /|/
syn match panBracket /{/
syn match panOperator /\^/
syn match panBracket /\]/
syn match panBracket /\[/
syn match panSeparator /?/
syn match panOperator />/
syn match panAssignment /=/
syn match panOperator /</
syn match panSeparator /;/
syn match panSeparator /:/
syn match panOperator /\//
syn match panOperator /-/
syn match panSeparator /,/
syn match panOperator /+/
syn match panOperator /\*/
syn match panBracket /)/
syn match panBracket /(/
syn match panOperator /&/
syn match panOperator /%/
syn match panOperator /!/
syn match panOperator /||/
syn match panAssignment /?=/
syn match panOperator />=/
syn match panOperator /==/
syn match panOperator /<=/
syn match panOperator /\.\./
syn match panOperator /&&/
syn match panOperator /!=/

" The name behind `template`, numbers, texts, here-documents, annotations and comments.
syn match panName contained /[A-Za-z0-9_.+\/-]\+/
syn match panNumber /\<\%(0x\x\+\|\d\+\)\>/
syn match panMistake /\<\d\+\%(\.\.\@!\|[eE]\)[0-9.]*/
syn region panText matchgroup=panText start=/'/ skip=/''/ end=/'/ contains=panQuote
syn match panQuote contained /''/
syn region panText matchgroup=panText start=/"/ skip=/\\./ end=/"/ contains=panWrongEscape,panEscape
syn match panWrongEscape contained /\\./
syn match panEscape contained /\\\%([ntrfb"\\]\|x\x\x\)/
syn region panText start=/<<\z(\h\w*\);[ \t]*\r\?$/ end=/^\z1\r\?$/ contains=panHereEnd
syn match panHereEnd contained /\%(<<\h\w*\)\@<=;/
syn region panAnnotation start=/@\w*[ \t]*{/ end=/}/
syn match panComment /#.*$/ contains=@Spell
syn sync fromstart

" How each class is shown.
hi def link panHeader Structure
hi def link panStatement Statement
hi def link panTypeWord StorageClass
hi def link panConditional Conditional
hi def link panLoop Repeat
hi def link panConstant Constant
hi def link panAutomatic Special
hi def link panBasicType Type
hi def link panFunction Function
hi def link panBracket Delimiter
hi def link panSeparator Delimiter
hi def link panAssignment Operator
hi def link panOperator Operator
hi def link panName Identifier
hi def link panNumber Number
hi def link panText String
hi def link panEscape SpecialChar
hi def link panComment Comment
hi def link panAnnotation PreProc
hi def link panMistake Error
hi def link panQuote panEscape
hi def link panWrongEscape panMistake
hi def link panHereEnd panSeparator

let b:current_syntax = "pan"
