" The syntax of keyboard sources. docs/LANGUAGE.md of Curlewmetal describes the language.
if exists("b:current_syntax")
  finish
endif

let s:save_cpo = &cpo
set cpo&vim

syntax case ignore
" A word is a run of characters without blanks, quotes and symbols.
syntax iskeyword 35-38,42,45-60,63,64,65-90,92,94-255

" Quotes and parentheses. A quote ends on its line, and what comes after an open one is marked as an error.
syntax match kmnOpenQuote "['"].*$"
syntax match kmnText "'[^']*'"
syntax match kmnText '"[^"]*"'
syntax region kmnParentheses matchgroup=kmnSymbol start="(" end=")" oneline transparent
      \ contains=kmnText,kmnNumber,kmnBadNumber,kmnSymbol,kmnSystemStore,kmnOldStore,kmnUnsupported,kmnNoStore,kmnOpenQuote
syntax match kmnSymbol "[>+=,]\|!="
syntax match kmnContinuation "\\\s*$"

" Characters: U+00E9, d233, xE9 and 351. The letters `d` and `x` are lower case.
syntax match kmnBadNumber "\<U+\x\k*"
syntax match kmnBadNumber "\<[0-9]\k*"
syntax match kmnNumber "\<U+\x\{4,6}\>"
syntax match kmnNumber "\C\<d\d\+\>"
syntax match kmnNumber "\C\<x\x\+\>"
syntax match kmnNumber "\<\o\+\>"
" Offsets are decimal.
syntax match kmnNumber "\<\d\{1,9}\ze\s*)"

" Statements. They are only statements as the first word of a line, maybe after a prefix for this product.
syntax match kmnStatement "\%(^\s*\%($keyman\%(only\)\=:\s*\)\=\)\@<=\%(store\|begin\|group\|match\|nomatch\)\>"
syntax match kmnStatement "\<using\s\+keys\>"
syntax match kmnBegin "\%(\<begin\s\+\)\@<=\%(unicode\|ansi\)\>"

" Items.
syntax match kmnItem "\<\%(any\|notany\|index\|context\|outs\|use\|if\|set\|save\|reset\|nul\|beep\|return\|layer\|platform\)\>"
syntax match kmnItem "$\k\+"
syntax match kmnDeadkey "\<\%(dk\|deadkey\)\s*([^()]*)"
syntax match kmnBadItem "\<\%(call\|switch\|clearcontext\|fix\|baselayout\)\>"

" System stores: those that the compiler reads, those that it drops, those that it does not support, and other names after `store(`.
syntax match kmnNoStore "\%(\<store\s*(\s*\)\@<=&\k\+" contained
syntax match kmnSystemStore "&\%(bitmap\|copyright\|hotkey\|keyboardversion\|layoutfile\|message\|mnemoniclayout\)\>" contained
syntax match kmnSystemStore "&\%(name\|targets\|version\|visualkeyboard\|casedkeys\|layer\|platform\)\>" contained
syntax match kmnNoStore "\%(\<store\s*(\s*\)\@<=&\%(layer\|platform\)\>" contained
syntax match kmnOldStore "&\%(ethnologuecode\|windowslanguages\|language\|layout\|languagename\|displaymap\)\>" contained
syntax match kmnOldStore "&\%(kmw_rtl\|kmw_helpfile\|kmw_helptext\|kmw_embedjs\|kmw_embedcss\)\>" contained
syntax match kmnUnsupported "&\%(includecodes\|capsalwaysoff\|capsononly\|shiftfreescaps\)\>" contained

" Virtual keys: modifiers and one key name in brackets.
syntax region kmnKey matchgroup=kmnSymbol start="\[" end="\]" oneline contains=kmnNoKey,kmnModifier,kmnKeyName,kmnCustomKey
syntax match kmnNoKey "\k\+" contained
syntax match kmnModifier "\<\%(LCTRL\|RCTRL\|CTRL\|LALT\|RALT\|ALT\|SHIFT\|CAPS\|NCAPS\)\>" contained
syntax match kmnKeyName "\<K_\%([A-Z]\|[0-9]\|BKSP\|TAB\|ENTER\|ESC\|SPACE\|PGUP\|PGDN\|END\|HOME\|LEFT\|UP\|RIGHT\|DOWN\)\>" contained
syntax match kmnKeyName "\<K_\%(INS\|DEL\|NP[0-9]\|NPSTAR\|NPPLUS\|NPMINUS\|NPDOT\|NPSLASH\|F[1-9]\|F1[0-2]\)\>" contained
syntax match kmnKeyName "\<K_\%(COLON\|EQUAL\|COMMA\|HYPHEN\|PERIOD\|SLASH\|BKQUOTE\|LBRKT\|BKSLASH\|RBRKT\|QUOTE\|oE2\)\>" contained
syntax match kmnCustomKey "\<T_\k\+" contained
syntax match kmnCustomKey "\<U_\x\{4,6}\%(_\x\{4,6}\)*\>" contained

" Lines for other products, and comments: a `c` after a blank or at the start of a line, and before a blank or the end of the line.
syntax match kmnPrefix "\%(^\s*\)\@<=$keyman\%(only\)\=:"
syntax match kmnSkipped "\%(^\s*\)\@<=$\%(keymanweb\|kmfl\):.*$"
syntax match kmnComment "\%(^\|\s\)\@1<=c\%(\s.*\)\=$" contains=@Spell

highlight default link kmnComment Comment
highlight default link kmnSkipped Comment
highlight default link kmnPrefix PreProc
highlight default link kmnStatement Statement
highlight default link kmnBegin Type
highlight default link kmnItem Function
highlight default link kmnDeadkey Special
highlight default link kmnText String
highlight default link kmnNumber Number
highlight default link kmnSymbol Operator
highlight default link kmnContinuation Special
highlight default link kmnNoKey Error
highlight default link kmnModifier Type
highlight default link kmnKeyName Constant
highlight default link kmnCustomKey Identifier
highlight default link kmnSystemStore Identifier
highlight default link kmnOldStore PreProc
highlight default link kmnBadItem Error
highlight default link kmnUnsupported Error
highlight default link kmnNoStore Error
highlight default link kmnBadNumber Error
highlight default link kmnOpenQuote Error

let b:current_syntax = "kmn"

let &cpo = s:save_cpo
unlet s:save_cpo
