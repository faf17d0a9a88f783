" Listings of code (docs/CODE.md, "Listing"): lines of a source, and operations.
if exists("b:current_syntax")
    finish
endif

runtime! syntax/loft.vim
unlet b:current_syntax

syntax match listingInvalid "//.*"
syntax match listingHeader "^loft-listing 1$"

" An operation has its number, its place and its depth first.
syntax match listingLabel "^\d\+\ze \h\w* \d\+ "
syntax match listingStop "\(^\d\+ \h\w* \d\+ \)\@<=@\d\+\ze "
syntax match listingControl "\(^\d\+ \h\w* \d\+ \)\@<=\(branch\|turn\|jump\)\ze \d"
syntax match listingControl "\(^\d\+ \h\w* \d\+ \)\@<=count\ze [^=]"
syntax match listingControl "\(^\d\+ \h\w* \d\+ \)\@<=enter$"
syntax match listingLabel "\(^\d\+ \h\w* \d\+ \(branch\|turn\|jump\) \)\@<=\d\+"

highlight default link listingHeader PreProc
highlight default link listingLabel Label
highlight default link listingStop Special
highlight default link listingControl Conditional
highlight default link listingInvalid Error

let b:current_syntax = "loftlisting"
