# Completion of the words of asterix and asterix-why. Made by tools/completion/make from tools/commands.
function __asterix_wants_file
    set -l words (commandline -opc)
    set -l at (math (count $words) - 1)
    set -l shape
    test $at -ge 1; or return 1
    switch $words[2]
        case check
            set shape SPEC
        case canon
            set shape SPEC...
        case show
            set shape SPEC...
        case text
            set shape SPEC...
        case build
            set shape SPEC...
        case filter
            set shape EXPR SPEC...
        case migrate
            set shape OLD NEW
        case trial
            set shape SPEC SEED COUNT
        case salvage
            set shape SPEC...
        case expand
            set shape SPEC EXPANSION
        case convert
            set shape OLD NEW
    end
    test (count $shape) -gt 0; or return 1
    # What ends with three dots may come any number of times.
    if test $at -gt (count $shape); and string match -q '*...' -- $shape[-1]
        set at (count $shape)
    end
    test $at -le (count $shape); and string match -qr '^(SPEC|OLD|NEW|EXPANSION)' -- $shape[$at]
end
for program in asterix asterix-why
    complete -c $program -f
    complete -c $program -n __asterix_wants_file -F
    complete -c $program -n '__fish_is_nth_token 1' -a --help -d 'tell the shapes of the commands'
    complete -c $program -n '__fish_is_nth_token 1' -a --version -d 'tell the version'
    complete -c $program -n '__fish_is_nth_token 1' -a check -d 'say whether a category file is sound, and print it in one line'
    complete -c $program -n '__fish_is_nth_token 1' -a canon -d 'write each block in the fewest octets that spell its records'
    complete -c $program -n '__fish_is_nth_token 1' -a show -d 'list the blocks, their records and elements, a line each'
    complete -c $program -n '__fish_is_nth_token 1' -a text -d 'write each block as a line of text'
    complete -c $program -n '__fish_is_nth_token 1' -a build -d 'make blocks of such lines'
    complete -c $program -n '__fish_is_nth_token 1' -a filter -d 'write the records of which an expression holds'
    complete -c $program -n '__fish_is_nth_token 1' -a migrate -d 'write the blocks of one edition of a category in another'
    complete -c $program -n '__fish_is_nth_token 1' -a trial -d 'make blocks from a seed and count them'
    complete -c $program -n '__fish_is_nth_token 1' -a salvage -d 'write the sound blocks as they came, and tell each damaged one'
    complete -c $program -n '__fish_is_nth_token 1' -a expand -d 'tell what stands in the RE of each record, by an expansion file'
    complete -c $program -n '__fish_is_nth_token 1' -a convert -d 'write the blocks of one edition of a category in another, with their quantities converted'
end
