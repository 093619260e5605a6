# Completion of acsub for fish.
function __acsub_placed
    # How many words belong to no option and no redirection; true where they are as many as asked.
    set -l words (commandline -opc)
    # The file of a redirection is one of the words.
    set -l files (commandline -cp | string match -ra '[<>]\s*[^\s<>]+\s')
    set -l placed (math 0 - (count $files))
    set -l skip 0
    for word in $words[2..-1]
        if test $skip = 1
            set skip 0
        else if contains -- $word -e --pattern -r --replacement --with --kind --engine --pairs --dense-depth
            set skip 1
        else if not string match -q -- '-*' $word
            set placed (math $placed + 1)
        end
    end
    test $placed = $argv[1]
end
complete -c acsub -f
complete -c acsub -n '__acsub_placed 0' -a replace -d 'The input, with each match replaced'
complete -c acsub -n '__acsub_placed 0' -a list -d 'A line for each match'
complete -c acsub -n '__acsub_placed 0' -a overlap -d 'A line for each occurrence'
complete -c acsub -n '__acsub_placed 0' -a mask -d 'The input, with each occurrence masked'
complete -c acsub -n 'not __acsub_placed 0' -F
complete -c acsub -l text -d 'Read the rule file as plain text'
complete -c acsub -l escapes -d 'Read escapes in rules of plain text'
complete -c acsub -s e -l pattern -x -d 'Search for this pattern, in the place of a rule file'
complete -c acsub -s r -l replacement -x -d 'Replace that pattern by this'
complete -c acsub -s i -l in-place -d 'Rewrite each file'
complete -c acsub -l count -d 'Write how many matches there were'
complete -c acsub -l fail-if-none -d 'End with status 1 where nothing matched'
complete -c acsub -l check -d 'Report on the rules, and read no input'
complete -c acsub -l progress -d 'Show how far it has come'
complete -c acsub -l stream -d 'Write while reading under every kind'
complete -c acsub -l word -d 'Count only whole words'
complete -c acsub -l with -x -d 'Mask with this byte'
complete -c acsub -l kind -x -a 'standard leftmost-first leftmost-longest' -d 'Which of several matches is taken'
complete -c acsub -l fold -d 'Match ASCII letters in either case'
complete -c acsub -l pairs -x -d 'Match the two bytes of each pair'
complete -c acsub -l engine -x -a 'auto noncontiguous contiguous dfa packed' -d 'What searches'
complete -c acsub -l no-prefilter -d 'Search without a prefilter'
complete -c acsub -l dense-depth -x -d 'Give states less deep a row of transitions'
complete -c acsub -l no-byte-classes -d 'Give each byte a class of its own'
complete -c acsub -s h -l help -d 'Print help'
complete -c acsub -s V -l version -d 'Print the version'
