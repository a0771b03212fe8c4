# SPDX-License-Identifier: Apache-2.0
# Completion of sercos and sercos_rings for fish: the commands, and the numbers of gen and replay.
function __sercos_words_before
    set -l words (commandline -opc)
    string match -v -- -- $words[2..-1]
end

function __sercos_begins
    set -l before (__sercos_words_before)
    test -z "$before"
end

function __sercos_wants_number
    set -l before (__sercos_words_before)
    test "$before" = gen
end

function __sercos_wants_address
    set -l before (__sercos_words_before)
    test "$before" = replay
end

complete -c sercos -f
complete -c sercos -n __sercos_begins -a show -d 'read the bits of frames, and write what they say'
complete -c sercos -n __sercos_begins -a plan -d 'read a ring document, and write the plan of its time slots'
complete -c sercos -n __sercos_begins -a margin -d 'read a ring document, and write how far the times of its drives can go'
complete -c sercos -n __sercos_begins -a run -d 'read a ring document, and write the trace of its run'
complete -c sercos -n __sercos_begins -a check -d 'read a trace, and write whether its telegrams keep the rules'
complete -c sercos -n __sercos_begins -a backup -d 'read a ring document, and write the data of the blocks on the backup lists of its drives'
complete -c sercos -n __sercos_begins -a restore -d 'read a ring document that writes data, and write what its drives then have'
complete -c sercos -n __sercos_begins -a gen -d 'run a generated ring, and write its totals'
complete -c sercos -n __sercos_begins -a replay -d 'read a ring document and a capture, and write where an end first differs'
complete -c sercos -n __sercos_wants_number -k -a '(seq 64)' -d 'number of drives'
complete -c sercos -n __sercos_wants_address -k -a '(seq 0 254)' -d 'address of a drive, or 0 for the master'
complete -c sercos_rings -f
complete -c sercos_rings -n __sercos_begins -a run -d 'read several ring documents, and write the trace of their runs by moments'
