# Completion of naga_judge in fish.
complete -c naga_judge -l explain -d 'List what is refused, and say why'
complete -c naga_judge -l json -d 'Write the verdict as JSON, on one line'
complete -c naga_judge -l json-lines -d 'Read one document a line, and write the verdict of each as JSON on a line'
complete -c naga_judge -s q -l quiet -d 'Write no verdict'
complete -c naga_judge -s h -l help -d 'Write what the options are'
complete -c naga_judge -s V -l version -d 'Write the version'
