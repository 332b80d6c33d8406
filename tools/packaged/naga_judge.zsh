#compdef naga_judge
_arguments \
    '(--json --json-lines)--explain[list what is refused, and say why]' \
    '(--explain --json-lines)--json[write the verdict as JSON, on one line]' \
    '(--explain --json)--json-lines[read one document a line, and write the verdict of each as JSON on a line]' \
    '(- *)'{-h,--help}'[write what the options are]' \
    '(- *)'{-V,--version}'[write the version]' \
    '(-q --quiet)'{-q,--quiet}'[write no verdict]' \
    '*:document:_files'
