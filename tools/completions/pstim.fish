# Completion of pstim's words for fish: put it into ~/.config/fish/completions/.

function __pstim_command
    set -l words (commandline -opc)
    test (count $words) -ge 2; and contains -- $words[2] $argv
end

function __pstim_roots
    set -l sources (string match -- '*.pss' (commandline -opc))
    test (count $sources) -eq 0; and set sources *.pss
    awk '{ gsub(/\/\/.*/, ""); gsub(/[{};]/, " & "); count = split($0, part, /[ \t]+/)
        for (at = 1; at < count; at++) {
            if (part[at] == "component") component = part[at + 1]
            if (part[at] == "action" && part[at - 1] != "abstract") print "root=" component "::" part[at + 1]
        } }' $sources 2>/dev/null
end

complete -c pstim -f
complete -c pstim -n 'test (count (commandline -opc)) -eq 1' -a run -d 'find the first legal scenario, run it and print its trace'
complete -c pstim -n 'test (count (commandline -opc)) -eq 1' -a solve -d 'print the first legal scenario'
complete -c pstim -n 'test (count (commandline -opc)) -eq 1' -a check -d 'judge a trace against the scenario'
complete -c pstim -n 'test (count (commandline -opc)) -eq 1' -a gen -d 'run a generated model and print counts'
complete -c pstim -n 'test (count (commandline -opc)) -eq 1' -a 'static place sweep'
complete -c pstim -n '__pstim_command run solve check static place sweep' -a '(__pstim_roots)' -d root
complete -c pstim -n '__pstim_command run solve check static place sweep' -k -a '(__fish_complete_suffix .pss)'
complete -c pstim -n '__pstim_command run solve check gen static place' -a 'seed=' -d 'order of scenarios'
complete -c pstim -n '__pstim_command run solve check static place sweep' -a 'infer=(seq 0 8)' -d 'inferred actions at most'
complete -c pstim -n '__pstim_command run solve check static place sweep' -a 'budget=' -d 'partial scenarios at most'
complete -c pstim -n '__pstim_command run gen' -a 'lanes=(seq 1 16)' -d lanes
complete -c pstim -n '__pstim_command static' -a 'over=(seq 1 16)' -d lanes
complete -c pstim -n '__pstim_command check' -a 'trace=' -d 'file of a trace'
complete -c pstim -n '__pstim_command gen' -a 'size=' -d 'number of actions'
complete -c pstim -n '__pstim_command place' -a 'space= base='
complete -c pstim -n '__pstim_command sweep' -a 'count= first='
