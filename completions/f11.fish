# Completes the words of f11 in fish. docs/list_words writes this file from the help of the program.

complete -c f11 -l limit -x -d 'Accept at most N requests, 1 to 65536. Default: 4096'
complete -c f11 -l stamp -x -d 'The date and time of new files, DDMMMYYHHMMSS. Default: 01JAN80000000'
complete -c f11 -l out -r -F -d 'Write the image to FILE at the end. FILE may be IMAGE'
complete -c f11 -l header -x -d 'Print the line of header N, 1 to 16, and mount nothing'
complete -c f11 -s h -l help -d 'Print help'
complete -c f11 -s V -l version -d 'Print version'
