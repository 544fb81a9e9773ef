# What fish completes after rtcm2rinex-network: its commands, their options as the first lines of their helps name them, the stations of
# the table, and files.

function __rtcm2rinex_network_commands
    rtcm2rinex-network --help 2>/dev/null | string replace -rf '^  ' ''
end

function __rtcm2rinex_network_options
    set -l command (commandline -opc)[2]
    rtcm2rinex-network $command --help 2>/dev/null | string match -r "^ *network/$command .*" | string match -ar -- '--[a-z]+(?:=[0-9A-Z]+)?'
end

function __rtcm2rinex_network_stations
    rtcm2rinex-network table --rows 2>/dev/null | string replace -r '\t.*' ''
end

complete -c rtcm2rinex-network -l help -d 'Tell more'
complete -c rtcm2rinex-network -n __fish_use_subcommand -f -a '(__rtcm2rinex_network_commands)'
complete -c rtcm2rinex-network -n 'not __fish_use_subcommand' -a '(__rtcm2rinex_network_options)'
complete -c rtcm2rinex-network -n 'not __fish_use_subcommand' -a '(__rtcm2rinex_network_stations)'
