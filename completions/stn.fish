# Completions of stn for fish, written by completions/write.py from the help of the program. Put it into ~/.config/fish/completions.
complete -c stn -f
complete -c stn -n __fish_use_subcommand -l help -d 'Print help'
complete -c stn -n __fish_use_subcommand -l version -d 'Print version'
complete -c stn -n __fish_use_subcommand -a run -d 'Runs the script on standard input'
complete -c stn -n __fish_use_subcommand -a bare -d 'Makes the log of a plan of STEPS steps, without bounds between them'
complete -c stn -n __fish_use_subcommand -a init -d 'Makes the log of a planner’s plan'
complete -c stn -n __fish_use_subcommand -a loosen -d 'Makes the log of a planner’s plan whose steps may end earlier or later'
complete -c stn -n __fish_use_subcommand -a add -d 'Adds a bound on the time from one event to another'
complete -c stn -n __fish_use_subcommand -a amend -d 'Replaces a record by a new bound, for good and in one step'
complete -c stn -n __fish_use_subcommand -a withdraw -d 'Withdraws a record for good'
complete -c stn -n __fish_use_subcommand -a done -d 'Records that an event took place'
complete -c stn -n __fish_use_subcommand -a merge -d 'Takes in everything in another site’s log'
complete -c stn -n __fish_use_subcommand -a guard -d 'Adds windows that make the plan hold whatever each site does within its own bounds'
complete -c stn -n __fish_use_subcommand -a report -d 'Prints each event’s window of times, or the bounds that contradict each other'
complete -c stn -n __fish_use_subcommand -a next -d 'Says which event to run next, and when'
complete -c stn -n __fish_use_subcommand -a ready -d 'Says which events may run from NOW on, and until when'
complete -c stn -n __fish_use_subcommand -a why -d 'Says which bounds hold the ends of an event’s window, or of the time between two events'
complete -c stn -n __fish_use_subcommand -a repairs -d 'Prints what mends a conflict: each record without which the others can be kept, and which to drop'
complete -c stn -n __fish_use_subcommand -a records -d 'Prints the records in the log, also those that no longer count'
complete -c stn -n __fish_use_subcommand -a steps -d 'Prints the steps of the plan: the action, the planned start and the duration of each'
complete -c stn -n __fish_use_subcommand -a bounds -d 'Prints all bounds that count, the plan’s first'
complete -c stn -n __fish_use_subcommand -a check -d 'Says whether times, one for each event, are a schedule'
complete -c stn -n __fish_use_subcommand -a rehearse -d 'Prints the rest of the plan as `next` would run it from NOW on'
complete -c stn -n __fish_use_subcommand -a draw -d 'Draws the plan as a picture (SVG): its steps and when they may run, or the conflict'
complete -c stn -n __fish_use_subcommand -a explain -d 'Says what a refusal or a fault means, and what to do about it'
complete -c stn -n __fish_use_subcommand -a shell -d 'Answers each line of standard input, a command without LOG and SITE, and an empty line after it'
complete -c stn -n __fish_use_subcommand -a serve -d 'Exchanges records with the sites that connect'
complete -c stn -n __fish_use_subcommand -a send -d 'Exchanges records with the site that serves at an address'
complete -c stn -n __fish_use_subcommand -a help -d 'Print help'
complete -c stn -n '__fish_seen_subcommand_from help' -a 'run bare init loosen add amend withdraw done merge guard report next ready why repairs records steps bounds check rehearse draw explain shell serve send'
complete -c stn -n '__fish_seen_subcommand_from run' -l help -d 'Print help'
complete -c stn -n '__fish_seen_subcommand_from bare' -F
complete -c stn -n '__fish_seen_subcommand_from bare' -l help -d 'Print help'
complete -c stn -n '__fish_seen_subcommand_from init' -F
complete -c stn -n '__fish_seen_subcommand_from init' -l help -d 'Print help'
complete -c stn -n '__fish_seen_subcommand_from loosen' -F
complete -c stn -n '__fish_seen_subcommand_from loosen' -l early -x -d 'How many seconds less than planned a step may take; 0 if not given'
complete -c stn -n '__fish_seen_subcommand_from loosen' -l late -x -d 'How many seconds more than planned a step may take; 0 if not given'
complete -c stn -n '__fish_seen_subcommand_from loosen' -l robust -d 'Bound the starts so that the plan completes however long the steps take'
complete -c stn -n '__fish_seen_subcommand_from loosen' -l help -d 'Print help'
complete -c stn -n '__fish_seen_subcommand_from add' -F
complete -c stn -n '__fish_seen_subcommand_from add' -l lo -x -d 'TO comes at least T seconds after FROM; open if not given'
complete -c stn -n '__fish_seen_subcommand_from add' -l hi -x -d 'TO comes at most T seconds after FROM; open if not given'
complete -c stn -n '__fish_seen_subcommand_from add' -l help -d 'Print help'
complete -c stn -n '__fish_seen_subcommand_from amend' -F
complete -c stn -n '__fish_seen_subcommand_from amend' -l lo -x -d 'TO comes at least T seconds after FROM; open if not given'
complete -c stn -n '__fish_seen_subcommand_from amend' -l hi -x -d 'TO comes at most T seconds after FROM; open if not given'
complete -c stn -n '__fish_seen_subcommand_from amend' -l help -d 'Print help'
complete -c stn -n '__fish_seen_subcommand_from withdraw' -F
complete -c stn -n '__fish_seen_subcommand_from withdraw' -l help -d 'Print help'
complete -c stn -n '__fish_seen_subcommand_from done' -F
complete -c stn -n '__fish_seen_subcommand_from done' -l help -d 'Print help'
complete -c stn -n '__fish_seen_subcommand_from merge' -F
complete -c stn -n '__fish_seen_subcommand_from merge' -l help -d 'Print help'
complete -c stn -n '__fish_seen_subcommand_from guard' -F
complete -c stn -n '__fish_seen_subcommand_from guard' -l own -x -d 'Steps of a site, as `2:4-6`; given once for each other site, and all other steps are SITE’s'
complete -c stn -n '__fish_seen_subcommand_from guard' -l help -d 'Print help'
complete -c stn -n '__fish_seen_subcommand_from report' -F
complete -c stn -n '__fish_seen_subcommand_from report' -l plan -r -F -d 'The file of a plan whose actions name the steps; for a bare or loosened plan'
complete -c stn -n '__fish_seen_subcommand_from report' -l names -d 'The log’s own plan names the steps; for a log of `init`'
complete -c stn -n '__fish_seen_subcommand_from report' -l help -d 'Print help'
complete -c stn -n '__fish_seen_subcommand_from next' -F
complete -c stn -n '__fish_seen_subcommand_from next' -l steps -x -d 'Only events of these steps, as `2,4-6`, count as left; all, if not given'
complete -c stn -n '__fish_seen_subcommand_from next' -l starts -d 'Only starts count as left'
complete -c stn -n '__fish_seen_subcommand_from next' -l plan -r -F -d 'The file of a plan whose actions name the steps; for a bare or loosened plan'
complete -c stn -n '__fish_seen_subcommand_from next' -l names -d 'The log’s own plan names the steps; for a log of `init`'
complete -c stn -n '__fish_seen_subcommand_from next' -l help -d 'Print help'
complete -c stn -n '__fish_seen_subcommand_from ready' -F
complete -c stn -n '__fish_seen_subcommand_from ready' -l steps -x -d 'Only events of these steps, as `2,4-6`, count as left; all, if not given'
complete -c stn -n '__fish_seen_subcommand_from ready' -l starts -d 'Only starts count as left'
complete -c stn -n '__fish_seen_subcommand_from ready' -l plan -r -F -d 'The file of a plan whose actions name the steps; for a bare or loosened plan'
complete -c stn -n '__fish_seen_subcommand_from ready' -l names -d 'The log’s own plan names the steps; for a log of `init`'
complete -c stn -n '__fish_seen_subcommand_from ready' -l help -d 'Print help'
complete -c stn -n '__fish_seen_subcommand_from why' -F
complete -c stn -n '__fish_seen_subcommand_from why' -l plan -r -F -d 'The file of a plan whose actions name the steps; for a bare or loosened plan'
complete -c stn -n '__fish_seen_subcommand_from why' -l names -d 'The log’s own plan names the steps; for a log of `init`'
complete -c stn -n '__fish_seen_subcommand_from why' -l help -d 'Print help'
complete -c stn -n '__fish_seen_subcommand_from repairs' -F
complete -c stn -n '__fish_seen_subcommand_from repairs' -l plan -r -F -d 'The file of a plan whose actions name the steps; for a bare or loosened plan'
complete -c stn -n '__fish_seen_subcommand_from repairs' -l names -d 'The log’s own plan names the steps; for a log of `init`'
complete -c stn -n '__fish_seen_subcommand_from repairs' -l help -d 'Print help'
complete -c stn -n '__fish_seen_subcommand_from records' -F
complete -c stn -n '__fish_seen_subcommand_from records' -l plan -r -F -d 'The file of a plan whose actions name the steps; for a bare or loosened plan'
complete -c stn -n '__fish_seen_subcommand_from records' -l names -d 'The log’s own plan names the steps; for a log of `init`'
complete -c stn -n '__fish_seen_subcommand_from records' -l help -d 'Print help'
complete -c stn -n '__fish_seen_subcommand_from steps' -F
complete -c stn -n '__fish_seen_subcommand_from steps' -l plan -r -F -d 'The file of a plan whose actions name the steps; for a bare or loosened plan'
complete -c stn -n '__fish_seen_subcommand_from steps' -l help -d 'Print help'
complete -c stn -n '__fish_seen_subcommand_from bounds' -F
complete -c stn -n '__fish_seen_subcommand_from bounds' -l plan -r -F -d 'The file of a plan whose actions name the steps; for a bare or loosened plan'
complete -c stn -n '__fish_seen_subcommand_from bounds' -l names -d 'The log’s own plan names the steps; for a log of `init`'
complete -c stn -n '__fish_seen_subcommand_from bounds' -l help -d 'Print help'
complete -c stn -n '__fish_seen_subcommand_from check' -F
complete -c stn -n '__fish_seen_subcommand_from check' -l help -d 'Print help'
complete -c stn -n '__fish_seen_subcommand_from rehearse' -F
complete -c stn -n '__fish_seen_subcommand_from rehearse' -l steps -x -d 'Only events of these steps, as `2,4-6`, count as left; all, if not given'
complete -c stn -n '__fish_seen_subcommand_from rehearse' -l starts -d 'Only starts count as left'
complete -c stn -n '__fish_seen_subcommand_from rehearse' -l plan -r -F -d 'The file of a plan whose actions name the steps; for a bare or loosened plan'
complete -c stn -n '__fish_seen_subcommand_from rehearse' -l names -d 'The log’s own plan names the steps; for a log of `init`'
complete -c stn -n '__fish_seen_subcommand_from rehearse' -l help -d 'Print help'
complete -c stn -n '__fish_seen_subcommand_from draw' -F
complete -c stn -n '__fish_seen_subcommand_from draw' -l now -x -d 'The time now: all that is left comes at T or later; not shown, if not given'
complete -c stn -n '__fish_seen_subcommand_from draw' -l arrows -x -d 'Whether arrows lead to each start from what holds it back: `yes`, if not given, or `no`'
complete -c stn -n '__fish_seen_subcommand_from draw' -l plan -r -F -d 'The file of a plan whose actions name the steps; for a bare or loosened plan'
complete -c stn -n '__fish_seen_subcommand_from draw' -l own -x -d 'Steps of a site, as `2:4-6`, which get the site’s colour and number; given once for each site'
complete -c stn -n '__fish_seen_subcommand_from draw' -l help -d 'Print help'
complete -c stn -n '__fish_seen_subcommand_from explain' -l help -d 'Print help'
complete -c stn -n '__fish_seen_subcommand_from shell' -F
complete -c stn -n '__fish_seen_subcommand_from shell' -l help -d 'Print help'
complete -c stn -n '__fish_seen_subcommand_from serve' -F
complete -c stn -n '__fish_seen_subcommand_from serve' -l seconds -x -d 'How many seconds a session may take, from 1 to 3600; 60 if not given'
complete -c stn -n '__fish_seen_subcommand_from serve' -l help -d 'Print help'
complete -c stn -n '__fish_seen_subcommand_from send' -F
complete -c stn -n '__fish_seen_subcommand_from send' -l seconds -x -d 'How many seconds the exchange may take, from 1 to 3600; 60 if not given'
complete -c stn -n '__fish_seen_subcommand_from send' -l help -d 'Print help'
