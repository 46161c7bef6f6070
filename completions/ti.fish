# Completion for fish of ti, and of the everyday tools ti-tic, ti-infocmp, ti-tput, ti-clear,
# ti-toe, ti-tabs, ti-tset, ti-reset, ti-fmt and ti-lint: options, terminal names from the places
# of entries, capability names, and files.

# The capabilities of terminfo(5), booleans, numbers and strings, in the order of the tables.
function __ti_capabilities
    string split ' ' -- \
        'bw am xsb xhp xenl eo gn hc km hs in da db mir msgr os eslok xt hz ul xon nxon mc5i' \
        'chts nrrmc npc ndscr ccc bce hls xhpa crxm daisy xvpa sam cpix lpix OTbs OTns OTnc' \
        'OTMT OTNL OTpt OTxr cols it lines lm xmc pb vt wsl nlab lh lw ma wnum colors pairs' \
        'ncv bufsz spinv spinh maddr mjump mcs mls npins orc orl orhi orvi cps widcs btns' \
        'bitwin bitype OTug OTdC OTdN OTdB OTdT OTkn cbt bel cr csr tbc clear el ed hpa' \
        'cmdch cup cud1 home civis cub1 mrcup cnorm cuf1 ll cuu1 cvvis dch1 dl1 dsl hd smacs' \
        'blink bold smcup smdc dim smir invis prot rev smso smul ech rmacs sgr0 rmcup rmdc' \
        'rmir rmso rmul flash ff fsl is1 is2 is3 if ich1 il1 ip kbs ktbc kclr kctab kdch1' \
        'kdl1 kcud1 krmir kel ked kf0 kf1 kf10 kf2 kf3 kf4 kf5 kf6 kf7 kf8 kf9 khome kich1' \
        'kil1 kcub1 kll knp kpp kcuf1 kind kri khts kcuu1 rmkx smkx lf0 lf1 lf10 lf2 lf3 lf4' \
        'lf5 lf6 lf7 lf8 lf9 rmm smm nel pad dch dl cud ich indn il cub cuf rin cuu pfkey' \
        'pfloc pfx mc0 mc4 mc5 rep rs1 rs2 rs3 rf rc vpa sc ind ri sgr hts wind ht tsl uc hu' \
        'iprog ka1 ka3 kb2 kc1 kc3 mc5p rmp acsc pln kcbt smxon rmxon smam rmam xonc xoffc' \
        'enacs smln rmln kbeg kcan kclo kcmd kcpy kcrt kend kent kext kfnd khlp kmrk kmsg' \
        'kmov knxt kopn kopt kprv kprt krdo kref krfr krpl krst kres ksav kspd kund kBEG' \
        'kCAN kCMD kCPY kCRT kDC kDL kslt kEND kEOL kEXT kFND kHLP kHOM kIC kLFT kMSG kMOV' \
        'kNXT kOPT kPRV kPRT kRDO kRPL kRIT kRES kSAV kSPD kUND rfi kf11 kf12 kf13 kf14 kf15' \
        'kf16 kf17 kf18 kf19 kf20 kf21 kf22 kf23 kf24 kf25 kf26 kf27 kf28 kf29 kf30 kf31' \
        'kf32 kf33 kf34 kf35 kf36 kf37 kf38 kf39 kf40 kf41 kf42 kf43 kf44 kf45 kf46 kf47' \
        'kf48 kf49 kf50 kf51 kf52 kf53 kf54 kf55 kf56 kf57 kf58 kf59 kf60 kf61 kf62 kf63 el1' \
        'mgc smgl smgr fln sclk dclk rmclk cwin wingo hup dial qdial tone pulse hook pause' \
        'wait u0 u1 u2 u3 u4 u5 u6 u7 u8 u9 op oc initc initp scp setf setb cpi lpi chr cvr' \
        'defc swidm sdrfq sitm slm smicm snlq snrmq sshm ssubm ssupm sum rwidm ritm rlm' \
        'rmicm rshm rsubm rsupm rum mhpa mcud1 mcub1 mcuf1 mvpa mcuu1 porder mcud mcub mcuf' \
        'mcuu scs smgb smgbp smglp smgrp smgt smgtp sbim scsd rbim rcsd subcs supcs docr' \
        'zerom csnm kmous minfo reqmp getm setaf setab pfxl devt csin s0ds s1ds s2ds s3ds' \
        'smglr smgtb birep binel bicr colornm defbi endbi setcolor slines dispc smpch rmpch' \
        'smsc rmsc pctrm scesc scesa ehhlm elhlm elohlm erhlm ethlm evhlm sgr1 slength OTi2' \
        'OTrs OTnl OTbc OTko OTma OTG2 OTG3 OTG1 OTG4 OTGR OTGL OTGU OTGD OTGH OTGV OTGC' \
        'meml memu box1'
end

# Whether the command is an everyday tool.
function __ti_is_everyday
    set -l words (commandline -opc)
    string match -q 'ti-*' -- $words[1]
end

# The terminals of these directories, else of all in which entries are looked for. The everyday
# tools look in more, and know those that are named in hexadecimal.
function __ti_terminals
    set -l places $argv
    if not set -q places[1]
        set -l system /usr/share/terminfo
        test -n "$TERMINFO"; and set -a places $TERMINFO
        if __ti_is_everyday
            set system /etc/terminfo /lib/terminfo /usr/share/terminfo
            test -n "$HOME"; and set -a places $HOME/.terminfo
        end
        if set -q TERMINFO_DIRS
            for part in (string split -- : "$TERMINFO_DIRS")
                if test -n "$part"
                    set -a places $part
                else
                    set -a places $system
                end
            end
        end
        set -a places $system
    end
    for place in $places
        for path in $place/*/*
            test -f $path; and string split -r -m 1 -f 2 / -- $path
        end
    end
end

# Whether this tool is in the command line, as `ti TOOL` or `ti-TOOL`.
function __ti_is
    set -l words (commandline -opc)
    test "$words[1]" = ti; and test "$words[2]" = $argv[1]; and return
    test "$words[1]" = ti-$argv[1]
end

# Whether the name that is typed is a path, as one with a slash is to ti-infocmp.
function __ti_types_path
    string match -q '*/*' -- (commandline -ct)
end

# The terminals that the next name of infocmp may be: the first name's are those of -A, all others'
# those of -B.
function __ti_infocmp_names
    set -l words (commandline -opc)
    test "$words[1]" = ti; and set -e words[1]
    set -e words[1]
    set -l first
    set -l other
    set -l names 0
    while set -q words[1]
        switch $words[1]
            case -A
                set first $words[2]
                set -e words[1]
            case -B
                set other $words[2]
                set -e words[1]
            case -w -s
                set -e words[1]
            case '-*'
            case '*'
                set names (math $names + 1)
        end
        set -e words[1]
    end
    if test $names -eq 0
        __ti_terminals $first
    else
        __ti_terminals $other
    end
end

# Whether the command line of tput has neither a capability nor -S yet.
function __ti_wants_capability
    __ti_is tput; or return
    set -l words (commandline -opc)
    set -e words[1]
    test "$words[1]" = tput; and set -e words[1]
    while set -q words[1]
        switch $words[1]
            case -T --rate
                set -e words[1]
            case -S
                return 1
            case '-*'
            case '*'
                return 1
        end
        set -e words[1]
    end
end

function __ti_wants_tool
    set -l words (commandline -opc)
    test (count $words) -eq 1
end

function __ti_wants_help_of_tool
    set -l words (commandline -opc)
    test (count $words) -eq 2; and test "$words[2]" = help
end

complete -c ti -n __ti_wants_tool -f -a tic -d 'Compile terminfo source into entries'
complete -c ti -n __ti_wants_tool -f -a infocmp -d 'List and compare entries'
complete -c ti -n __ti_wants_tool -f -a tput -d 'Write what drives a terminal'
complete -c ti -n __ti_wants_tool -f -a session -d 'Edit a source by a script'
complete -c ti -n __ti_wants_tool -f -a help -d 'Print the help of a tool'
complete -c ti -n '__ti_is help' -f
complete -c ti -n __ti_wants_help_of_tool -f -a 'tic infocmp tput session'

complete -c ti -s h -l help -d 'Print help'

complete -c ti -n '__ti_is tic' -o c -d 'Check only: report, and write no file'
complete -c ti -n '__ti_is tic' -o o -x -a '(__fish_complete_directories)' -d 'Write below this directory'
complete -c ti -n '__ti_is tic' -F

complete -c ti -n '__ti_is infocmp' -f -a '(__ti_infocmp_names)'
complete -c ti -n '__ti_is infocmp' -o I -d 'List each entry'
complete -c ti -n '__ti_is infocmp' -o d -d 'Compare the first with each of the others: what differs'
complete -c ti -n '__ti_is infocmp' -o c -d 'Compare the first with each of the others: what both have'
complete -c ti -n '__ti_is infocmp' -o n -d 'Compare the first with each of the others: what neither has'
complete -c ti -n '__ti_is infocmp' -o u -d 'List the first so that it uses the others'
complete -c ti -n '__ti_is infocmp' -o 1 -d 'Give each item a line of its own'
complete -c ti -n '__ti_is infocmp' -o w -x -d 'Columns of a line, from 20 to 4096'
complete -c ti -n '__ti_is infocmp' -o s -x -a 'd i' -d 'Sort by place in the entry (d) or by name (i)'
complete -c ti -n '__ti_is infocmp' -o A -x -a '(__fish_complete_directories)' -d 'Look for the first name only there'
complete -c ti -n '__ti_is infocmp' -o B -x -a '(__fish_complete_directories)' -d 'Look for the other names only there'

complete -c ti -n __ti_wants_capability -f -a 'longname init reset (__ti_capabilities)'
complete -c ti -n '__ti_is tput' -f
complete -c ti -n '__ti_is tput' -o T -x -a '(__ti_terminals)' -d 'The terminal'
complete -c ti -n '__ti_is tput' -l rate -x -d 'Pad for a line of this many bits per second'
complete -c ti -n '__ti_is tput' -o S -d 'Read commands from standard input, one per line'

complete -c ti -n '__ti_is session' -f

for command in ti-tic ti-infocmp ti-tput ti-clear ti-fmt ti-lint
    complete -c $command -s h -l help -d 'Print help'
    complete -c $command -s V -l version -d 'Print version'
end

complete -c ti-tic -s c -d 'Check only: report, and write no file'
complete -c ti-tic -s s -d 'Print how many entries were written, and where'
complete -c ti-tic -s x -d 'Compile user-defined capabilities'
complete -c ti-tic -s e -x -d 'Write only blocks with one of these comma-separated names'
complete -c ti-tic -s o -x -a '(__fish_complete_directories)' -d 'Write below this directory'
complete -c ti-tic -s D -d 'Print the directories into which entries may be written'

complete -c ti-infocmp -f -a '(__ti_infocmp_names)'
complete -c ti-infocmp -n __ti_types_path -F
complete -c ti-infocmp -s x -d 'Include user-defined capabilities'
complete -c ti-infocmp -s I -d 'List each entry'
complete -c ti-infocmp -s d -d 'Compare the first with each of the others: what differs'
complete -c ti-infocmp -s c -d 'Compare the first with each of the others: what both have'
complete -c ti-infocmp -s n -d 'Compare the first with each of the others: what neither has'
complete -c ti-infocmp -s u -d 'List the first relative to the others'
complete -c ti-infocmp -s C -d 'List entries in the form of termcap'
complete -c ti-infocmp -s r -d 'With -C, list also what only terminfo has'
complete -c ti-infocmp -s T -d 'With -C, list entries of any length whole'
complete -c ti-infocmp -s E -d 'Print an entry as tables of C'
complete -c ti-infocmp -s e -d 'Print an entry as a structure of C'
complete -c ti-infocmp -s 0 -d 'List each entry on one line'
complete -c ti-infocmp -s 1 -d 'List each item on its own line'
complete -c ti-infocmp -s w -x -d 'Columns of a line'
complete -c ti-infocmp -s s -x -a 'd i' -d 'Sort by place in the entry (d) or by name (i)'
complete -c ti-infocmp -s D -d 'Print the directories that are searched for entries'
complete -c ti-infocmp -s A -x -a '(__fish_complete_directories)' -d 'Search only there for the first name'
complete -c ti-infocmp -s B -x -a '(__fish_complete_directories)' -d 'Search only there for the other names'

complete -c ti-tput -f
complete -c ti-tput -n __ti_wants_capability -f -a 'longname init reset (__ti_capabilities)'
complete -c ti-tput -s x -d 'Do not clear the scrollback at clear (the default)'
complete -c ti-tput -s T -x -a '(__ti_terminals)' -d 'The terminal'
complete -c ti-tput -l rate -x -d 'Pad for a line of this many bits per second'
complete -c ti-tput -s S -d 'Read commands from standard input, one per line'

complete -c ti-clear -f
complete -c ti-clear -s x -d 'Keep what has scrolled off the screen'
complete -c ti-clear -s T -x -a '(__ti_terminals)' -d 'The terminal'

complete -c ti-toe -f -a '(__fish_complete_directories)'
complete -c ti-toe -s a -d 'List all directories that are searched for entries'
complete -c ti-toe -s h -d 'Print a heading before the entries of each directory'
complete -c ti-toe -s s -d 'Sort by name; of several directories, mark which has an entry'
complete -c ti-toe -l help -d 'Print help'
complete -c ti-toe -s V -l version -d 'Print version'

complete -c ti-tabs -f
complete -c ti-tabs -s T -x -a '(__ti_terminals)' -d 'The terminal'
complete -c ti-tabs -o d -d 'Show a ruler, and where the stops are'
complete -c ti-tabs -o n -d 'Do not set anything'
complete -c ti-tabs -o a -d 'Set the stops of an assembler'
complete -c ti-tabs -o a2 -d 'Set other stops of an assembler'
complete -c ti-tabs -o c -d 'Set the stops of COBOL'
complete -c ti-tabs -o c2 -d 'Set compact stops of COBOL'
complete -c ti-tabs -o c3 -d 'Set more compact stops of COBOL'
complete -c ti-tabs -o f -d 'Set the stops of FORTRAN'
complete -c ti-tabs -o p -d 'Set the stops of PL/I'
complete -c ti-tabs -o s -d 'Set the stops of SNOBOL'
complete -c ti-tabs -o u -d 'Set the stops of the UNIVAC assembler'
complete -c ti-tabs -o 0 -d 'Set no stop'
complete -c ti-tabs -o 8 -d 'Set a stop at each eighth column'
complete -c ti-tabs -o h -l help -d 'Print help'
complete -c ti-tabs -o V -l version -d 'Print version'

complete -c ti-tset -f
complete -c ti-tset -a '(__ti_terminals)'
complete -c ti-tset -s c -d 'Set the modes of the line, and send strings to the terminal'
complete -c ti-tset -s e -x -d 'Set the character that erases'
complete -c ti-tset -s I -d 'Send no strings'
complete -c ti-tset -s i -x -d 'Set the character that interrupts'
complete -c ti-tset -s k -x -d 'Set the character that kills the line'
complete -c ti-tset -s m -x -d 'Map a type of port to a type of terminal'
complete -c ti-tset -s Q -d 'Do not report characters'
complete -c ti-tset -s q -d 'Print the name of the terminal, and set nothing'
complete -c ti-tset -s r -d 'Print the name of the terminal on standard error'
complete -c ti-tset -s s -d 'Print commands that set TERM'
complete -c ti-tset -s w -d 'Set the size of the window, if it has none'
complete -c ti-tset -s h -l help -d 'Print help'
complete -c ti-tset -s V -l version -d 'Print version'

complete -c ti-reset -f
complete -c ti-reset -a '(__ti_terminals)'
complete -c ti-reset -s c -d 'Set the modes of the line, and send strings to the terminal'
complete -c ti-reset -s e -x -d 'Set the character that erases'
complete -c ti-reset -s I -d 'Send no strings'
complete -c ti-reset -s i -x -d 'Set the character that interrupts'
complete -c ti-reset -s k -x -d 'Set the character that kills the line'
complete -c ti-reset -s m -x -d 'Map a type of port to a type of terminal'
complete -c ti-reset -s Q -d 'Do not report characters'
complete -c ti-reset -s q -d 'Print the name of the terminal, and set nothing'
complete -c ti-reset -s r -d 'Print the name of the terminal on standard error'
complete -c ti-reset -s s -d 'Print commands that set TERM'
complete -c ti-reset -s w -d 'Set the size of the window, if it has none'
complete -c ti-reset -s h -l help -d 'Print help'
complete -c ti-reset -s V -l version -d 'Print version'

complete -c ti-fmt -l check -d 'Print the names of files that would change, and write none'
complete -c ti-fmt -s 1 -d 'Write each item on its own line'
complete -c ti-fmt -l keep -d 'Keep the lines; repair white space, and break lines that are too long'
complete -c ti-fmt -s w -x -d 'Columns of a line, from 20 to 4096'

complete -c ti-lint -s x -d 'Read user-defined capabilities too'
complete -c ti-lint -l strict -d 'Exit with status 1 if there are warnings, too'
complete -c ti-lint -l fix -d 'Make the fixes that are certain'
complete -c ti-lint -l format -x -a 'gcc github json' -d 'The form of the report'
complete -c ti-lint -l color -x -a 'always never auto' -d 'When the form gcc is colored'
