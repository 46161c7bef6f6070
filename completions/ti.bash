# Completion for bash of ti, and of the everyday tools ti-tic, ti-infocmp, ti-tput, ti-clear,
# ti-toe, ti-tabs, ti-tset, ti-reset, ti-fmt and ti-lint: options, terminal names from the places
# of entries, capability names, and files.

# The capabilities of terminfo(5), booleans, numbers and strings, in the order of the tables.
_ti_capabilities='
    bw am xsb xhp xenl eo gn hc km hs in da db mir msgr os eslok xt hz ul xon nxon mc5i
    chts nrrmc npc ndscr ccc bce hls xhpa crxm daisy xvpa sam cpix lpix OTbs OTns OTnc OTMT
    OTNL OTpt OTxr cols it lines lm xmc pb vt wsl nlab lh lw ma wnum colors pairs ncv bufsz
    spinv spinh maddr mjump mcs mls npins orc orl orhi orvi cps widcs btns bitwin bitype
    OTug OTdC OTdN OTdB OTdT OTkn cbt bel cr csr tbc clear el ed hpa cmdch cup cud1 home
    civis cub1 mrcup cnorm cuf1 ll cuu1 cvvis dch1 dl1 dsl hd smacs blink bold smcup smdc
    dim smir invis prot rev smso smul ech rmacs sgr0 rmcup rmdc rmir rmso rmul flash ff fsl
    is1 is2 is3 if ich1 il1 ip kbs ktbc kclr kctab kdch1 kdl1 kcud1 krmir kel ked kf0 kf1
    kf10 kf2 kf3 kf4 kf5 kf6 kf7 kf8 kf9 khome kich1 kil1 kcub1 kll knp kpp kcuf1 kind kri
    khts kcuu1 rmkx smkx lf0 lf1 lf10 lf2 lf3 lf4 lf5 lf6 lf7 lf8 lf9 rmm smm nel pad dch
    dl cud ich indn il cub cuf rin cuu pfkey pfloc pfx mc0 mc4 mc5 rep rs1 rs2 rs3 rf rc
    vpa sc ind ri sgr hts wind ht tsl uc hu iprog ka1 ka3 kb2 kc1 kc3 mc5p rmp acsc pln
    kcbt smxon rmxon smam rmam xonc xoffc enacs smln rmln kbeg kcan kclo kcmd kcpy kcrt
    kend kent kext kfnd khlp kmrk kmsg kmov knxt kopn kopt kprv kprt krdo kref krfr krpl
    krst kres ksav kspd kund kBEG kCAN kCMD kCPY kCRT kDC kDL kslt kEND kEOL kEXT kFND kHLP
    kHOM kIC kLFT kMSG kMOV kNXT kOPT kPRV kPRT kRDO kRPL kRIT kRES kSAV kSPD kUND rfi kf11
    kf12 kf13 kf14 kf15 kf16 kf17 kf18 kf19 kf20 kf21 kf22 kf23 kf24 kf25 kf26 kf27 kf28
    kf29 kf30 kf31 kf32 kf33 kf34 kf35 kf36 kf37 kf38 kf39 kf40 kf41 kf42 kf43 kf44 kf45
    kf46 kf47 kf48 kf49 kf50 kf51 kf52 kf53 kf54 kf55 kf56 kf57 kf58 kf59 kf60 kf61 kf62
    kf63 el1 mgc smgl smgr fln sclk dclk rmclk cwin wingo hup dial qdial tone pulse hook
    pause wait u0 u1 u2 u3 u4 u5 u6 u7 u8 u9 op oc initc initp scp setf setb cpi lpi chr
    cvr defc swidm sdrfq sitm slm smicm snlq snrmq sshm ssubm ssupm sum rwidm ritm rlm
    rmicm rshm rsubm rsupm rum mhpa mcud1 mcub1 mcuf1 mvpa mcuu1 porder mcud mcub mcuf mcuu
    scs smgb smgbp smglp smgrp smgt smgtp sbim scsd rbim rcsd subcs supcs docr zerom csnm
    kmous minfo reqmp getm setaf setab pfxl devt csin s0ds s1ds s2ds s3ds smglr smgtb birep
    binel bicr colornm defbi endbi setcolor slines dispc smpch rmpch smsc rmsc pctrm scesc
    scesa ehhlm elhlm elohlm erhlm ethlm evhlm sgr1 slength OTi2 OTrs OTnl OTbc OTko OTma
    OTG2 OTG3 OTG1 OTG4 OTGR OTGL OTGU OTGD OTGH OTGV OTGC meml memu box1
'

# Puts the directories in which entries are looked for, in their order, into `places`.
_ti_places() {
    local rest system=(/usr/share/terminfo)
    places=()
    [[ -z ${TERMINFO-} ]] || places+=("$TERMINFO")
    if [[ -n $everyday ]]; then
        [[ -z ${HOME-} ]] || places+=("$HOME/.terminfo")
        system=(/etc/terminfo /lib/terminfo /usr/share/terminfo)
    fi
    if [[ -n ${TERMINFO_DIRS+set} ]]; then
        rest=$TERMINFO_DIRS:
        while [[ -n $rest ]]; do
            if [[ $rest == :* ]]; then
                places+=("${system[@]}")
            else
                places+=("${rest%%:*}")
            fi
            rest=${rest#*:}
        done
    fi
    places+=("${system[@]}")
}

# Adds the terminals of these directories whose names begin with `current`. The everyday tools know
# directories that are named in hexadecimal too.
_ti_terminals() {
    local place path
    for place; do
        for path in "$place"/?/"$current"* ${everyday:+"$place"/[0-9a-f][0-9a-f]/"$current"*}; do
            [[ ! -f $path ]] || COMPREPLY+=("${path##*/}")
        done
    done
}

# Adds those of the words given that begin with `current`.
_ti_words() {
    local word
    for word; do
        [[ $word != "$current"* ]] || COMPREPLY+=("$word")
    done
}

_ti_files() {
    local path
    compopt -o filenames 2>/dev/null
    while IFS= read -r path; do
        COMPREPLY+=("$path")
    done < <(compgen "$1" -- "$current")
}

# Adds these options, and those that every tool of its kind has.
_ti_options() {
    _ti_words "$@" -h --help
    [[ -z $everyday ]] || _ti_words -V --version
}

_ti_tic() {
    # options without a value may be in one word with one that has a value, as in -xo
    if [[ $previous =~ ^-[csx]*o$ ]]; then
        _ti_files -d
    elif [[ -n $everyday && $previous =~ ^-[csx]*e$ ]]; then
        return
    elif [[ $current != -* ]]; then
        _ti_files -f
    elif [[ -n $everyday ]]; then
        _ti_options -c -s -x -e -o -D
    else
        _ti_options -c -o
    fi
}

_ti_infocmp() {
    local places at first_place='' other_place='' names=0
    for ((at = begin; at < COMP_CWORD; at++)); do
        case ${COMP_WORDS[at]} in
            -A) first_place=${COMP_WORDS[++at]} ;;
            -B) other_place=${COMP_WORDS[++at]} ;;
            -w | -s) ((at++)) ;;
            -*) ;;
            *) ((names++)) ;;
        esac
    done
    case $previous in
        -A | -B) _ti_files -d ;;
        -s) _ti_words d i ;;
        -w) ;;
        *)
            if [[ $current == -* ]]; then
                [[ -z $everyday ]] || _ti_words -x -C -r -T -E -e -0 -D
                _ti_options -I -d -c -n -u -1 -w -s -A -B
                return
            fi
            # a name of ti-infocmp with a slash is a path
            if [[ -n $everyday && $current == */* ]]; then
                _ti_files -f
                return
            fi
            _ti_places
            if ((names == 0)) && [[ -n $first_place ]]; then
                places=("$first_place")
            elif ((names > 0)) && [[ -n $other_place ]]; then
                places=("$other_place")
            fi
            _ti_terminals "${places[@]}"
            ;;
    esac
}

_ti_tput() {
    local places at keep=${everyday:+-x}
    case $previous in
        -T)
            _ti_places
            _ti_terminals "${places[@]}"
            return
            ;;
        --rate) return ;;
    esac
    for ((at = begin; at < COMP_CWORD; at++)); do
        case ${COMP_WORDS[at]} in
            -T | --rate)
                ((at++))
                [[ ${COMP_WORDS[at]-} != = ]] || ((at++))
                ;;
            -S) _ti_options $keep -T --rate; return ;;
            -*) ;;
            *) return ;;
        esac
    done
    if [[ $current == -* ]]; then
        _ti_options $keep -T --rate -S
    else
        _ti_words longname init reset $_ti_capabilities
    fi
}

_ti_clear() {
    local places
    # options without a value may be in one word with one that has a value, as in -xT
    if [[ $previous =~ ^-x*T$ ]]; then
        _ti_places
        _ti_terminals "${places[@]}"
    elif [[ $current == -* ]]; then
        _ti_options -x -T
    fi
}

# -h of ti-toe is not help
_ti_toe() {
    if [[ $current == -* ]]; then
        _ti_words -a -h -s --help -V --version
    else
        _ti_files -d
    fi
}

# some options of ti-tabs are two letters
_ti_tabs() {
    local places
    if [[ $previous == -T ]]; then
        _ti_places
        _ti_terminals "${places[@]}"
    elif [[ $current == -* ]]; then
        _ti_options -T -d -n -a -a2 -c -c2 -c3 -f -p -s -u -0 -8
    fi
}

_ti_tset() {
    local places
    if [[ $current == -* ]]; then
        _ti_options -c -e -I -i -k -m -Q -q -r -s -w
    elif [[ $previous != -[eikm] ]]; then
        _ti_places
        _ti_terminals "${places[@]}"
    fi
}

_ti_reset() {
    _ti_tset
}

_ti_fmt() {
    if [[ $current == -* ]]; then
        _ti_options --check --keep -1 -w
    elif [[ $previous != -w ]]; then
        _ti_files -f
    fi
}

_ti_lint() {
    case $previous in
        --format) _ti_words gcc github json ;;
        --color) _ti_words always never auto ;;
        *)
            if [[ $current == -* ]]; then
                _ti_options -x --strict --fix --format --color
            else
                _ti_files -f
            fi
            ;;
    esac
}

_ti_session() {
    [[ $current != -* ]] || _ti_words -h --help
}

_ti() {
    local current=${COMP_WORDS[COMP_CWORD]} previous=${COMP_WORDS[COMP_CWORD - 1]}
    local begin=1 tool=${COMP_WORDS[0]##*/} everyday='' IFS=$' \t\n'
    COMPREPLY=()
    case $tool in
        ti-*) tool=${tool#ti-} everyday=yes ;;
        *)
            if ((COMP_CWORD == 1)); then
                _ti_words tic infocmp tput session help -h --help
                return
            fi
            begin=2 tool=${COMP_WORDS[1]}
            ;;
    esac
    case $tool in
        tic | infocmp | tput | session) "_ti_$tool" ;;
        clear | toe | tabs | tset | reset | fmt | lint) [[ -z $everyday ]] || "_ti_$tool" ;;
        help) ((COMP_CWORD > 2)) || _ti_words tic infocmp tput session ;;
    esac
    # a name may be in several places
    if ((${#COMPREPLY[@]} > 1)); then
        local -A seen=()
        local word
        local -a once=()
        for word in "${COMPREPLY[@]}"; do
            [[ -n ${seen[$word]-} ]] || once+=("$word")
            seen[$word]=1
        done
        COMPREPLY=("${once[@]}")
    fi
}

complete -F _ti ti ti-tic ti-infocmp ti-tput ti-clear ti-toe ti-tabs ti-tset ti-reset ti-fmt ti-lint
