#!/bin/bash
# Runs the program orc. If a source is newer than the program, it first proves and builds it. The first time that takes long. Meanwhile this script
# shows a preview, what the unproved program answers. As soon as the check of journals is proved, it has that check judge the journal that the
# unproved program wrote of a run, and gives the run's proved answer. `--no-preview` as the first word, or ORC_PREVIEW=0, turns both off.
set -eu
top=$(cd "$(dirname "$(readlink -f "$0")")" && pwd)
program=$top/crates/orc/out/orc
# The program that checks a journal, and writes what its run published.
certifier=$top/crates/orc_certify/out/orc_certify
wants_preview=${ORC_PREVIEW:-1}
if [ "${1:-}" = --no-preview ]; then
    wants_preview=0
    shift
fi
# The niceness of proofs, which is 15 beside a more urgent one.
niceness=10
# The control characters that take the line of progress off a terminal before another line is written; empty if there is no such line.
clear=

say() { printf '%sorc: %s\n' "$clear" "$*" >&2; }

# below CRATE..: these crates and all that they use, the lowest first.
below() {
    awk -v wanted="$*" -F '[: ]+' '
        function visit(crate,    i, parts, count) {
            if (!(crate in uses) || seen[crate]++) return
            count = split(uses[crate], parts, " ")
            for (i = 1; i <= count; i++) visit(parts[i])
            print crate
        }
        /^[a-z]/ { uses[$1] = ""; for (i = 2; i <= NF; i++) uses[$1] = uses[$1] " " $i }
        END { count = split(wanted, all, " "); for (n = 1; n <= count; n++) visit(all[n]) }' "$top/crates.txt"
}

# is_stale PROGRAM: whether a source of it changed since it was built.
is_stale() {
    local built=$top/crates/$1/out/$1 places=("$top/crates.txt") crate
    [ -x "$built" ] || return 0
    for crate in $(below "$1"); do places+=("$top/crates/$crate"/{src,specs,proofs}); done
    [ -n "$(find "${places[@]}" -newer "$built" -print -quit 2>/dev/null)" ]
}

# How many processors to use: one for each 2 GB of free memory at most. Five jobs in two lanes take 8 GB.
processors() {
    local found free
    found=$(nproc 2>/dev/null || echo 2)
    free=$(awk '/MemAvailable/ { print int($2 / 2000000) }' /proc/meminfo 2>/dev/null)
    if [ -n "$free" ] && [ "$free" -lt "$found" ]; then found=$free; fi
    echo "${ORC_JOBS:-$((found > 0 ? found : 1))}"
}

# number FILE: sets `found` to the number in a file, or to 0 if the file has none, as on a full disk.
number() {
    found=
    { read -r found <"$1"; } 2>/dev/null || true
    found=${found:-0}
}

# fail CRATE STATUS: notes that a crate has failed, so that the program can't be built. It removes the file `going` for that, since on a full disk no file
# can be made.
fail() {
    rm -f "$room/going"
    echo "$2" >"$room/$1.failed"
}

# Whether a crate has failed, or the room is gone.
has_failed() { [ ! -e "$room/going" ]; }

# begin CRATE: notes when the proof of a crate has begun. tell CRATE: notes that it is proved, and says so.
begin() { echo "$SECONDS" >"$room/$1.since"; }
tell() {
    local found
    number "$room/$1.since"
    if ! echo "$((SECONDS - found))" >"$room/$1.proved"; then
        fail "$1" 1
        return 1
    fi
    # On a terminal the line of progress says it.
    if [ -z "$clear" ]; then say "proved $1, $(count_proved) of $total crates ($((SECONDS - started)) s so far$(left))"; fi
}

count_proved() {
    local proved=("$room"/*.proved)
    if [ -e "${proved[0]}" ]; then echo "${#proved[@]}"; else echo 0; fi
}

# weigh CRATE..: writes a line 'CRATE WEIGHT' for each. The weight stands for the time that its proof takes: the bytes of its code without comments, whose
# kilobytes took 2.7 s each on a quick machine, and a 250th of the bytes of all crates below it, which `rt` reads first. So the proofs of most crates can
# be foreseen to a quarter. A crate that an earlier start has built weighs nothing.
weigh() {
    local crate each weight
    declare -A bytes=()
    for crate; do bytes[$crate]=$(cat "$top/crates/$crate"/{src,specs,proofs}/* 2>/dev/null | wc -c); done
    for crate; do
        # The folder of one that was broken off is empty.
        if [ -n "$(ls "$top/crates/$crate/out/rlib" 2>/dev/null)" ] || { [ "$crate" = orc_certify ] && [ -x "$certifier" ]; }; then
            echo "$crate 0"
            continue
        fi
        # One more, since 0 is for what is built.
        weight=$((1 + $(find "$top/crates/$crate/src" -name '*.rt' -exec sed '/^ *\/\//d' {} + 2>/dev/null | wc -c)))
        for each in $(below "$crate"); do
            if [ "$each" != "$crate" ]; then weight=$((weight + ${bytes[$each]:-0} / 250)); fi
        done
        echo "$crate $weight"
    done
}

# states: writes for each crate its weight, whether it is proved, works or waits, and for how many seconds it took or has been at work.
states() {
    local crate weight found
    while read -r crate weight; do
        if [ -e "$room/$crate.proved" ]; then
            number "$room/$crate.proved"
            echo "$crate $weight proved $found"
        elif [ -e "$room/$crate.since" ]; then
            number "$room/$crate.since"
            echo "$crate $weight works $((SECONDS - found))"
        else
            echo "$crate $weight waits 0"
        fi
    done <"$room/weights"
}

# ways LANES: reads what `states` writes, and estimates the seconds that are left from what the proved crates took for their weight. That is the work that
# is left, divided by the lanes, or the longest chain of crates up to the program if that takes longer. It writes nothing before a twentieth of the
# weights is proved: at first the preview takes processors, too, and one crate says little of all.
# ways: reads lines 'CRATE WEIGHT', and writes each crate behind the weight of the longest chain from it to the program.
ways() {
    awk -v lanes="${1:-0}" '
        function way(crate,    i, parts, count, longest, next_way) {
            if (crate in found) return found[crate]
            count = split(users[crate], parts, " ")
            for (i = 1; i <= count; i++) {
                next_way = way(parts[i])
                if (next_way > longest) longest = next_way
            }
            return found[crate] = own[crate] + longest
        }
        FILENAME == "-" {
            own[$1] = $2; state[$1] = $3; seconds[$1] = $4
            if ($3 == "proved" && $2 > 0) { weight += $2; took += $4 }
            next
        }
        /^[a-z]/ {
            split($0, sides, ":")
            split(sides[1], names, " ")
            if (!(names[1] in own)) next
            count = split(sides[2], parts, " ")
            for (i = 1; i <= count; i++) users[parts[i]] = users[parts[i]] " " names[1]
        }
        END {
            if (!lanes) { for (crate in own) print way(crate), crate; exit }
            for (crate in own) total += own[crate]
            if (!took || weight * 20 < total) exit
            for (crate in own) {
                whole = own[crate] * took / weight
                own[crate] = state[crate] == "proved" ? 0 : whole
                # One that takes longer than it should has a tenth left.
                if (state[crate] == "works") own[crate] = whole - seconds[crate] > whole / 10 ? whole - seconds[crate] : whole / 10
                all += own[crate]
            }
            most = all / lanes
            for (crate in own) if (way(crate) > most) most = way(crate)
            print int(most)
        }' - "$top/crates.txt"
}

# left: writes ', about N min left' if that can be estimated.
left() {
    local seconds
    seconds=$(states | ways "$lane_count")
    [ -z "$seconds" ] || echo ", about $(((seconds + 59) / 60)) min left"
}

# The crates that are at work.
at_work() {
    local each crate found=
    for each in "$room"/*.since; do
        crate=${each##*/}
        crate=${crate%.since}
        if [ -e "$each" ] && [ ! -e "$room/$crate.proved" ]; then found="${found:+$found, }$crate"; fi
    done
    echo "$found"
}

# Keeps one line on a terminal up to date, until this script ends. While a preview is written the line stays away.
watch() {
    local width line
    exec {lock}<&-
    width=$(stty size 2>/dev/null <&2 | cut -d ' ' -f 2)
    if [ "${width:-0}" = 0 ]; then width=80; fi
    while kill -0 "$$" 2>/dev/null && [ -d "$room" ]; do
        line="orc: $(count_proved) of $total crates proved ($(((SECONDS - started) / 60)) min so far$(left)); at work: $(at_work)"
        if [ ! -e "$room/hush" ]; then printf '%s%s' "$clear" "${line:0:width-1}" >&2; fi
        sleep 1
    done
}

# beside COMMAND..: runs it in the background, as a process group of its own, without standard input and output: these are for the program.
beside() {
    set -m
    "$@" </dev/null >/dev/null &
    set +m
}

# prove ROOT JOBS CRATE: proves and builds a library, or the program that checks journals. The crates below it are built, so `rt` makes no quick pass over
# the sources first. The proof runs under `nice`, since somebody waits for the preview, with this `niceness`.
prove() {
    local status=0 built=$1/crates/$3/out/$3
    if has_failed; then return 1; fi
    if [ "$3" = orc_certify ]; then
        # `rt run` runs it without words, so the status says nothing. The built file shows whether the proof went through.
        rm -f "$built"
        (cd "$1/crates/$3" && exec nice -n "$niceness" rt run --jobs "$2") >"$room/$3.log" 2>&1 || status=$?
        if [ -x "$built" ]; then status=0; fi
    else
        (cd "$1/crates/$3" && exec nice -n "$niceness" rt lib --jobs "$2") >"$room/$3.log" 2>&1 || status=$?
    fi
    cat "$room/$3.log" >>"$log" || true
    [ "$status" = 0 ] || fail "$3" "$status"
    return "$status"
}

# is_ready CRATE: whether all crates that it names are proved; those that these name are then, too. Until the check of journals is proved, no crate is
# ready that the check doesn't need, if the check is to give an early answer.
is_ready() {
    local crate
    if [ -n "$early" ] && [[ " $early " != *" $1 "* ]] && [ ! -e "$room/orc_certify.proved" ]; then return 1; fi
    for crate in ${uses[$1]}; do
        # A crate that isn't in the list is a library of the kit.
        [ -z "${uses[$crate]+known}" ] || [ -e "$room/$crate.proved" ] || return 1
    done
}

# copy_sources ROOT CRATE..: makes a repository of these crates alone, since `rt` wants the sources of each crate that the repository's list names.
copy_sources() {
    local root=$1 crate place
    shift
    for crate; do
        mkdir -p "$root/crates/$crate" || return 1
        grep "^${crate}[: ]" "$top/crates.txt" >>"$root/crates.txt" || return 1
        for place in src specs proofs; do
            if [ -e "$top/crates/$crate/$place" ]; then cp -r "$top/crates/$crate/$place" "$root/crates/$crate" || return 1; fi
        done
    done
}

# copy_built FROM TO: copies what is built of a crate, by hard links if the file system has them.
copy_built() {
    mkdir -p "$2" || return 1
    cp -rl "$1/rlib" "$2" 2>/dev/null && return 0
    rm -rf "$2/rlib"
    cp -r "$1/rlib" "$2"
}

# furnish OWN CRATE: puts into the folder OWN what the proof of a crate reads, and what an earlier proof has made of the crate.
furnish() {
    local each
    # shellcheck disable=SC2046
    copy_sources "$1" $(below "$2") || return 1
    for each in $(below "$2"); do
        [ "$each" = "$2" ] || copy_built "$top/crates/$each/out" "$1/crates/$each/out" || return 1
    done
    if [ -e "$top/crates/$2/out" ]; then mv "$top/crates/$2/out" "$1/crates/$2"; fi
}

# give_back OWN CRATE: moves what was made of a crate, whole or not, back to the sources.
give_back() {
    if [ -e "$1/crates/$2/out" ] && [ ! -e "$top/crates/$2/out" ]; then mv "$1/crates/$2/out" "$top/crates/$2"; fi
}

# apart CRATE JOBS: proves a crate in a folder of its own, over copies of what is built below it, since two runs of `rt` can't use one library at the same
# time. What was made of the crate, whole or not, goes back.
apart() {
    local crate=$1 own=$room/$1 status=0
    begin "$crate"
    if furnish "$own" "$crate" >"$room/$crate.log" 2>&1; then
        prove "$own" "$2" "$crate" || status=1
    else
        cat "$room/$crate.log" >>"$log" || true
        fail "$crate" 1
        status=1
    fi
    give_back "$own" "$crate" || return 1
    [ "$status" = 0 ] || return 1
    rm -rf "$own"
    tell "$crate"
}

# urgent CRATE..: the first of these crates that isn't proved yet. One that an earlier start has built takes a moment, so it isn't counted.
urgent() {
    local crate
    for crate; do
        if [ ! -e "$room/$crate.proved" ] && [ -z "${kept[$crate]+known}" ]; then
            echo "$crate"
            return
        fi
    done
}

# share PROCESSORS CRATE..: how many jobs the next of these crates gets: the processors, divided by the number of crates that may be at work at the same
# time. So the last crates, beside which nothing else can work, get all processors.
share() {
    local processors=$1 crate many=0
    shift
    for crate; do
        [ ! -e "$room/$crate.proved" ] || continue
        if [ -e "$room/$crate.begun" ] || is_ready "$crate"; then many=$((many + 1)); fi
    done
    if [ "$many" -gt "$lane_count" ]; then many=$lane_count; fi
    if [ "$many" -lt 1 ]; then many=1; fi
    echo $((processors < many ? 1 : processors / many))
}

# lane PROCESSORS CRATE..: one of several background processes that share these crates, the most urgent first. It takes the first crate that no lane has begun
# and whose own crates are proved, proves it, and goes on with the next. The most urgent crate gets a job for each processor, and the others come after
# it: all lanes wait for it in the end.
lane() {
    local processors=$1 crate waits jobs
    shift
    # A lane whose script was killed ends after its crate. It holds the lock, so that the next start waits for it.
    while ! has_failed && kill -0 "$$" 2>/dev/null; do
        waits=
        for crate; do
            [ ! -e "$room/$crate.begun" ] || continue
            waits=$crate
            is_ready "$crate" || continue
            # Only one lane can make the folder, so no other takes the crate.
            if ! mkdir "$room/$crate.begun" 2>/dev/null; then
                [ -d "$room/$crate.begun" ] && continue
                echo "orc: no folder can be made in $room" >"$room/$crate.log"
                fail "$crate" 1
                return 1
            fi
            if [ "$crate" = "$(urgent "$@")" ]; then
                jobs=$processors
                niceness=10
            else
                jobs=$(share "$processors" "$@")
                niceness=15
            fi
            apart "$crate" "$jobs" || return 1
            continue 2
        done
        [ -n "$waits" ] || return 0
        sleep 0.3
    done
    return 1
}

# in_turn JOBS CRATE..: proves these crates one after another, in the repository itself and not in folders of their own.
in_turn() {
    local jobs=$1 crate
    shift
    for crate; do
        kill -0 "$$" 2>/dev/null || return 1
        [ ! -e "$room/$crate.proved" ] || continue
        begin "$crate"
        prove "$top" "$jobs" "$crate" || return 1
        tell "$crate" || return 1
    done
}

compile() { cd "$top/crates/orc" && exec rt run --jobs "$1" -- --version >"$room/orc.log" 2>&1; }

# plan_answer WORD..: finds whether a journal can answer this command: whether it is `run`, and writes values or the journal. Then it sets `form` to
# `values` or `journal`, and `file`, `script` and `limit` to the arguments of the run; otherwise `form` is empty.
plan_answer() {
    local word wanted=values
    form='' file='' script=/dev/null limit=''
    [ "${1:-}" = run ] || return 0
    shift
    while [ "$#" -gt 0 ]; do
        word=$1
        shift
        case $word in
        --script | --limit | --workers | --order)
            [ "$#" -gt 0 ] || return 0
            word=$word=$1
            shift
            ;;
        esac
        case $word in
        --script=*) script=${word#*=} ;;
        --limit=*) limit=${word#*=} ;;
        --workers=* | --order=* | --unordered) ;;
        --journal) wanted=journal ;;
        -*) return 0 ;;
        *)
            [ -z "$file" ] || return 0
            file=$word
            ;;
        esac
    done
    if [ -n "$file" ] && [ "$script" != - ]; then form=$wanted; fi
}

# plan_preview OWN WORD..: prepares a preview. `rt try` lets the program read only files that it is handed, each by a name without folders. So this copies
# the files that the words name, and sets `data` and `words` for `rt try`; or it fails, and says in `reason` why.
plan_preview() {
    local own=$1 word option value name
    declare -A given=()
    data=() words=() reason=
    shift
    for word; do
        option='' value=$word
        case $word in --*=*) option=${word%%=*}= value=${word#*=} ;; esac
        if [ "$value" = - ]; then
            reason="the command reads standard input"
        elif [ "${#words[@]}" = 0 ]; then
            # The first word is a command, even if a file has that name.
            words+=("$word")
        elif [ -f "$value" ]; then
            name=$(basename -- "$value")
            case $name in
            # Names that `rt try` uses itself, or would misread.
            program | stdin | stdout | stderr | -* | *=*) reason="no file can be called $name there" ;;
            esac
            if [ -n "${given[$name]:-}" ] && [ ! "$value" -ef "${given[$name]}" ]; then reason="two files are called $name"; fi
            if [ -z "$reason" ] && [ -z "${given[$name]:-}" ]; then
                cp -- "$value" "$own/data/$name" 2>/dev/null || reason="$value can't be copied"
                data+=(--data "$name=$own/data/$name")
                given[$name]=$value
            fi
            words+=("$option$name")
        elif [ -e "$value" ]; then
            reason="$value is no plain file"
        else
            case $value in
            -*) ;;
            */* | *.*) reason="there is no file $value" ;;
            esac
            words+=("$word")
        fi
        if [ -n "$reason" ]; then return 1; fi
    done
    # The preview writes the journal, which has the values, so that the check can judge it.
    if [ "$form" = values ]; then words+=(--journal); fi
}

# show_preview OWN SECONDS: what the unproved program wrote and its status, each line marked. `rt try` adds some lines to standard error.
show_preview() {
    local own=$1 text=$1/out comes='the proving has ended' end count
    end=$(tail -n 1 "$own/err" 2>/dev/null)
    case $end in
    "run=ended status="*) ;;
    *)
        say "no preview: 'rt try' ended with '${end:0:100}'"
        return
        ;;
    esac
    if [ "$form" = values ]; then
        text=$own/values
        sed -n 's/^publish [0-9]* //p' "$own/out" >"$text" || return
    fi
    if [ "$(wc -c <"$text")" -gt 1048576 ]; then
        say "no preview: the output has over 1 MiB"
        return
    fi
    end=${end#run=ended status=}
    { cat "$text" && sed -e '/^checked: ended /d' -e '/^races: /d' -e '/^run=ended status=/d' "$own/err"; } >"$own/written" || return
    count=$(wc -l <"$own/written")
    case $form${end%% *} in values[03] | journal[03]) comes='the check of journals is proved' ;; esac
    {
        say "a preview, NOT PROVED YET (after $2 s):"
        sed -n -e '100q' -e 's/^/not proved yet | /p' "$own/written"
        if [ "$count" -ge 100 ]; then echo "not proved yet | .. (of $count lines)"; fi
        echo "not proved yet: status ${end%% *}. The proved answer comes when $comes."
    } >"$own/shown" 2>&1 || return
    : >"$room/hush"
    cat "$own/shown" >&2
    rm -f "$room/hush"
}

# preview WORD..: runs the same command by `rt try`, which proves nothing, and shows what it writes. It uses copies of the sources, since the lanes move what
# is built beside the real ones. A failed preview changes nothing in the proved answer.
preview() {
    local own=$room/.preview tried begun=$SECONDS
    # If memory runs out, the system kills the preview before it kills a proof.
    { echo 1000 >/proc/self/oom_score_adj; } 2>/dev/null || true
    if ! mkdir -p "$own/data" "$own/tmp" || ! plan_preview "$own" "$@"; then
        say "no preview: ${reason:-there is no room for it}"
        return
    fi
    # shellcheck disable=SC2046
    if ! copy_sources "$own" $(below orc) 2>/dev/null; then
        say "no preview: the sources can't be copied"
        return
    fi
    if [ -e "$top/HANDLES" ]; then cp "$top/HANDLES" "$own" || true; fi
    # The preview gives up the lock here. If this start is killed, the next one needn't wait for the preview, and may remove its files.
    exec {lock}<&-
    (cd "$own/crates/orc" && TMPDIR=$own/tmp exec rt try "${data[@]}" -- "${words[@]}") >"$own/out" 2>"$own/err" &
    tried=$!
    # `rt` gets the signal too, and ends what it has started.
    trap 'wait "$tried"; exit 143' TERM
    wait "$tried" || true
    trap - TERM
    if kill -0 "$$" 2>/dev/null; then
        show_preview "$own" "$((SECONDS - begun))"
        # This file says that the preview's journal is whole.
        sed -n '$s/^run=ended status=\([0-9]*\) .*/\1/p' "$own/err" >"$own/status" || true
    fi
}

# can_answer: whether the journal of the preview can be checked now.
can_answer() { [ -n "$early" ] && [ -z "$was_tried" ] && [ -e "$room/orc_certify.proved" ] && [ -s "$room/.preview/status" ]; }

# answer_early: gives the proved answer, if the check accepts the journal that the unproved program wrote as that of a whole run.
answer_early() {
    local found status=0
    was_tried=yes
    number "$room/.preview/status"
    # Only a run with status 0 (Halted) or 3 (Quiet) has the journal of a whole run.
    case $found in 0 | 3) ;; *) return ;; esac
    : >"$room/hush"
    printf '%s' "$clear" >&2
    # The check runs in the background: bash handles a signal at once while it waits, but not while it runs a command in the foreground.
    set -m
    "$certifier" "$form" "$file" "$room/.preview/out" "$script" ${limit:+"$limit"} 2>>"$log" </dev/null &
    set +m
    wait $! || status=$?
    case $status in
    0 | 3)
        answered=$status
        say "this is the proved answer (after $((SECONDS - started)) s): a proved check took the run's journal. The status will be $status."
        say "The proofs of the whole program go on. They may be broken off: the next call goes on from there."
        ;;
    6 | 141)
        answered=$status
        say write
        ;;
    *) say "the check doesn't take the journal of the preview: the proved answer comes when the proving has ended" ;;
    esac
    rm -f "$room/hush"
}

# await PID..: waits for these lanes, and gives an early answer as soon as it can.
await() {
    local each
    for each; do
        while [ -n "$early" ] && [ -z "$was_tried" ] && kill -0 "$each" 2>/dev/null; do
            if can_answer; then answer_early; fi
            sleep 0.3 &
            wait $! || true
        done
        wait "$each" || broken=yes
    done
}

# Ends all that this script has started, and waits for it.
stop_all() {
    local groups each tries=0
    groups=$(jobs -rp)
    for each in $groups; do kill -- "-$each" 2>/dev/null || true; done
    for each in $groups; do
        while kill -0 -- "-$each" 2>/dev/null; do
            tries=$((tries + 1))
            if [ "$tries" -gt 100 ]; then kill -KILL -- "-$each" 2>/dev/null || true; fi
            sleep 0.1
        done
    done
    wait 2>/dev/null || true
}

# tidy ROOM: moves what a broken-off lane had made of a crate back to the sources, and removes the room, the working folder of a start.
tidy() {
    local own crate
    for own in "$1"/*/crates; do
        crate=$(basename "$(dirname "$own")")
        give_back "$(dirname "$own")" "$crate" || true
    done
    rm -rf "$1" || true
}

# leave: runs when this script exits, unless it goes on to the program.
leave() {
    # Further signals are ignored, since what was proved has to go back.
    trap '' INT TERM HUP
    stop_all
    [ -z "$clear" ] || printf '%s' "$clear" >&2
    [ -z "$room" ] || tidy "$room"
}

# give_up TEXT
give_up() {
    say "$1"
    exit 70
}

# lock_up: waits until no other start builds. It locks the folder `crates` itself, so that a killed start leaves no lock file. The processes that a start has
# begun hold the lock, too.
lock_up() {
    exec {lock}<"$top/crates"
    if ! command -v flock >/dev/null || flock -n "$lock"; then return; fi
    say "another ./orc is proving; this one waits for it"
    # Some file systems have no locks.
    flock "$lock" || true
}

# first_start JOBS WORD..: proves all libraries in lanes.
first_start() {
    local jobs=$1 each crates names
    declare -gA uses=() kept=()
    say "building the program for the first time: every proof is checked, on $jobs processors."
    say "That takes half an hour to an hour; the next call starts at once. The log is build.log."
    if [ -n "$early" ]; then say "A proved answer to this command comes earlier, when the check of journals is proved."; fi
    say "It may be broken off: the next call goes on from there."
    while IFS=: read -r each names; do
        if [[ $each == [a-z]* ]]; then uses[${each%% *}]=$names; fi
    done <"$top/crates.txt"
    while read -r each names; do
        if [ "$names" = 0 ]; then kept[$each]=yes; fi
    done <"$room/weights"
    crates=$(ways <"$room/weights" | sort -rn | cut -d ' ' -f 2 | grep -v '^orc$')
    # The crates with the longest chain to the check of journals come first, then those with the longest chain to the program.
    if [ -n "$early" ]; then
        crates=$( (grep -wF "${early// /$'\n'}" "$room/weights" | ways | sort -rn | cut -d ' ' -f 2 && echo "$crates") | awk '!seen[$1]++')
    fi
    lanes=()
    for ((each = 0; each < lane_count; each++)); do
        # shellcheck disable=SC2086
        beside lane "$jobs" $crates
        lanes+=($!)
    done
}

# tell_failure: says why the program wasn't built, by the end of the log of the crate that failed first.
tell_failure() {
    local each crate found
    # shellcheck disable=SC2012
    each=$(ls -tr "$room"/*.failed 2>/dev/null | head -n 1)
    if [ -n "$each" ]; then
        crate=$(basename "$each" .failed)
        tail -n 20 "$room/$crate.log" >&2 || true
        number "$each"
        # A signal has killed the proof: bash gives status 137 for that, Python 247.
        if [ "$found" = 137 ] || [ "$found" = 247 ]; then say "a proof was killed, maybe for want of memory: ORC_JOBS=1 ./orc takes less"; fi
    fi
    if ! { echo >"$room/written"; } 2>/dev/null; then say "nothing more can be written to $top: the disk may be full"; fi
    say "the program wasn't built; the log is build.log"
}

build() {
    local jobs libraries each is_first='' broken='' early='' was_tried='' lanes=()
    local form='' file script limit
    if ! command -v rt >/dev/null; then
        give_up "'rt', the prover and compiler of Rattle, isn't on the PATH; the program can't be built without it"
    fi
    lock_up
    if ! is_stale orc; then
        exec {lock}<&-
        return
    fi
    room=
    started=$SECONDS
    trap leave EXIT
    trap 'exit 130' INT TERM HUP
    # Working folders of starts that were killed.
    for each in "$top"/.build.??????; do
        if [ -d "$each" ]; then tidy "$each"; fi
    done
    room=$(mktemp -d -p "$top" .build.XXXXXX) || give_up "the program can't be built, since nothing can be written to $top"
    log=$top/build.log
    { : >"$log" && : >"$room/going"; } 2>/dev/null || give_up "the program can't be built, since $log can't be written"
    jobs=$(processors)
    [ -x "$program" ] || is_first=yes
    if [ -n "$is_first" ] && [ "$wants_preview" != 0 ]; then plan_answer "$@"; fi
    libraries=$(below orc | grep -v '^orc$')
    if [ -n "$form" ]; then
        early=$(below orc_certify | paste -sd ' ')
        libraries=$(below orc_certify orc | grep -v '^orc$')
    fi
    total=$(wc -w <<<"$libraries")
    lane_count=1
    if [ -n "$is_first" ] && [ "$jobs" -gt 1 ]; then lane_count=$((jobs < 4 ? 2 : 4)); fi
    # shellcheck disable=SC2086
    weigh $libraries orc >"$room/weights"
    if [ -n "$early" ] && ! is_stale orc_certify; then
        # An earlier start has built it.
        begin orc_certify
        mkdir "$room/orc_certify.begun" && echo 0 >"$room/orc_certify.proved"
    fi
    if [ -t 2 ]; then clear=$'\r\e[K'; fi
    if [ "$lane_count" -gt 1 ]; then
        first_start "$jobs"
    else
        say "proving what is left or has changed, and building the program"
        # shellcheck disable=SC2086
        beside in_turn "$jobs" $libraries
        lanes=($!)
    fi
    if [ -n "$is_first" ] && [ "$wants_preview" != 0 ]; then beside preview "$@"; fi
    [ -z "$clear" ] || beside watch
    await "${lanes[@]}"
    if [ -z "$broken" ] && ! has_failed; then
        [ -n "$clear" ] || say "compiling orc ($((SECONDS - started)) s so far$(left))"
        begin orc
        beside compile "$jobs"
        wait $! || fail orc "$?"
        cat "$room/orc.log" >>"$log" || true
    fi
    # If the preview isn't ready by now it isn't needed any more.
    stop_all
    if [ -n "$broken" ] || has_failed || [ ! -x "$program" ]; then
        tell_failure
        exit 70
    fi
    tidy "$room"
    trap - EXIT INT TERM HUP
    touch "$program"
    say "built in $((SECONDS - started)) s"
    exec {lock}<&-
}

# The status of the run, if an early answer was given.
answered=
if is_stale orc; then build "$@"; fi
if [ -n "$answered" ]; then exit "$answered"; fi
exec "$program" "$@"
