# The workloads of the measurements. A script that sources this sets `words`, defines `run NAME SIZE SOURCE [SCRIPT [LIMIT]]` and calls `workloads`.
# shellcheck shell=bash disable=SC2154

# Whether a workload's name has one of the words, if there are any.
wanted() {
    [ ${#words[@]} = 0 ] && return 0
    for word in "${words[@]}"; do
        case $1 in *"$word"*) return 0 ;; esac
    done
    return 1
}

# Writes `1`, and behind it TEXT a given number of times.
repeated() {
    printf '1'
    yes "$2" | head -n "$1" | tr -d '\n'
}

loop='def loop(n) = Lt(n, COUNT) >b> (Iff(b) >> n | Ift(b) >> Add(n, 1) >m> loop(m)) (loop(0))'
races='def loop(n) = Lt(n, COUNT) >b> (Iff(b) >> n | Ift(b) >> (x <x< (n | Never() | Rwait(5))) >> Add(n, 1) >m> loop(m)) (loop(0))'
timed='def loop(n) = Lt(n, COUNT) >b> (Iff(b) >> n | Ift(b) >> (x <x< (Slow(n) | Rwait(5))) >> Add(n, 1) >m> loop(m)) (loop(0))'
tree='def tree(n) = Lt(0, n) >b> (Iff(b) >> 1 | Ift(b) >> Sub(n, 1) >m> (tree(m) | tree(m))) (tree(COUNT))'
recursion='def fib(n) = Lt(n, 2) >b> (Ift(b) >> n | Iff(b) >> Add(fib(Sub(n, 1)), fib(Sub(n, 2)))) (fib(COUNT))'
raced='def leaf(n) = x <x< (Add(n, 1) | Add(n, 2))
def tree(n) = Lt(0, n) >b> (Iff(b) >> leaf(n) | Ift(b) >> Sub(n, 1) >m> (tree(m) | tree(m)))
tree(COUNT)'
sides='def idle(n) = Lt(0, n) >b> Ift(b) >> ((x <x< Never()) | Sub(n, 1) >m> idle(m))
def clock(n) = Lt(0, n) >b> Ift(b) >> Rwait(1) >> Sub(n, 1) >m> clock(m)
idle(COUNT) | clock(COUNT)'
left='def deep(n) = Lt(0, n) >b> (Iff(b) >> many(COUNT) | Ift(b) >> Sub(n, 1) >m> deep(m)) ; stop
def many(n) = Lt(0, n) >b> Ift(b) >> (n | Sub(n, 1) >m> many(m))
deep(COUNT)'
timers='def timers(a, k) = Eq(k, 0) >z> (Ift(z) >> Rwait(a) | Iff(z) >> Sub(k, 1) >j> Add(a, a) >x> (timers(x, j) | Add(x, 1) >y> timers(y, j)))
timers(1, COUNT)'
calls='def tree(n) = Lt(0, n) >b> (Iff(b) >> Last() | Ift(b) >> Sub(n, 1) >m> (tree(m) | tree(m))) (tree(COUNT))'

beside='def idle(n) = Lt(0, n) >b> Ift(b) >> (Never() | Sub(n, 1) >m> idle(m))
def loop(n) = Lt(n, 20000) >b> (Iff(b) >> n | Ift(b) >> (x <x< (n | Never() | Rwait(5))) >> Add(n, 1) >m> loop(m))
idle(COUNT) | Rwait(1) >> loop(0)'
waiting='def fan(n, x) = Lt(0, n) >more> Ift(more) >> (Add(x, 1) | Sub(n, 1) >m> fan(m, x))
def clock(n) = Lt(0, n) >more> Ift(more) >> Rwait(1) >> Sub(n, 1) >m> clock(m)
(fan(COUNT, x) | clock(20000)) <x< (Rwait(30000) >> 1)'

# A clock ticks 400 times while 2 to the power of COUNT tokens wait for x. With so few ticks the term nests under 10,000 levels, so it can be checked.
ticks='def fan(k, x) = Eq(k, 0) >z> (Ift(z) >> Add(x, 1) | Iff(z) >> Sub(k, 1) >m> (fan(m, x) | fan(m, x)))
def clock(n) = Lt(0, n) >more> Ift(more) >> Rwait(1) >> Sub(n, 1) >m> clock(m)
(fan(COUNT, x) | clock(400)) <x< (Rwait(1000) >> 1)'

pipes='def values(n) = Lt(0, n) >b> Ift(b) >> (n | Sub(n, 1) >m> values(m))
def pipe() = values(100) >x> Add(x, 1) >y> Add(y, y) >z> Sub(z, 1)
def pipes(n) = Lt(0, n) >b> (Iff(b) >> pipe() | Ift(b) >> Sub(n, 1) >m> (pipes(m) | pipes(m)))
pipes(COUNT)'

metronome='def metronome(t) = signal | Rwait(t) >> metronome(t) (metronome(10))'

# COUNT rounds, each with 32 services that halt one after another, and then with something behind the last `;`.
fallback="def loop(n) = Lt(n, COUNT) >b> (Iff(b) >> n | Ift(b) >> ($(yes 'Down() ;' | head -n 32 | tr '\n' ' ') Add(n, 1)) >m> loop(m)) (loop(0))"

# COUNT rounds, each with a thousand leaves whose values are dropped, and with the next round behind them.
wide="def leaves(n) = Add(n, 1)$(seq -f ' | Add(n, %.0f)' 2 1000 | tr -d '\n')
def loop(n) = Lt(n, COUNT) >b> (Iff(b) >> n | Ift(b) >> (leaves(n) >> stop ; Add(n, 1)) >m> loop(m)) (loop(0))"

# A script with a given number of sites, and with `Last` behind them.
many_sites() {
    seq -f 'S%.0f() = 1' "$1"
    echo 'Last() = 1'
}

# Definitions that double: 2^LEVELS leaves, and then ROUNDS times such a fan-out, one after another.
doubled() {
    echo 'def d0() = Add(1, 1)'
    for ((i = 1; i <= $1; i++)); do echo "def d$i() = d$((i - 1))() | d$((i - 1))()"; done
}

# STAGES stages, through which the values of 2^LEVELS leaves go.
staged() {
    doubled "$1" | sed '1s/.*/def d0() = 1/'
    printf 'd%d()' "$1"
    for ((i = 1; i <= $2; i++)); do printf ' >x%d> Add(x%d, 1)' "$i" "$i"; done
}

# 2^LEVELS calls of `Rwait` at once, and two more calls behind each.
timeouts() { doubled "$1" | sed '1s/.*/def d0() = Rwait(5) >> Add(1, 1) >x> Add(x, 1)/'; }

# Each workload at two sizes or more.
workloads() {
    local levels rounds leaves count
    for levels in 14 16; do run doubling $levels "$(doubled $levels) (d$levels())"; done
    for rounds in 5 20; do
        run doubling-again $rounds "$(doubled 16) def again(n) = d16() | Lt(1, n) >b> Ift(b) >> Rwait(1) >> Sub(n, 1) >m> again(m) (again($rounds))"
    done
    for levels in 10 12 13; do run queue $levels "$(doubled $levels) (d$levels() >x> Rwait(1) >> Add(x, 1) >y> Add(y, 1))"; done
    for levels in 5 7 9; do run pipelines $levels "${pipes/COUNT/$levels}"; done
    for leaves in 1000 4000; do run fan-out $leaves "$(repeated $leaves ' | 1')"; done
    for rounds in 500 2000 10000 40000 200000; do run counting $rounds "${loop/COUNT/$rounds}"; done
    for rounds in 250 1000 5000 20000 40000; do run races $rounds "${races/COUNT/$rounds}" 'Never() = never'; done
    for rounds in 5000 20000; do run timed-races $rounds "${timed/COUNT/$rounds}" 'Slow(_) = 1 after 9'; done
    for count in 1000 40000; do run races-beside-calls $count "${beside/COUNT/$count}" 'Never() = never'; done
    for count in 1000 40000; do run waiting-tokens $count "${waiting/COUNT/$count}"; done
    for levels in 10 14; do run ticks $levels "${ticks/COUNT/$levels}"; done
    for count in 250 1000; do run standing-sides $count "${sides//COUNT/$count}" 'Never() = never'; done
    for levels in 250 1000; do run left-otherwises $levels "${left//COUNT/$levels}"; done
    for levels in 14 16 18; do run tree $levels "${tree/COUNT/$levels}"; done
    for count in 16 22; do run recursion $count "${recursion/COUNT/$count}"; done
    for levels in 13 16; do run raced-leaves $levels "${raced/COUNT/$levels}"; done
    for levels in 14 16; do run many-sites $levels "${calls/COUNT/$levels}" "$(many_sites $((1 << levels)))"; done
    for limit in 500000 2000000; do run metronome $limit "$metronome" '' $limit; done
    for levels in 12 14; do run pipeline-of-16 $levels "$(staged $levels 16)"; done
    for rounds in 1500 6000; do run fallback $rounds "${fallback/COUNT/$rounds}" 'Down() = halt'; done
    for levels in 13 15; do run timeouts $levels "$(timeouts $levels) (d$levels())"; done
    for rounds in 50 200; do run wide-rounds $rounds "${wide/COUNT/$rounds}"; done
    for levels in 12 14; do run timers $levels "${timers/COUNT/$levels}"; done
}
