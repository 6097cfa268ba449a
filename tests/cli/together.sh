# Busy, refused and failed are three things; and nothing is told as done before it is.
"$run" fresh store --force >out; cp store fresh.store
fails "busy" 3 "store is busy: another command is at work in its folder" flock . "$binary" play store change.txt --wait 0
holds "busy: the mend" grep -q "wait longer with --wait SECONDS; no file was changed" err
holds "busy: nothing is told" test ! -s out
fails "fresh is busy too" 3 "store is busy" flock . "$binary" fresh store --force --wait=0
same "busy: the store stays" store fresh.store
flock . sleep 0.3 & sleep 0.1
ok "waiting for another" "5 events: 5 done" "$run" play store change.txt --wait 10; wait
# While a list comes slowly nobody has to wait.
cp fresh.store store
{ echo recover 63; soon test -e may-go; echo crash; } | "$binary" play store - >slow & sleep 0.1
ok "nobody waits for a list" "5 events: 5 done" "$run" play store change.txt --wait 0; touch may-go; wait
holds "the slow list is played after it" grep -q "2 events: 2 done" slow
ok "and on what the other left" "5  home page 22 +77000000" "$run" show store
# While answers wait for their reader, nobody waits, and the store is replaced already.
cp fresh.store store; mkfifo pipe; yes 'recover 63' | head -40000 >long.txt; cat change.txt >>long.txt
"$binary" play store long.txt --portions 4096 --answers pipe >late & { soon test -e may-read; cat >/dev/null; } <pipe &
holds "the store is replaced before the answers are read" soon bash -c "! cmp -s store fresh.store"
ok "nobody waits for a reader" "4 events: 4 done" "$run" play store words.txt
holds "answers that aren't read: nothing is told" test ! -s late; touch may-read; wait
holds "answers that are read: it is told" grep -q "^40005 events" late
# Somebody who doesn't keep to the locks changes the store while a long list is played: nothing but that is told.
cp fresh.store store
yes 'recover 63' | head -300000 >endless.txt; cat change.txt >>endless.txt
spoil() { # writes another number all the time
    local number=0
    until [ -e spoilt ]; do number=$((number + 1)); printf %08d $number | dd of=store bs=8 seek=125 conv=notrunc; done 2>/dev/null
}
spoil & spoiler=$!
fails "a store that is changed meanwhile" 3 "store was changed by somebody else while the list was played" \
    "$binary" play store endless.txt --portions 4096 --trace --answers conflict.bin --picture conflict.svg
touch spoilt; wait $spoiler
holds "a conflict tells nothing but the conflict" test ! -s out
holds "a conflict: two lines of errors" test "$(wc -l <err)" = 2
holds "a conflict leaves no answers" test ! -e conflict.bin -a ! -e conflict.svg
no_leftovers .
# Eight writers at the same moment, each on a record of its own: who is told that all is well finds its byte in the store.
writer() { # RECORD
    local round
    for round in 11 22 33 44 55 66 77 88 99 AA BB CC DD EE FF; do
        text "recover 63\nbegin none\nlock 0 $1\nwrite 0 $1 0 $round\ncommit 0 63\n" "list.$1"
        "$binary" play shared "list.$1" --wait 60 >/dev/null 2>>err || return
        "$binary" show shared | grep -qE "^ +$1 +home page [0-9]+ +$round" || echo "record $1 lost $round" >>err
    done
    echo "$1" >>out
}
"$run" fresh shared >/dev/null; : >out; : >err
for record in 0 1 2 3 4 5 6 7; do writer $record & done; wait
[ ! -s err ] && [ "$(wc -l <out)" = 8 ]; report "eight writers at the same moment" $?

# Done, but not told: a status of its own, and the store is replaced.
told() { # NAME PATTERN COMMAND..: it is done, and the message says so
    local name=$1 pattern=$2; shift 2
    cp fresh.store store
    fails "$name" 7 "$pattern" "$@"
    holds "$name: it is said" grep -q "the list was played on store, so don't play it again" err
    ok "$name: the store" "5  home page 22 +77000000" "$run" show store
}
told "answers to a full device" "can't write /dev/full: No space left" "$run" play store change.txt --answers /dev/full
told "picture to a full device" "can't write /dev/full: No space left" "$run" play store change.txt --picture /dev/full
told "output to a full device" "standard output: No space left" bash -c "'$run' play store change.txt >/dev/full"
told "output that isn't read to its end" "standard output: Broken pipe" \
    bash -c "set -o pipefail; '$run' play store endless.txt --portions 4096 | head -1"
holds "the full device is still there" test -c /dev/full
fails "a fresh store that can't be told" 7 "another3 is a fresh store now" bash -c "'$run' fresh another3 >/dev/full"
ok "a dry run whose reader had enough" "^1$" \
    bash -c "'$run' play store endless.txt --portions 4096 --dry | head -1 >/dev/null; echo \${PIPESTATUS[0]}"
holds "a dry run whose reader had enough: no message" test ! -s err

# --strict and --expect: the list is played, and the status tells.
cp fresh.store store
ok "strict, and nothing refused" "5 events: 5 done, 0 refused" "$run" play store change.txt --strict --answers due.bin
ok "as expected" "5 events: 5 done" bash -c "cp fresh.store store; '$run' play store change.txt --strict --expect due.bin"
text 'recover 63\nlock 0 5\nbegin none\n' refused.txt
fails "strict, and an event refused" 5 "1 event was refused; the first is event 2, lock 0 5: refused 5: the named transaction isn't live" "$run" play store refused.txt --strict
holds "strict: the mend" grep -q -- "--trace tells of each why; the list was played all the same" err
holds "strict: the report is there" grep -q "3 events: 2 done, 1 refused" out
fails "other answers" 6 "event 2, lock 0 5: the answer is 0500, and due.bin has 0000" "$run" play store refused.txt --expect due.bin --strict --dry
fails "fewer answers" 6 "there are 2 answers, and due.bin has 5" bash -c "head -2 change.txt | '$run' play store - --expect due.bin"
fails "no expected answers" 1 "can't read nothing: No such file" "$run" play store change.txt --expect nothing
fails "half an expected answer" 4 "is no whole number of answers" bash -c "'$run' play store change.txt --expect <(printf 123)"
fails "answers over the expected ones" 2 "due.bin is named twice" "$run" play store change.txt --expect due.bin --answers due.bin

# A state file and its store go together, by place and by content.
mkdir pair; cp fresh.store pair/a; cp fresh.store pair/b
text 'begin none\nlock 0 3\nwrite 0 3 0 A5\n' live.txt; text 'commit 0 63\nbegin none\n' ends.txt
ok "a state of one fresh store" "pair/s: up, live: 0" bash -c "{ echo recover 63; cat live.txt; } | '$run' play pair/a - --state pair/s"
same "that play leaves the store" pair/a pair/b
fails "with another fresh store" 4 "pair/s goes with the store .a. of its folder, and pair/b is another one" "$run" play pair/b ends.txt --state pair/s
ln -s pair/a through; ok "the same store through a link" "2 events: 2 done" "$run" play through ends.txt --state pair/s --dry
cp -r pair moved; ok "both in another folder" "2 events: 2 done" "$run" play moved/a ends.txt --state moved/s
# A play stopped between the two files: the new state stands beside the old one, and fits the store.
cp moved/a pair/a; cp moved/s pair/.s.nekahuiro; cp pair/s old.s
ok "a pair stopped halfway, in a dry run" "pair/s: up, live: 0" bash -c "'$run' play pair/a - --state pair/s --dry </dev/null"
same "a dry run leaves it halfway" pair/s old.s
ok "a pair stopped halfway" "pair/s: up, live: 0" bash -c "'$run' play pair/a - --state pair/s </dev/null"
same "it is the new pair" pair/s moved/s
cp fresh.store pair/a; cp old.s pair/s; cp moved/s pair/.s.nekahuiro
ok "a pair stopped before the store" "^2 events: 2 done" "$run" play pair/a ends.txt --state pair/s
same "it was the old pair" pair/s moved/s
no_leftovers pair

# A trace takes as long as its list: 200,000 events within seconds.
{ echo recover 63; yes $'begin none\ncommit 0 63' | head -200000; } >many.txt
ok "a long trace" "^200001 events: 200001 done" timeout 20 "$binary" play store many.txt --portions 4096 --dry --trace

# The picture: what is cut and lost has no tick, what is live isn't lost, and each event says what it is.
text 'recover 63\nbegin none\nlock 0 3\nwrite 0 3 0 01\nlock 1 3\ncommit 0 1\nrecover 63\nbegin none\n' drawn.txt
cp fresh.store store
ok "a picture of all that" ", 2 transactions: 0 survive, 1 lost, 1 undecided<" \
    bash -c "'$run' play store drawn.txt --picture drawn.svg --dry >/dev/null && cat drawn.svg"
holds "a cut, lost commit has no tick" bash -c "! grep -q '>✓<' out && grep -q 'class=\"event cut\">cut<title>event 6, commit 0 1: cut by a crash' out"
holds "a recover is drawn" grep -q 'class="recover"><title>event 7, recover 63: the store is up, 0 page writes<' out
holds "refusals in words" grep -q '>refused 5: the named transaction isn.t live<' out
ok "tips on many events" "^200$" bash -c "head -201 many.txt | tail -200 | '$run' play store - --picture tips.svg --dry >/dev/null
    grep -o '<title>event [0-9]*' tips.svg | sort -u | wc -l"
ok "the picture in the README" "35 events" "$run" play store "$root/docs/timeline.txt" --picture timeline.svg
same "it is the one that is drawn now: else draw it again" timeline.svg "$root/docs/timeline.svg"
