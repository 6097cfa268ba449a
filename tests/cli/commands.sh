# get, put, check, shell, and the ways to show a store.
"$run" fresh small --force >/dev/null; cp small small.fresh
zeros=$(printf '00%.0s' {1..32})
ok "get" "^$zeros$" "$run" get small 4
ok "put" "^small: record 4 is 00000003 00000000 .*00000000  .\.{32}.$" "$run" put small 4 00000003
ok "an age that is live" "^live 2$" "$run" age small 4 5 10
ok "put in the middle" "record 3 is 00004865 6C6C6F00 .*\|\.\.Hello\.+\|" "$run" put small 3 48656c6c6f --at 2
ok "the rest of the record stays" "record 3 is FF004865 6C6C6F00" "$run" put small 3 FF
ok "put takes what get prints" "record 5 is FF004865 6C6C6F00" bash -c "'$run' put small 5 \"\$('$run' get small 3)\""
ok "letters beside the hex" "^ +3  home page 20 +FF004865 6C6C6F00 .*\|\.\.Hello\.+\|" "$run" show small
cp small small.before
fails "put of half a byte" 2 "put: .0. isn't bytes in hex" "$run" put small 3 0
fails "put of no hex" 2 "put: .zz. isn't bytes in hex" "$run" put small 3 zz
fails "put of nothing" 2 "HEX is empty" "$run" put small 3 ""
fails "put of too many bytes" 2 "33 bytes from offset 0 on don't fit" "$run" put small 3 "${zeros}00"
fails "put beyond the end" 2 "2 bytes from offset 31 on don't fit" "$run" put small 3 0000 --at 31
fails "put at no offset" 2 "at needs an offset from 0 to 31, and .32. was given" "$run" put small 3 00 --at 32
fails "put to no record" 4 "there is no record 16 .refused 23" "$run" put small 16 00
fails "put to what is no number" 2 "the record .x. isn't a number" "$run" put small x 00
fails "get of no record" 4 "there is no record 16" "$run" get small 16
fails "put to no store" 1 "can't read nothing" "$run" put nothing 3 00
fails "put while busy" 3 "small is busy" flock . "$binary" put small 3 00 --wait 0
fails "put without room" 1 "can't write small: File too large" bash -c "trap '' XFSZ; ulimit -f 1; '$binary' put small 3 77"
same "all refused: the store stays" small small.before
fails "put that can't be told" 7 "the record was written, in small" bash -c "'$run' put small 3 77 >/dev/full"
ok "put that can't be told is done" "^7700" "$run" get small 3
no_leftovers .
putter() { # RECORD: who is told that it is done finds it
    local byte
    for byte in 11 22 33 44 55; do
        "$binary" put small "$1" $byte --wait 60 >/dev/null 2>>err && [ "$("$binary" get small "$1" | cut -c1-2)" = $byte ] || echo "record $1 lost $byte" >>err
    done
}
: >err; : >out; for record in 8 9 10 11 12 13; do putter $record & done; wait
[ ! -s err ]; report "six putters at the same moment" $?

# check: what page 0 says, what a recover would do.
ok "check of an empty page 0" "a recover has nothing to do, and writes no page" "$run" check small.fresh
text 'recover\nbegin none as a\nlock a 3\nwrite a 3 2 A5\ncommit a 2\n' cut.txt
cp small.fresh halfway; "$run" play halfway cut.txt >/dev/null; cp halfway halfway.before
ok "check of a committed page 0" "a recover makes 2 page writes:" "$run" check halfway
holds "check: which page" grep -qx "  home page 20 from intention page 4: record 3, offset 2: 00 becomes A5" out
same "check changes nothing" halfway halfway.before
ok "get through a commit that is under way" "^0000A5" "$run" get halfway 3
ok "put over a commit that is under way" "record 3 is 7700A500" "$run" put halfway 3 77
cp small.fresh waiting; sed 's/commit a 2/prepare a 7/' cut.txt | "$run" play waiting - >/dev/null; cp waiting waiting.before
ok "check of a prepared page 0" "decide commit 7. would change:" "$run" check waiting
holds "check: what the decision would change" grep -q "record 3, offset 2: 00 becomes A5" out
fails "put to what is prepared" 4 "record 3 of waiting wasn't written: lock 0 3: refused 8" "$run" put waiting 3 00
fails "put beside what is prepared" 4 "record 4 of waiting wasn't written: commit 0 63: refused 13" "$run" put waiting 4 00
same "put beside what is prepared changes nothing" waiting waiting.before
fails "check of a damaged page 0" 4 "damaged: refused 4: page 0 is damaged: it says committed but names no record; a recover is refused" "$run" check damaged
fails "get of a damaged store" 4 "refused 4: page 0 is damaged" "$run" get damaged 3
fails "put to a damaged store" 4 "recover 63: refused 4: page 0 is damaged" "$run" put damaged 3 00
fails "check of no store" 4 "no store: it has [0-9]* bytes" "$run" check cut.txt

# show --diff and --state.
ok "a difference" "^page 20, the home page of record 3$" "$run" show small.fresh --diff halfway
holds "the bytes that differ are marked" grep -qE "^ +\^\^  \^\^$" out
ok "no difference" "^small.fresh and other.fresh are equal$" bash -c "cp small.fresh other.fresh; '$run' show small.fresh --diff other.fresh"
fails "a difference to itself" 2 "small.fresh is named twice" "$run" show small.fresh --diff ./small.fresh
fails "a difference to no store" 4 "cut.txt is no store" "$run" show small.fresh --diff cut.txt
cp small.fresh live; text 'recover\nbegin none as a\nlock a 3\nwrite a 3 0 42\nbegin a as b\nread-lock b 4\n' live.list
"$run" play live live.list --state live.state >/dev/null
ok "what is live" "^live.state: up, live: 0, 1$" "$run" show live --state live.state
holds "locks" grep -qx "record 3 held by 0; record 4 held to read by 1" out
holds "versions" grep -qE "^  its record  3  42000000 .*\|B\.+\|" out
holds "children" grep -qx "transaction 1, a child of 0" out
fails "what is live in no file" 1 "can't read nothing: No such file" "$run" show live --state nothing
fails "what is live beside another store" 4 "live.state goes with the store .live. of its folder" "$run" show small.fresh --state live.state
fails "both at once" 2 "diff and --state don't go together" "$run" show live --state live.state --diff small
cp live live.before; cp live.state live.state.before
fails "put beside a live lock" 4 "record 3 of live wasn't written: lock 2 3: refused 8" "$run" put live 3 00 --state live.state
same "put beside a live lock changes nothing" live.state live.state.before
ok "put beside what is live" "record 5 is AA" "$run" put live 5 AA --state live.state
ok "and that is still live" "^live.state: up, live: 0, 1$" "$run" show live --state live.state

# shell: each event is answered at once, and what is answered is in the files.
cp small.fresh typed
ok "a shell" "^transaction 0 begins, called a$" bash -c "'$run' shell typed <cut.txt"
holds "a shell: a cut" grep -q "the store is down; page 0 (15 10 00 08 ..): committed, record 3" out
same "a shell leaves what a play leaves" typed halfway.before
ok "a shell's own words" "up, live: 0; record 3 held by 0" bash -c "printf 'recover\nbegin none\nlock 0 3\nlocks\nquit\nwrite 0 3 0 99\n' | '$run' shell typed"
holds "a shell: what isn't kept is told" grep -qx "what is live at the end isn't kept without --state" out
fails "a line that is no event ends it" 4 "standard input: .lok. is no event" bash -c "printf 'crash\nlok 0 1\ncrash\n' | '$run' shell typed"
holds "and what came before is answered" grep -qx "the store is down" out
fails "a name that nobody has, in a shell" 4 "no transaction is called .x." bash -c "echo lock x 3 | '$run' shell typed"
fails "a very long line" 4 "a line has more than 4096 bytes" bash -c "head -c 100000 /dev/zero | tr '\0' x | '$run' shell typed"
fails "a shell that is busy" 3 "typed is busy" bash -c "echo recover | flock . '$binary' shell typed --wait 0"
mkfifo lines; "$binary" shell typed <lines >answers.shell 2>shell.err & shell=$!; exec 7>lines
printf 'recover\nbegin none as a\nlock a 6\nwrite a 6 0 55\ncommit a\n' >&7
holds "it answers while more may come" soon grep -q "done, 4 page writes" answers.shell
kill -9 $shell; wait $shell 2>/dev/null; exec 7>&-
ok "what was answered is in the store, also after a kill" "^55" "$run" get typed 6
"$binary" shell typed --state typed.state <lines >answers.shell 2>shell.err & shell=$!; exec 7>lines
printf 'recover\nbegin none as a\nlock a 6\nwrite a 6 0 66\n' >&7
holds "it answers with a state" soon bash -c "[ \$(grep -c ^done answers.shell) = 2 ]"
ok "another command meets it" "record 7 is 77" "$run" put typed 7 77 --state typed.state
printf 'lock a 8\nlock 0 8\nwrite 0 6 1 67\n' >&7
holds "the shell goes on from there" soon grep -q "record 6 held by 0; record 8 held by 0" answers.shell
holds "an old name stands for nobody then" grep -q "refused 5: the named transaction isn't live" answers.shell
holds "and it says so" grep -q "another command played on it: names from before stand for nobody now" answers.shell
holds "it has answered all" soon bash -c "[ \$(grep -c ^done answers.shell) = 4 ]"
kill -9 $shell; wait $shell 2>/dev/null; exec 7>&-
ok "what is live is kept, also after a kill" "its record  6  66670000" "$run" show typed --state typed.state
"$binary" shell typed <lines >answers.shell 2>shell.err & shell=$!; exec 7>lines
printf 'recover\nbegin none\n' >&7; soon grep -q "transaction 0 begins" answers.shell
"$run" put typed 9 99 >/dev/null; echo lock 0 3 >&7; exec 7>&-; wait $shell; status=$?
[ $status = 3 ] && grep -q "typed was changed by another command since the last event" shell.err; report "without a state file a change by another ends it" $?
if command -v script >/dev/null; then
    ok "a shell at a terminal goes on after a bad line" "no event" bash -c "{ sleep 0.3; printf 'lok\nrecover\nquit\n'; } | script -qec \"'$binary' shell typed\" /dev/null"
    holds "and takes the next" grep -q "the store is up" out
fi
