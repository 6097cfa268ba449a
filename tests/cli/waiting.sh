# Transactions that wait on each other: in words, as a drawing, and what is refused.
ok "a fresh store to wait on" "1056 bytes" "$run" fresh waited
text 'recover 63\nbegin none\nbegin 0\nlock 1 1\nbegin 0\nbegin none\nlock 3 2\nlock 2 2\nlock 3 1\n' waited.txt
ok "two locks are refused" "refused 8" "$run" play waited waited.txt --state waited.state --trace
text 'lock 2 2 # refused twice\n20080000 21880000\n' hex.rows
text 'lock 2 2 # waits for 3\n\nlock 3 1\n' waited.rows
ok "a ring" "^0 waits for its child 2, which waits for 3, which waits for 0$" \
    "$run" waiting waited.state waited.rows --picture ring.svg
holds "the ring is drawn" grep -q '<title>3 waits for 0</title>' ring.svg
holds "who is in it" grep -q 'class="caught"><title>transaction 2</title>' ring.svg
holds "who isn't" grep -q 'class="calm"><title>transaction 1</title>' ring.svg
holds "what is waited for" grep -q '>waits for record 2</text>' ring.svg
holds "what is held" grep -q '>holds record 1</text>' ring.svg
ok "from standard input" "^0 waits for" bash -c "'$run' waiting waited.state - <waited.rows"
ok "as hex words, a grantable one among them" "^0 waits for its child 2, which waits for 3, which waits for 0$" \
    "$run" waiting waited.state hex.rows
text 'lock 2 2\n' one.rows
ok "no ring" "^no ring" "$run" waiting waited.state one.rows --picture none.svg
holds "no ring is drawn" bash -c "! grep -q 'class=\"wait\"' none.svg"
ok "no rows" "^no ring" "$run" waiting waited.state /dev/null
text 'begin 0\n' begin.rows
fails "only locks wait" 4 "begin.rows, line 1: only a lock can be waited for, in .begin 0." \
    "$run" waiting waited.state begin.rows
text 'lock 2 2\nlock 9 2\n' dead.rows
fails "a dead transaction" 4 "dead.rows, line 2: transaction 9 isn't live \(refusal 5\)" "$run" waiting waited.state dead.rows
for row in {1..25}; do echo "lock 2 2"; done >many.rows
fails "too many rows" 4 "many.rows: 25 locks, but a report takes at most 24 \(refusal 26\)" \
    "$run" waiting waited.state many.rows
fails "no such state file" 1 "can't read missing.state: there is no such file" "$run" waiting missing.state waited.rows
fails "a store is no state file" 4 "waited is no state file" "$run" waiting waited waited.rows
fails "rows are missing" 2 "ROWS is missing" "$run" waiting waited.state
fails "a picture of another kind" 2 "draws SVG" "$run" waiting waited.state waited.rows --picture ring.png
fails "the rows aren't drawn over" 2 "is named twice, for the rows and for the picture" \
    "$run" waiting waited.state waited.rows --picture waited.rows
text 'abort 3\nlock 2 2\n' broken.txt
ok "an abort breaks the ring" "2 events" "$run" play waited broken.txt --state waited.state --strict
ok "and there is none any more" "^no ring" "$run" waiting waited.state one.rows
ok "a fresh store for the ring in the README" "1056 bytes" "$run" fresh ringed
ok "the list of the ring in the README" "2 refused" "$run" play ringed "$root/docs/ring.txt" --state ringed.state
ok "the ring in the README" "^0 waits for its child 2" \
    "$run" waiting ringed.state "$root/docs/ring-rows.txt" --picture ringed.svg
same "the ring is the one that is drawn now: else draw it again" ringed.svg "$root/docs/ring.svg"
