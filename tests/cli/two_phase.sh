# Prepare, decide and query in lists, a store with something prepared, and the depot.
ok "a prepare to a word" "^90003F07$" "$run" encode prepare 0 63 7
ok "a word to a decision" "^decide commit 1 255$" "$run" encode A00041FF
ok "a decision to a word" "^A0003F00$" "$run" encode decide abort 63 0
ok "a word to a query" "^query 42$" "$run" encode B000002A
ok "a decision that there isn't" "bad, answered 1: decide with offset 2" "$run" encode A0008007
ok "a fresh store to prepare on" "1056 bytes" "$run" fresh prepared
text 'recover 63\nbegin none\nlock 0 3\nwrite 0 3 2 A5\nprepare 0 63 7\nbegin none\nlock 0 3\nabort 0\n' prepare.txt
ok "a prepare" "prepare 0 63 7: prepared, 2 page writes" "$run" play prepared prepare.txt --trace
holds "what is prepared is locked" grep -q "record 3 locked until the decision on identity 7" out
holds "what is prepared is undecided" grep -q "2 transactions: 0 survive, 1 lost, 1 undecided" out
ok "the prepared page in words" "13 10 00 08 07 \.\.\): prepared with identity 7, record 3" "$run" show prepared
ok "what is prepared isn't settled" "3  home page 20 +00000000" "$run" show prepared
text 'recover 63\nquery 7\nquery 8\ndecide abort 63 8\ndecide commit 1 7\nrecover 63\nquery 7\n' decide.txt
ok "a decision" "decide commit 1 7: cut by a crash after 1 page write; the decision is stored" \
    "$run" play prepared decide.txt --trace --picture prepared.svg
holds "a query" grep -q "query 7: it is prepared" out
holds "a query for another" grep -q "query 8: it isn't prepared" out
holds "a decision for another" grep -q "decide abort 63 8: nothing to do" out
holds "the picture shows what waits" grep -q "locked until the decision on identity 7" prepared.svg
ok "what was decided is settled" "3  home page 20 +0000A500" "$run" show prepared
ok "the depot starts" "^asked prepare$" "$run" depot idle start
ok "the depot commits" "^committed commit$" "$run" depot asked yes
ok "the depot gives up" "^aborted abort$" "$run" depot asked give-up
ok "the depot keeps to its decision" "^aborted abort$" "$run" depot aborted yes
fails "the depot wasn't asked" 4 "yes in state idle: refused 27" "$run" depot idle yes
fails "a state that there isn't" 2 "there is no state .busy." "$run" depot busy yes
fails "a message that there isn't" 2 "there is no message .maybe." "$run" depot asked maybe
