# The worked list.
ok "demo" "record 3 is 0000A500" "$run" demo
ok "help" "encode" "$run" help
ok "bench" "^mixed( [0-9]+\.[0-9]){8}( [0-9]+\.[0-9][0-9]){3}$" "$run" bench --quick
holds "bench of edition 2" grep -qE "^edition-2-mixed( [0-9]+\.[0-9]){8}( [0-9]+\.[0-9][0-9]){3}$" out
fails "bench with something else" 2 "bench takes" "$run" bench --frob
ok "fresh" "1056 bytes" "$run" fresh store
ok "show a fresh store" "empty, no commit is under way" "$run" show store
text '80003F00 1F800000 10000000 # three words\n20980000\n309880A5\n50803F00\n' hex.txt
text '10000000\n20980000\n30988011\n60800000\n50000200\n' rest.txt
cat rest.txt >>hex.txt
ok "play hex words" "^50000200 0B02$" "$run" play store hex.txt
ok "a cut commit shows its intention page" "3  intention page 4 +0000A500" "$run" show store
ok "the commit page in words" "15 10 00 08 \.\.\): committed, record 3" "$run" show store
text 'recover 63\nbegin none\n\nlock 0 3  # a comment\nread 0 3 2\n' words.txt
ok "play words" "^40188000 00A5$" "$run" play store words.txt
ok "recovered" "3  home page 20 +0000A500" "$run" show store
ok "age of a record" "^ahead -42235$" "$run" age store 3 5 10
ok "age at the limit" "^live 5$" "$run" age store 2 5 5
ok "age above the limit" "^stale 6$" "$run" age store 2 6 5

# Words, hex and raw bytes are one list.
ok "words to a word" "^309880A5$" "$run" encode write 1 3 2 A5
ok "a word to words" "^write 1 3 2 A5$" "$run" encode 309880A5
ok "a bad word to words" "bad, answered 1" "$run" encode 70000001
ok "a lock to read, to a word" "^20980001$" "$run" encode read-lock 1 3
ok "a word to a lock to read" "^read-lock 1 3$" "$run" encode 20980001
ok "a mode that there isn't" "bad, answered 1: lock in mode 2" "$run" encode 20980002
ok "an abort with a report, to a word" "^60800001$" "$run" encode abort 1 report
ok "a word to an abort with a report" "^abort 1 report$" "$run" encode 60800001
ok "a report that there isn't" "bad, answered 1: abort with value 2" "$run" encode 60800002
fails "an abort with something else" 4 "abort 1 why" "$run" encode abort 1 why
ok "raw bytes to words" "^lock 0 3$" bash -c "'$run' encode --raw <words.txt | '$run' encode --from-raw"
bash -c "'$run' encode --raw <words.txt >raw.bin"
ok "play raw bytes" "^40188000 00A5$" "$run" play store raw.bin --raw
fails "raw bytes without --raw" 4 "raw.bin, line 1: the byte 80 is no text" "$run" play store raw.bin
holds "raw bytes without --raw: the mend" grep -q "raw event words are taken only with --raw" err
ok "play standard input" "^40188000 00A5$" bash -c "'$run' play store - <words.txt"

# Answers, trace and picture.
ok "answers to a file" "4 events: 4 done" "$run" play store words.txt --answers answers.bin
text '\x00\x00\x00\x00\x00\x00\x00\xA5' due.bin
same "the answers" answers.bin due.bin
ok "answers to a pipe" "^ 00 00 00 00 00 00 00 a5" bash -c "'$run' play store words.txt --answers /dev/stdout | od -An -tx1"
ok "answers to a program" "^ 00 a5$" bash -c "'$run' play store words.txt --answers >(tail -c 2 | od -An -tx1 >last) >/dev/null && sleep 1 && cat last"
ok "a list from a program" "^4 events: 4 done" bash -c "'$run' play store <(cat words.txt)"
ok "trace" "record 3 held by 0" "$run" play store words.txt --trace
ok "another store" "a fresh store" "$run" fresh other
ok "trace of a crash" "transaction 0 survives: the commit page was written" "$run" play other hex.txt --trace --dry
ok "picture" "11 events" "$run" play other hex.txt --picture run.svg
holds "the picture is SVG" grep -q '</svg>' run.svg
text 'recover 63\nbegin none\nbegin none\nread-lock 0 3\nread-lock 1 3\n' readers.txt
text 'write 1 3 0 01\nlock 1 3\ncommit 0 63\nlock 1 3\n' raised.txt
ok "trace of readers" "record 3 held to read by 0, 1$" bash -c "cat readers.txt raised.txt | '$run' play other - --trace --dry"
holds "a reader can't write" grep -q "write 1 3 0 01: refused 9: .* only to read" out
holds "a reader waits to write" grep -q "lock 1 3: refused 8" out
holds "a reader that writes" grep -q "record 3 held by 1$" out
ok "picture of readers" ">0r 1r<" \
    bash -c "cat readers.txt raised.txt | '$run' play other - --picture readers.svg --dry && cat readers.svg"
text 'recover 63\nbegin none\nbegin 0\nread-lock 1 3\nabort 1 report\nbegin none\nlock 1 3\n' reported.txt
ok "trace of a report" "abort 1 report: done, with a report" "$run" play other reported.txt --trace --dry
holds "the parent retains" grep -q "record 3 retained to read by 0$" out
holds "a stranger can't write" grep -q "lock 1 3: refused 8" out
ok "picture of a report" ">✗↑<" bash -c "'$run' play other reported.txt --picture reported.svg --dry && cat reported.svg"
text 'recover 63\nbegin none\nlock 0 3\nbegin 0\nread 0 3 0\nabort 1\nread 0 3 0\n' parent.txt
ok "trace of a parent beside its child" "read 0 3 0: refused 14: a child is still live" "$run" play other parent.txt --trace --dry
holds "and after it" grep -q "read 0 3 0: the byte is 00" out
cp store before
ok "a dry run" "a dry run: the store is left as it was" "$run" play store hex.txt --dry
same "a dry run leaves the store" store before
