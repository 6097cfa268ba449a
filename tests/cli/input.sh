# Bad input: the line, the reason and the mend; the store stays.
text 'recover 63\nbegin none\nlock 0 17\n' bad.txt
fails "bad record" 4 "bad.txt, line 3: the record .17. isn't a number from 0 to 15" "$run" play store bad.txt
holds "bad record: the mend" grep -q 'write `lock TRANSACTION RECORD`' err
fails "unknown event" 4 "line 1: .lok. is no event" bash -c "echo lok 0 1 | '$run' play store -"
fails "a word missing" 4 "the record is missing" bash -c "echo lock 0 | '$run' play store -"
fails "a word too many" 4 "one word too many" bash -c "echo crash now | '$run' play store -"
fails "bad value" 4 "isn't a hex number" bash -c "echo write 0 0 0 100 | '$run' play store -"
fails "short hex word" 4 "8 hex digits" bash -c "echo 8000F | '$run' play store -"
fails "odd hex" 4 ".A0003F0. isn't an event word" bash -c "echo A0003F0 | '$run' play store -"
fails "a letter that is no text" 4 "latin, line 2: the byte E4 is no text" bash -c "printf 'crash\ncrash # \344\n' >latin; '$run' play store latin"
fails "UTF-16" 4 "seems to be UTF-16" bash -c "printf '\377\376c\0' | '$run' play store -"
fails "a very long word" 4 "line 1: a word of 100000 letters is no event, in .xxx" bash -c "head -c 100000 /dev/zero | tr '\0' x | '$run' play store -"
holds "a very long word: a short message" test "$(stat -c %s err)" -lt 300
text '\xEF\xBB\xBFcrash\r\n\r\n# a comment\r\n\tcrash # and one\r\n' crlf.txt
ok "CRLF, tabs and a byte order mark" "^2 events: 2 done" "$run" play store crlf.txt
ok "one event" "^1 event: 1 done" bash -c "echo crash | '$run' play store -"
ok "raw words that look like text" "^30404042 0200$" bash -c "printf 0@@B | '$run' play store - --raw"
ok "raw writes" "^309880A5 0200$" bash -c "printf '\060\230\200\245' | '$run' play store - --raw"
fails "raw bytes cut off" 4 "3 raw bytes" bash -c "head -c 3 raw.bin | '$run' play store - --raw"
fails "too many events" 4 "4097 events.*refusal 20" bash -c "yes crash | head -4097 | '$run' play store -"
ok "as many events as there may be" "4096 events" bash -c "yes crash | head -4096 | '$run' play store - --answers a4096"
ok "an empty list" "^0 events" bash -c "'$run' play store - </dev/null"
head -c 1055 store >short
fails "short store" 4 "1055 bytes .refused 22" "$run" play short words.txt
fails "an endless store" 4 "more than 1056 bytes .refused 22" "$run" show /dev/zero
fails "a store that can't be replaced" 1 "no plain file" "$run" play /dev/null words.txt
fails "no store" 1 "can't read nothing" "$run" show nothing
fails "a folder for a store" 1 "is a folder, and a store is a file" "$run" play . words.txt
fails "a folder to show" 1 "can't read .: it is a folder" "$run" show .
fails "fresh onto a folder" 1 "is a folder" "$run" fresh . --force
fails "no list" 1 "can't read nothing: No such file or directory$" "$run" play store nothing
holds "no list: the mend" grep -q "it should be a list of events" err
fails "a folder for standard input" 1 "can't read standard input: it is a folder" bash -c "'$run' play store - <."
fails "record 16" 4 "refused 23" "$run" age store 16 0 0
fails "clock below 0" 2 "isn't a number of minutes" "$run" age store 3 -5 0
fails "no command" 2 "no command given" "$run"
fails "unknown command" 2 "no command .frob." "$run" frob
fails "unknown option" 2 "there is no option .--frob." "$run" play store words.txt --frob
holds "unknown option: the mend" grep -qF 'write `./nekahuiro play STORE EVENTS [--answers FILE] [--trace]' err
fails "option without a file" 2 "needs FILE, and nothing was given" "$run" play store words.txt --answers
fails "option for a file" 2 "needs FILE, and .--trace. was given" "$run" play store words.txt --answers --trace
fails "no file but -" 2 "needs FILE, and .-. was given" "$run" play store words.txt --answers -
fails "option given twice" 2 "answers is given twice" "$run" play store words.txt --answers a --answers b
fails "unknown option of fresh" 2 "fresh: there is no option .--frob." "$run" fresh --frob
fails "fresh without a name" 2 "fresh: STORE is missing" "$run" fresh --force
fails "a name too many" 2 "show: .other. is one word too many" "$run" show store other
fails "a name missing" 2 "play: EVENTS is missing" "$run" play store
fails "an empty name" 2 "show: STORE is empty" "$run" show ""
fails "a store on standard input" 2 "STORE can't be standard input" "$run" play - words.txt
fails "a name that is no text" 2 "isn't UTF-8 text" "$run" show $'\xFF'
fails "record that is no number" 2 "the record .x. isn't a number" "$run" age store x 5 10
fails "clock too large" 2 "isn't a number of minutes from 0 to 4294967295" "$run" age store 3 4294967296 10
fails "a bad event to encode" 4 "the event given: the record .17. isn't .* 0 to 15, in .lock 0 17.$" "$run" encode lock 0 17
fails "encode --raw with an event" 2 "raw takes no EVENT" "$run" encode --raw crash
fails "encode of an empty event" 2 "EVENT is empty" "$run" encode ""
commands=$("$run" help | sed -n 's|^  ./nekahuiro \([a-z]*\) .*|\1|p')
holds "the help lists the commands" test "$(wc -w <<<"$commands")" -ge 8
for command in $commands; do
    ok "help of $command" "^./nekahuiro $command" "$run" $command --help
    ok "the same help of $command" "^./nekahuiro $command" "$run" help $command
done
fails "help of what there isn't" 2 "no command .frob." "$run" help frob
ok "all exit statuses in the help" "^  7  done, but not told" "$run" help
ok "how lists are written, in the help" "^EVENTS is a file" "$run" --help
ok "version" "^nekahuiro [0-9.]+ .state files of version 3.$" "$run" --version
ok "an option with =" "record 3 held by 0" "$run" play store --portions=1 words.txt --trace --dry
fails "an option with = and nothing" 2 "answers needs FILE, and nothing was given" "$run" play store words.txt --answers=
fails "a value where there is none" 2 "trace takes nothing after a =" "$run" play store words.txt --trace=1
fails "escapes on the terminal" 4 'a.u.1b.c is no store' bash -c "cp words.txt \$'a\ec' && '$run' show \$'a\ec'"
fails "escapes of a command" 2 'no command .a.u.1b.b' "$run" $'a\eb'
holds "no escape is written" bash -c "! grep -q \$'\e' err"
ok "escapes of a name that is told" '^a.u.1b.d: a fresh store' "$run" fresh $'a\ed'
fails "a clock with a sign" 2 "the clock .\+5. isn't a number of minutes" "$run" age store 3 +5 10
fails "portions with a sign" 2 "from 1 to 4096, and .\+5. was given" "$run" play store words.txt --portions +5
fails "a wait that is no number" 2 "wait needs a number of seconds" "$run" play store words.txt --wait soon
fails "a picture that is no SVG" 2 "picture draws SVG, and x.png is the name of something else" "$run" play store words.txt --picture x.png
ok "a name after --" "a fresh store" "$run" fresh -- -odd
holds "a name after --: its file" test -s ./-odd
fails "answers over the store" 2 "store is named twice, for the store and for the answers" "$run" play store words.txt --answers ./store
fails "picture over the list" 2 "words.txt is named twice" "$run" play store words.txt --picture words.txt
fails "the store for a list" 2 "store is named twice, for the store and for the events" "$run" play store store
fails "two new files in one" 2 "new is named twice, for the answers and for the picture" "$run" play store words.txt --answers new --picture ./new
fails "answers over standard input" 2 "words.txt is named twice, for the events and for the answers" \
    bash -c "'$run' play store - --answers words.txt <words.txt"
fails "answers over the output" 2 "both is named twice, for the output and for the answers" \
    bash -c "'$run' play store words.txt --answers both >both"
fails "fresh over a store" 4 "is there already" "$run" fresh store
same "all refused: the store stays" store before
{ printf '\x15'; head -c 1055 /dev/zero; } >damaged
cp damaged damaged.before
ok "a damaged store in words" "damaged, it says committed but names no record" "$run" show damaged
fails "age of a damaged store" 4 "refused 4" "$run" age damaged 3 0 0
ok "play on a damaged store" "^80003F00 0400$" "$run" play damaged words.txt
holds "a refused event: why" grep -qx "refused 4: page 0 is damaged: event 1" out
ok "why an event was refused" "recover 63: refused 4: page 0 is damaged" "$run" play damaged words.txt --trace
same "a damaged store stays" damaged damaged.before
