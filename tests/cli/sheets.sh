# Job sheets: as lists, played, and shown where they are bad.
text '{L3W302A5R302}\n' job.txt
ok "a sheet as a list" "^write 0 3 2 A5$" "$run" sheet job.txt
holds "its first event" grep -qx "begin none" out
holds "its last event" grep -qx "commit 0 63" out
"$run" sheet job.txt --raw >job.bin
text '\x1F\x80\x00\x00\x20\x18\x00\x00\x30\x18\x80\xA5\x40\x18\x80\x00\x50\x00\x3F\x00' due.bin
same "a sheet as raw words" job.bin due.bin
ok "a sheet from standard input" "^abort 0$" "$run" sheet - < <(printf '{!')
ok "a line end of another system" "^abort 0$" "$run" sheet - < <(printf '{!\r\n')
ok "a fresh store for sheets" "1056 bytes" "$run" fresh sheets
ok "a sheet played: recovered first" "6 events: 6 done" "$run" sheet job.txt --play sheets
ok "what it wrote" "3  home page 20 +0000A500" "$run" show sheets
text '{{L3}R302L3R302!' nested.txt
ok "a nested sheet, told" "read 0 3 2: .*A5" "$run" play sheets nested.txt --sheet --trace --state sheets.state
holds "an inner transaction has its depth minus 1" grep -q "begin 0" out
ok "a sheet on a state that is up" "^5 events: 5 done" "$run" play sheets job.txt --sheet --state sheets.state
printf 'begin none\n' | "$run" play sheets - --state sheets.state >/dev/null
cp sheets sheets.before
fails "a sheet beside something live" 4 "nothing live, and there are 0" "$run" play sheets job.txt --sheet --state sheets.state
same "it changed nothing" sheets sheets.before
shows() { # NAME SHEET PLACE COULD: a bad sheet, with a caret under the byte
    printf '%s' "$2" >bad.txt
    fails "$1" 4 "refusal 29" "$run" sheet bad.txt
    [ "$(sed -n 2p err)" = "  $2" ] && [ "$(sed -n 3p err)" = "  $(printf '%*s' "$3" '')^" ]; report "$1: the caret" $?
    holds "$1: what could stand there" grep -qF -- "$4" err
}
shows "a bad offset" "{L3W3402A5}" 5 '`0` or `1` could stand there'
shows "a small letter" "{La}" 2 "a digit, 0 to 9 or A to F, could stand there"
shows "a sheet that ends too soon" "{L3" 3 '`!`, `L`, `R`, `W`, `{` or `}` could stand there'
shows "a byte past the end" "{}{}" 2 "nothing could follow: the sheet is over"
shows "no brace" "L3" 0 '`{` could stand there'
shows "too deep" "{{{{{{{{{{{{{{{{{" 16 '`!`, `L`, `R`, `W` or `}` could stand there'
fails "an empty sheet" 4 "the sheet is empty" "$run" sheet - </dev/null
{ printf '{'; printf 'L0%.0s' {1..4095}; printf '}'; } >long.txt
fails "a sheet with too many events" 4 "byte 8189 of the sheet is .L." "$run" sheet long.txt
holds "why it can't stand there" grep -q "at most 4096 events, and transactions nest 16 deep" err
holds "only what stands about it is shown" grep -qE '^  \.\.(L0){20}L0\}$' err
fails "a blank" 4 "byte 1 of the sheet is a blank" "$run" sheet - < <(printf '{ L3}')
fails "a sheet that isn't there" 1 "can't read nothing.txt" "$run" sheet nothing.txt
fails "raw words or a sheet" 2 "not both" "$run" play sheets job.txt --sheet --raw
fails "written or played" 2 "plays it" "$run" sheet job.txt --raw --play sheets
