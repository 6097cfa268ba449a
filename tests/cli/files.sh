# Files that can't be written: a clear message, nothing lost, nothing left over.
text 'recover 63\nbegin none\nlock 0 5\nwrite 0 5 0 77\ncommit 0 63\n' change.txt
chmod 444 store
fails "read-only store" 1 "store: it is read-only" "$run" play store change.txt
chmod 644 store
fails "answers into a missing folder" 1 "can't write missing/a" "$run" play store change.txt --answers missing/a
fails "answers onto a folder" 1 "it is a folder" "$run" play store change.txt --answers .
ok "a reader that had enough" "^1$" bash -c "yes crash | head -20000 | '$run' encode | head -1; echo \${PIPESTATUS[2]}"
holds "a reader that had enough: no message" test ! -s err
ln -s missing-file dangling
fails "a link to nothing" 1 "dangling: it is a link to a file that isn't there" "$run" play store change.txt --answers dangling
# A file may have 1,024 bytes and a store has more: the write stops halfway.
fails "no room for the store" 1 "can't write store: File too large" \
    bash -c "trap '' XFSZ; ulimit -f 1; '$binary' play store change.txt"
same "nothing lost" store before
no_leftovers .
if [ "$(id -u)" = 0 ] && mkdir disk && mount -t tmpfs -o size=8k tmpfs disk 2>/dev/null; then
    mounted=$folder/disk
    cp store disk/store
    head -c 100000 /dev/zero >disk/filler 2>/dev/null
    fails "full disk" 1 "can't write disk/store: No space left" "$run" play disk/store change.txt
    same "full disk: nothing lost" disk/store before
    rm disk/filler
    mount -o remount,ro disk
    fails "read-only disk" 1 "can't write disk/store: Read-only file system" "$run" play disk/store change.txt
    same "read-only disk: nothing lost" disk/store before
    no_leftovers disk
    umount disk; mounted=
    # Files that can't be replaced in the end: before the store nothing is changed, after it nothing is lost.
    mkdir bound; cp cut.first bound/cut; cp kept.first bound/kept; touch other.file
    if mount --bind cut.first bound/cut 2>/dev/null; then
        mounted=$folder/bound/cut
        fails "a store that can't be replaced in the end" 1 "can't replace bound/cut" \
            "$run" play bound/cut rest.txt --state bound/kept --answers a
        holds "a store that can't be replaced: it is said" grep -q "no file was changed" err
        holds "a store that can't be replaced: nothing is told" test ! -s out
        holds "a store that can't be replaced: no answers" test ! -e a
        umount "$mounted"; mounted=
        same "a store that can't be replaced: the state stays" bound/kept kept.first
        no_leftovers bound
        mount --bind other.file bound/kept; mounted=$folder/bound/kept
        cp kept.first other.file
        fails "a state file that can't be replaced in the end" 7 "can't replace bound/kept" \
            "$run" play bound/cut rest.txt --state bound/kept
        holds "a state file that can't be replaced: it is said" grep -q "the list was played, so don't play it again, and the next play finds the new state" err
        umount "$mounted"; mounted=
        ok "the next play finds the new state" "bound/kept: down" bash -c "'$run' play bound/cut - --state bound/kept </dev/null"
        same "the next play: the store" bound/cut whole
        no_leftovers bound
        cp store told; mount --bind other.file other; mounted=$folder/other
        fails "answers that can't be replaced" 7 "can't replace other" "$run" play told change.txt --answers other
        holds "answers that can't be replaced: it is said" grep -q "the list was played on told, so don't play it again" err
        ok "answers that can't be replaced: the store is" "5  home page 22 +77000000" "$run" show told
        umount "$mounted"; mounted=
    fi
else
    echo "command line: no small disk can be mounted here; a full disk is tried by a size limit and /dev/full only"
fi
if [ "$(id -u)" = 0 ] && command -v setpriv >/dev/null; then
    mkdir locked; cp store locked/store; chmod 666 locked/store; chmod 755 locked "$folder"
    cp "$binary" locked/run; cp change.txt locked/
    fails "read-only folder" 1 "can't write locked/store: Permission denied" \
        setpriv --reuid 65534 --regid 65534 --clear-groups locked/run play locked/store locked/change.txt
    same "read-only folder: nothing lost" locked/store before
fi

# What succeeds replaces the file itself, also behind a link, and keeps its permissions.
ln -s store link; chmod 640 store
ok "play through a link" "5 events: 5 done" "$run" play link change.txt
holds "the link is still a link" test -L link
holds "permissions stay" test "$(stat -c %a store)" = 640
ok "the change is there" "5  home page 22 +77000000" "$run" show store
if [ "$(id -u)" = 0 ]; then
    chown 65534:65534 store
    ok "play on another's store" "4 events" "$run" play store words.txt
    holds "the owner stays" test "$(stat -c %u:%g:%a store)" = 65534:65534:640
fi
# What a kill leaves over has always the same name, and is used again: also if it isn't a plain file.
touch .another.nekahuiro; ok "beside what a kill left over" "a fresh store" "$run" fresh another
cp store victim; cp store victim.before; ln -s victim .another2.nekahuiro
ok "beside a link that somebody laid" "a fresh store" "$run" fresh another2
same "what the link names stays" victim victim.before
fails "a name too long" 1 "can't write n*: File name too long" "$run" fresh "$(printf 'n%.0s' {1..300})"
holds "a name too long: nothing is told as done" test ! -s out
ok "a long name" "a fresh store" "$run" fresh "$(printf 'n%.0s' {1..250})"
ok "fresh --force" "a fresh store" "$run" fresh store --force
ok "and it is fresh" "5  home page 22 +00000000" "$run" show store
no_leftovers .
