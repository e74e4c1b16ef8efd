#!/bin/sh
# With an allocation refused, the call that takes it answers its own fault for want of memory, and a test that makes the call
# ends in this fault. Each test of crates/iom_tests/src/refused.rt takes so many allocations before that those of its calls are
# the thirteenth to the fifteenth; where a call takes fewer, the list below has the last of them as a third word.
top=$(cd "$(dirname "$0")/.." && pwd) || exit 1

for number in 13 14 15; do
    seen=$(cd "$top/crates/iom_tests" && rt try --test --fail-alloc "$number" -- refused:: 2>&1)
    told=$(printf '%s\n' "$seen" | awk '$1 == "test" { test = $2 } $1 == "error:" { print test, $2 }')
    # The first allocation of a platform is that of its memory.
    case $number in
    13) made=OutOfMemory ;;
    *) made=AllocError ;;
    esac
    while read -r test fault last; do
        [ "$number" -le "${last:-15}" ] || continue
        if ! printf '%s\n' "$told" | grep -qxF "refused::$test $fault"; then
            printf '%s\n' "$seen"
            echo "refused memory: FAILED, of $test at allocation $number"
            exit 1
        fi
    done <<END
device_reads_what_the_hart_stored $made
caches_and_a_trace_are_made AllocError
messages_are_made AllocError 13
copy_for_the_steps AllocError
copies_go_their_own_ways AllocError
block_device_is_copied AllocError
platform_with_a_device_is_copied AllocError
memory_and_devices_are_loaded OutOfMemory
caches_are_made_for_an_image OutOfMemory
image_is_played OutOfMemory
caches_and_a_trace_are_made_for_a_played_image OutOfMemory
text_is_read OutOfMemory
image_is_written OutOfMemory
image_is_upgraded OutOfMemory 13
items_are_listed OutOfMemory
parts_are_copied AllocError
memory_is_made_of_words OutOfMemory 13
memory_is_taken OutOfMemory 13
words_are_put AllocError 14
board_is_taken OutOfMemory
words_are_read_from_bytes OutOfMemory 13
words_are_written_as_bytes AllocError
steps_are_followed AllocError
steps_are_judged AllocError
refused_steps_are_listed AllocError
pages_are_read_ahead $made
entry_is_held_alone AllocError
END
done
echo "refused memory: ok"
