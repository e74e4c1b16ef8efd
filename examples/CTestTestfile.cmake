# The examples of `check` as tests of CTest, with `rviommu` on the path: ctest --test-dir examples -j 8
# Each script runs in a process of its own, on an image of its own. A script without an image is one line:
#     add_test("NAME" "rviommu" "check" "NAME.script")

foreach(example "one_fence --settled" "in_flight --settled" "no_fence --settled" "two_fences --settled" "sixteen_pages --settled"
        "freed_table --settled" "freed_page --settled" "owed --settled" "seventy_pages --settled" "before_the_store --ahead"
        "missing_invalidation --stale" "stopped_queue --stale")
    string(REPLACE " " ";" words "${example}")
    list(GET words 0 name)
    list(GET words 1 option)
    add_test("${name}" "rviommu" "check" "${option}" "--image" "${name}.asm" "${name}.script")
endforeach()

# The drivers of these have a fault that `check` finds.
foreach(name no_fence two_fences sixteen_pages freed_table owed seventy_pages before_the_store missing_invalidation stopped_queue)
    set_tests_properties("${name}" PROPERTIES WILL_FAIL TRUE)
endforeach()
