# The drain tests the lists of B only.
/^static uint32_t next_left/,/^}/ {
    s/!done_before(record, sheets, a, b)/!in_memory_together(a, b)\
            \&\& !used_by_run(record, sheets, SOURCE_B, b, a)/
}
