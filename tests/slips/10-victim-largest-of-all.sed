# The victim is the largest portion of all, A before B at a tie.
# Demand 3 allows any victim.
/^static uint32_t fuller_source/,/^}/ {
    s/memory_rows_of_source(record, sheets, \(SOURCE_[AB]\))/memory_rows_of(record, sheets,\
        largest_portion(record, sheets, \1))/
}
