# The victim is the higher partition at a tie within its source.
# Demand 3 allows any victim.
/^static portion largest_portion/,/^}/ {
    s/, tried) > memory_rows_of/, tried) >= memory_rows_of/
}
