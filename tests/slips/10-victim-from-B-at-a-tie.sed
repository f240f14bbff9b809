# The victim comes from B when both sources have as many rows in memory.
# Demand 3 allows any victim.
/^static uint32_t fuller_source/,/^}/ {
    s/of_b > of_a/of_b >= of_a/
}
