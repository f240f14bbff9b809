# An arrival meets the rows of its car and lap in any heat.
/^static uint32_t partners/,/^}/ {
    s/seen\.key != key/seen.key % 1000000 != key % 1000000/
}
