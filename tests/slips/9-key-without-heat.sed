# The key is computed without the heat.
/^static uint32_t key_of/,/^}/ {
    s/named\.heat \* 1000000 + //
}
