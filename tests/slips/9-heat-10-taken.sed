# Heat 10 is taken.
/^static bool bad_key/,/^}/ {
    s/out_of_range(named\.heat, 1, 9)/out_of_range(named.heat, 1, 10)/
}
