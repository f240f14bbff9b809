# Only the rows of the other source that are in memory count as partners.
/^static bool has_partner/,/^}/ {
    s/seen\.key == key/in_memory(seen) \&\& &/
}
