# A row in memory counts as having left.
/^static bool in_memory_together/,/^}/ {
    s/b.dts == 0 || //
    s/a.dts == 0 || //
}
