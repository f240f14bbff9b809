# A row that leaves at the very stamp of the other's coming has not left.
# No session has such stamps: the clock gives none twice.
/^static bool in_memory_together/,/^}/ {
    s/a.ats < b.dts/a.ats <= b.dts/
    s/b.ats < a.dts/b.ats <= a.dts/
}
