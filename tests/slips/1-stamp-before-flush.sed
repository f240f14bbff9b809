# The arriving row is stamped before the flush.
/^answer box_arrive/,/^}/ {
    /^    if (full)$/,/flush(record/d
    /row arrived/a\
    if (full)\
        flush(record, sheets, victim);
}
