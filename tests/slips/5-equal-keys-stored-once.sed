# An arrival with a key that its source has already is not stored again.
/^answer box_arrive/,/^}/ {
    /uint32_t key =/a\
    for (uint32_t r = 0; r < record->rows[source]; r++)\
        if (row_at(sheets, source, r).key == key)\
            return answered(TAKEN, 0);
}
