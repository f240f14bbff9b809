# A lone call that fills its room answers More, even when no row remains.
/^answer box_lone/,/^}/ {
    s/^    if (at < end)$/    if (written == lone_room(sheets))/
}
