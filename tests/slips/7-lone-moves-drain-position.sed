# A lone call moves the drain position too.
/^answer box_lone/,/^}/ {
    s/record->lone_position\[source\] = /record->position = &/
}
