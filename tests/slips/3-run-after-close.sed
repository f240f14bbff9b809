# A run goes on after both sources are closed.
/^answer box_run/,/^}/ {
    s/why != NO_REFUSAL/& \&\& why != CLOSED/
}
