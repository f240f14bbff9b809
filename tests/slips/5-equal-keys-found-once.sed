# An arrival finds equal keys of the other source once.
/^static uint32_t partners/,/^}/ {
    /found\[count++\]/a\
        break;
}
