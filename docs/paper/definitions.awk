# The definitions of modules: for each a line MODULE/NAME, the number of its first line and its file. Fields belong to their record.
FNR == 1 {
    module = FILENAME
    sub(/.*\//, "", module)
    sub(/\.antt$/, "", module)
    record = -1
}
/^ *$/ || /^ *--/ { next }
{
    match($0, /^ */)
    indent = RLENGTH
    if (record >= 0 && indent <= record) record = -1
}
/^ *(unfoldable |abbrev )?pub / {
    rest = $0
    sub(/^ */, "", rest)
    plain = rest ~ /^pub [^dr]/ || rest ~ /^pub (d|r)/ && rest !~ /^pub (data|record) /
    if (record >= 0 && plain) next
    if (rest ~ /^pub record /) record = indent
    sub(/^(unfoldable |abbrev )?pub (data |record )?/, "", rest)
    sub(/[ :({].*/, "", rest)
    print module "/" rest, FNR, FILENAME
}
