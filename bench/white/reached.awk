# How often callgrind saw `utf8::look_longer` called. Of a text without characters of four bytes each such look reaches the test, of one whose longer
# characters all have four bytes none does, and of others the test is reached at most so often. `line` is the row so far, with its characters by their bytes last.
/^c?fn=/ {
    id = $0
    sub(/^c?fn=/, "", id)
    at = index(id, ") ")
    if (at) { name[substr(id, 1, at)] = substr(id, at + 2); id = substr(id, 1, at) }
    wanted = /^cfn=/ && name[id] ~ /look_longer/
}
/^calls=/ && wanted { looks += substr($1, 7) }
END {
    split(line, column, "|")
    reached = column[7] == 0 ? looks + 0 : column[5] + column[6] == 0 ? 0 : "at most " looks
    print line looks + 0 "|" reached "|"
}
