# Brings the turns of all systems together: of each line `system kind rows nanoseconds` the least counts.
# Fails where two systems do not end with the same script: then they did not do the same work.
$2 == "checksum" {
    if (count++ == 0)
        script = $3 " " $4
    else if ($3 " " $4 != script)
        unlike = unlike " " $1
    next
}

{
    key = $1 " " $2 " " $3
    if (!(key in least))
        order[++keys] = key
    if (!(key in least) || $4 < least[key])
        least[key] = $4
}

END {
    if (count == 0 || unlike != "") {
        print "bench: the scripts at the end differ:" unlike > "/dev/stderr"
        exit 1
    }
    for (i = 1; i <= keys; i++)
        print order[i], least[order[i]]
}
