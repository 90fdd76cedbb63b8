# Puts the file `part` in place of the lines between the two markers of the figures. It fails where they do not stand
# once each, in order.
$0 == "<!-- end of figures -->" { inside = 0; ends++; wrong += starts != 1 }
!inside { print }
$0 == "<!-- figures: written by bench/run -->" {
    inside = 1; starts++
    while ((getline line < part) > 0) print line
}
END {
    if (wrong || starts != 1 || ends != 1) {
        print "bench: the figures' markers do not stand once each" > "/dev/stderr"
        exit 1
    }
}
