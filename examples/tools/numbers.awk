# Numbers in many forms: what printf, the functions of mathematics and strings give.
BEGIN {
    for (i = -3; i <= 3; i++) printf "%d %5.2f %e %g %x|%-8s|%08.3f\n", i, i / 7, exp(i), sin(i), i * i, i "", atan2(i, 2)
    print 1e300 * 1e10, -log(0), 2 ^ 0.5, int(-3.7), length("naive"), substr("abcdef", 2, 3), index("abcdef", "de")
    s = "the cat sat on the mat"
    print gsub(/[ct]at/, "<&>", s), s, match(s, /<s/), RSTART, RLENGTH, toupper(s)
    print split("a:b:c", parts, ":"), parts[3], 0.1 + 0.2, 1e6, 1e16, 123456789012
}
