# Tries an awk as a guest: fields, arrays, functions, numbers, patterns.
function fib(n) { return n < 2 ? n : fib(n - 1) + fib(n - 2) }
BEGIN {
    printf "%d %.6f %s %x %c|%-6s|\n", fib(15), atan2(0, -1), substr("nested", 2, 3), 255, "A", "ab"
    text = "one two  three"
    print split(text, words, /[ ]+/), words[3], length(text), index(text, "two"), toupper(words[1])
    gsub(/[aeiou]/, "<&>", text)
    print text, match("abcabc", /ca/), RSTART, RLENGTH, 2 ^ 10, 7 % 3, 1e6, 0.1 + 0.2, exp(1), int(-3.7)
}
/^#/ { heads++ }
/proved|translated/ { lines[NF % 10]++ }
{ words_in += NF; if (length($0) > longest) longest = length($0) }
END {
    for (i = 0; i < 10; i++)
        print i, lines[i] + 0
    print heads, words_in, longest, NR, words_in / NR
}
