# How often each word occurs, the ten most frequent ones.
{
    gsub(/[^A-Za-z]+/, " ")
    for (i = 1; i <= NF; i++) count[tolower($i)]++
}
END {
    for (turn = 0; turn < 10; turn++) {
        best = ""
        for (word in count)
            if (best == "" || count[word] > count[best] || count[word] == count[best] && word < best) best = word
        printf "%6d %s\n", count[best], best
        delete count[best]
    }
}
