# Makes the three tables of times: the commands on recordings, the other calls, and the coders. Reads the goals (`name|case|figure`), which may be multiples
# of a goal above them, as ``1.2 times `repair` `` of the same recording. Then it reads the measured lines of several turns: for a call
# `call|words|input|seconds|KiB|octets|COUNT UNITS|kind`, and for a coder `program|name|case|tenths of a nanosecond|sum`. A figure that misses its goal has
# the goal in brackets after it.
BEGIN {
    FS = "|"
    mib = 1048576
    count_of_columns = split("show|check|repair|bridge 293 0|relay 293 0|follow|calls", columns, "|")
    for (n = 1; n <= count_of_columns; n++) is_column[columns[n]] = 1
}

# Returns the seconds of a goal. A call is compared with `repair` of the same recording, and a block from soft symbols with one from bits that has to be
# searched for.
function seconds_of(name,   parts) {
    split(goals[name], parts, " ")
    if (parts[3] == "`repair`") return parts[1] * taken["repair" substr(name, index(name, "|"))] + 0.000001
    if (parts[2] == "times") return parts[1] * least["coders|" part[name] "|8"] / 10000000000
    return parts[1] * (parts[2] == "s" ? 1 : parts[2] == "µs" ? 0.000001 : 0.000000001)
}

# Returns the goal, in brackets, if it is missed.
function missed(name, seconds) {
    return name in goals && seconds > seconds_of(name) ? " (" goals[name] ")" : ""
}

# Returns how many units or lines in a second.
function rate(count, seconds,   parts) {
    split(count, parts, " ")
    return parts[1] == 0 || seconds == 0 ? "" : sprintf("%.0f", parts[1] / seconds)
}

# Returns microseconds; short times have four decimals.
function micros(seconds) {
    return sprintf(seconds < 0.0000001 ? "%.4f" : "%.2f", seconds * 1000000)
}

# Keeps the least seconds of the calls of a row, and the most memory. The seconds of a recording are those of 16 MiB.
function keep_call(   name, seconds) {
    name = $2 "|" $3
    if ($2 in is_column && !($3 in is_input)) {
        is_input[$3] = 1
        inputs[++count_of_inputs] = $3
    }
    if (!($2 in is_column) && !(name in taken)) others[++count_of_others] = name
    seconds = $8 == "recording" ? $4 * 16 * mib / $6 : $4
    if (!(name in taken) || seconds < taken[name]) {
        taken[name] = seconds
        rates[name] = rate($7, $4)
    }
    if ($5 > memory[name]) memory[name] = $5
    is_recording[name] = $8 == "recording"
}

# Prints the row of a recording: the seconds of each command, the units in a second of `show`, and the most memory of them all.
function row_of_input(input,   n, name, row, most) {
    row = "| " input " |"
    for (n = 1; n <= count_of_columns; n++) {
        name = columns[n] "|" input
        row = row (name in taken ? sprintf(" %.2f", taken[name]) missed(name, taken[name]) : "") " |"
        if (memory[name] > most) most = memory[name]
    }
    print row " " rates["show|" input] " | " most (most > 4096 ? " (4096)" : "") " |"
}

# Prints the row of another call.
function row_of_call(name,   parts) {
    split(name, parts, "|")
    printf("| `%s` | %s | %.2f%s | %s | %s |\n", parts[1], parts[2], taken[name], missed(name, taken[name]), rates[name],
        memory[name] (is_recording[name] && memory[name] > 4096 ? " (4096)" : ""))
}

# Prints the row of a coder, beside the program that does the same. The name of a coder is in its first row alone.
function row_of_coder(name, is_first,   own, mark, other) {
    own = least["coders|" name] / 10000000000
    mark = ("libfec|" name) in least ? "libfec" : "radio"
    other = (mark "|" name) in least ? least[mark "|" name] / 10000000000 : 0
    printf("| %s | %s | %s | %s | %s |\n", is_first ? part[name] : "", label[name], micros(own) missed(name, own),
        other ? micros(other) : "", other ? sprintf("%.1f", other / own) : "")
}

# Keeps the least time of a line of a coder.
function keep(name, key) {
    if (!($2 in seen)) {
        seen[$2] = 1
        names[++count_of_names] = $2
    }
    if ($1 == "coders" && !(name in part)) {
        part[name] = $2
        label[name] = $3
        order[++rows] = name
    }
    if (!(key in least) || $4 < least[key]) least[key] = $4
}

# Prints the head of a table with a number of columns.
function head(titles,   n, parts, row) {
    print titles
    for (n = split(titles, parts, "|") - 2; n > 0; n--) row = row "|---"
    print row "|"
}

FILENAME == ARGV[1] {
    goals[$1 "|" $2] = $3
    next
}

$1 == "call" {
    keep_call()
    next
}

{ keep($2 "|" $3, $1 "|" $2 "|" $3) }

END {
    titles = "| 16 MiB of |"
    for (n = 1; n <= count_of_columns; n++) titles = titles " `" columns[n] "` |"
    head(titles " units in a second | KiB |")
    for (n = 1; n <= count_of_inputs; n++) row_of_input(inputs[n])
    print ""
    head("| call | input | seconds | units or lines in a second | KiB |")
    for (n = 1; n <= count_of_others; n++) row_of_call(others[n])
    print ""
    head("| coder | letters in error | µs | libfec, GNU Radio | ratio |")
    for (n = 1; n <= count_of_names; n++) {
        is_first = 1
        for (i = 1; i <= rows; i++) {
            if (part[order[i]] != names[n]) continue
            row_of_coder(order[i], is_first)
            is_first = 0
        }
    }
}
