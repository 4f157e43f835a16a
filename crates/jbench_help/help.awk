# Prints the help of the command `wanted`, or of the program for the name jbench, as the program prints it: from words.rt and
# usage.rt of crates/jbench_help/src, in this order.

# The text between the quotes of this line, which is_open says that it does not end here. A quote within it stands after a backslash.
function text() {
    gsub(/\\"/, "\001")
    sub(/^[^"]*"/, "")
    is_open = !sub(/",?$/, "")
    gsub(/\001/, "\"")
    return $0
}

function show(title, count, left, right,    wide, i) {
    for (i = 1; i <= count; i++) if (length(left[i]) > wide) wide = length(left[i])
    if (count) print "\n" title ":"
    for (i = 1; i <= count; i++) printf "  %-" wide "s  %s\n", left[i], right[i]
}

function option(left, right) {
    option_left[++options] = left
    option_right[options] = right
}

# Adds a word of the command: an option, or a required value.
function add(form, help) {
    if (form ~ /^--/) option("    " form, help)
    else { argument[++arguments] = form; argument_help[arguments] = help; usage = usage " " form }
}

is_open { sub(/^/, "\""); line = text(); if (name == wanted) after = after "\n" line; next }
/^pub\(crate\) const .*: Word =/ { shared = $3; sub(":", "", shared) }
/^pub\(crate\) const .*: Usage = / { shared = ""; constant = "&" $3; sub(":", ",", constant) }
/^    name: / && !shared { name = named[constant] = text(); next }
/^    about: / { about[name] = text(); next }
/^    after_help: / { text(); next }
/^        &[A-Z]*,$/ { command[++commands] = named[$1]; command_about[commands] = about[named[$1]] }
name != wanted && !shared { next }
# A word, on one line: its name, its value's name unless it is a flag, and its help, which has no quote.
/(required|option|flag)! / {
    split($0, quoted, "\"")
    if (/required!/) form = "<" quoted[4] ">"
    else form = "--" quoted[2] (/flag!/ ? "" : " <" quoted[4] ">")
    help = quoted[/flag!/ ? 4 : 6]
    if (shared) { forms[shared] = form; helps[shared] = help } else add(form, help)
}
/^    words: &|^        [A-Z]+,$/ { gsub(/[^A-Z]+/, " "); for (i = 1; i <= NF; i++) if ($i in helps) add(forms[$i], helps[$i]) }

END {
    if (wanted == "jbench") {
        usage = "jbench <COMMAND>"
        command[++commands] = "help"
        command_about[commands] = "Print this message or the help of the given subcommand(s)"
    } else {
        usage = "jbench " wanted (options ? " [OPTIONS]" : "") usage
        commands = 0
    }
    option("-h, --help", "Print help")
    if (wanted == "jbench") option("-V, --version", "Print version")
    print about[wanted] "\n\nUsage: " usage
    show("Commands", commands, command, command_about)
    show("Arguments", arguments, argument, argument_help)
    show("Options", options, option_left, option_right)
    print after
}
