# The exported calls of crates/host/src as C declarations, to stand in one file with the header: a compiler takes both only if they agree.
BEGIN {
    print "#include \"box.h\""
    c["u32"] = "uint32_t"; c["f64"] = "double"; c["usize"] = "size_t"; c["Segment"] = "struct box_segment"
}

/pub extern "C" fn / { text = ""; reading = 1 }
reading { text = text " " $0 }
reading && /-> u32/ { declare(text); reading = 0 }

function declare(text,    name, list, n, i, parameters) {
    name = text; sub(/.* fn /, "", name); sub(/\(.*/, "", name)
    list = text; sub(/^[^(]*\(/, "", list); sub(/\) -> u32.*/, "", list)
    n = split(list, parameters, ",")
    list = ""
    for (i = 1; i <= n; i++) if (parameters[i] ~ /:/) list = list (list == "" ? "" : ", ") in_c(parameters[i])
    print "uint32_t " name "(" list ");"
}

# A slice is a pointer and a length; a reference to a number is a pointer.
function in_c(parameter,    type, slice, shared) {
    type = parameter; sub(/.*: */, "", type); sub(/ *$/, "", type)
    slice = type ~ /\[/
    shared = type ~ /^&/ && type !~ /^&mut/
    name = type; gsub(/&mut|[&\[\] ]/, "", name)
    if (!(name in c)) { print "#error no C type for " type; return "" }
    return (shared ? "const " : "") c[name] (type ~ /^&/ ? " *" : "") (slice ? ", size_t" : "")
}
