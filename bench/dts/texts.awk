# Writes a devicetree text of one kind, about as long as `bytes` says, as
#   awk -v kind=siblings -v bytes=4194304 -f texts.awk

# A word of four letters and digits for each number below 36 ^ 4.
function word(n,    text, k) {
    text = ""
    for (k = 0; k < 4; k++) {
        text = substr("0123456789abcdefghijklmnopqrstuvwxyz", n % 36 + 1, 1) text
        n = int(n / 36)
    }
    return text
}

# Writes a piece and counts its bytes.
function put(piece) {
    printf "%s", piece
    written += length(piece)
}

# What boards have: buses, chips, regulators with their properties.
function ordinary(    n) {
    put("/ {\n")
    for (n = 0; written < bytes; n++) {
        put("\tbus" word(n) ": i2c@" word(n) " {\n\t\tcompatible = \"example,i2c\", \"simple-bus\";\n\t\treg = <" n " 4096>; /* registers */\n")
        put("\t\tpmic@48 {\n\t\t\tcompatible = \"example,pm4\";\n\t\t\tvin1-supply = <&bus" word(n) ">;\n\t\t\tregulators {\n")
        put("\t\t\t\tbuck1 {\n\t\t\t\t\tregulator-name = \"vdd_" word(n) "\";\n\t\t\t\t\tregulator-min-microvolt = <800000>;\n\t\t\t\t\tregulator-max-microvolt = <1000000>;\n\t\t\t\t\tregulator-always-on;\n\t\t\t\t};\n")
        put("\t\t\t};\n\t\t};\n\t};\n")
    }
    put("};\n")
}

# One node with as many children as fit.
function siblings(    n) {
    put("/{")
    for (n = 0; written < bytes; n++) put("a" word(n) "{};")
    put("};\n")
}

# One node with as many properties as fit.
function properties(    n) {
    put("/{")
    for (n = 0; written < bytes; n++) put("a" word(n) ";")
    put("};\n")
}

# The same in no order.
function scattered(    n, k, count, words, other) {
    count = int(bytes / 6)
    for (n = 0; n < count; n++) words[n] = word(n)
    srand(1)
    for (n = count - 1; n > 0; n--) {
        k = int(rand() * (n + 1))
        other = words[n]
        words[n] = words[k]
        words[k] = other
    }
    put("/{")
    for (n = 0; n < count; n++) put("a" words[n] ";")
    put("};\n")
}

# As many properties as fit, with names of one letter or digit, all of them at each node.
function letters(    n, k, name) {
    name = "0123456789abcdefghijklmnopqrstuvwxyzABCDEFGHIJKLMNOPQRSTUVWXYZ"
    put("/{")
    for (n = 0; written < bytes; n++) {
        put("a" word(n) "{")
        for (k = 1; k <= length(name); k++) put(substr(name, k, 1) ";")
        put("};")
    }
    put("};\n")
}

# As many labels as fit, with a reference to each.
function labels(    n, count) {
    count = int(bytes / 21)
    put("/{x=<")
    for (n = 0; n < count; n++) put("&l" word(n) " ")
    put(">;")
    for (n = 0; n < count; n++) put("l" word(n) ":n" word(n) "{};")
    put("};\n")
}

# One node that is opened again at each line, with one property that is set again.
function reopened() {
    while (written < bytes) put("/{a{b=<1>;};};\n")
}

# One node that is added to by its label at each line.
function added() {
    put("/{x:a{};};\n")
    while (written < bytes) put("&x{b;};\n")
}

# Nodes 32 levels deep, side by side.
function deep(    n, k) {
    put("/{")
    for (n = 0; written < bytes; n++) {
        put("a" word(n) "{")
        for (k = 1; k < 32; k++) put("b{")
        for (k = 0; k < 32; k++) put("};")
    }
    put("};\n")
}

# As many nodes as that, ten to a node, with names of one letter.
function bushy() {
    put("/{")
    branch(6)
    put("};\n")
}

function branch(levels,    k) {
    for (k = 1; k <= 10 && written < bytes; k++) {
        put(substr("abcdefghij", k, 1) "{")
        if (levels > 1) branch(levels - 1)
        put("};")
    }
}

# Long names that differ at their ends alone.
function names(    n, front) {
    front = "a"
    while (length(front) < 1000) front = front front
    put("/{")
    for (n = 0; written < bytes; n++) put(front word(n) "{};")
    put("};\n")
}

# One property with as many cells as fit.
function cells() {
    put("/{x=<")
    while (written < bytes) put("1 ")
    put(">;};\n")
}

# Nodes with a phandle each, and a property with the numbers of all.
function phandles(    n, count) {
    count = int(bytes / 34)
    put("/{x=<")
    for (n = 1; n <= count; n++) put(n " ")
    put(">;")
    for (n = 1; n <= count; n++) put("a" word(n) "{phandle=<" n ">;};")
    put("};\n")
}

# One property with one long string.
function text() {
    put("/{x=\"")
    while (written < bytes) put("0123456789abcdefghijklmnopqrstuvwxyz")
    put("\";};\n")
}

# One property with as many bytes as fit, in one word.
function hexadecimal() {
    put("/{x=[")
    while (written < bytes) put("0123456789abcdef")
    put("];};\n")
}

# One property with as many parts as fit.
function parts() {
    put("/{x=<>")
    while (written < bytes) put(",<>")
    put(";};\n")
}

# One property with as many references by themselves as fit.
function references() {
    put("/{l:a{};x=&l")
    while (written < bytes) put(",&l")
    put(";};\n")
}

BEGIN {
    put("/dts-v1/;\n")
    if (kind == "ordinary") ordinary()
    else if (kind == "siblings") siblings()
    else if (kind == "properties") properties()
    else if (kind == "scattered") scattered()
    else if (kind == "letters") letters()
    else if (kind == "labels") labels()
    else if (kind == "reopened") reopened()
    else if (kind == "added") added()
    else if (kind == "deep") deep()
    else if (kind == "bushy") bushy()
    else if (kind == "names") names()
    else if (kind == "cells") cells()
    else if (kind == "phandles") phandles()
    else if (kind == "text") text()
    else if (kind == "hexadecimal") hexadecimal()
    else if (kind == "parts") parts()
    else if (kind == "references") references()
    else { print "no such kind: " kind > "/dev/stderr"; exit 1 }
}
