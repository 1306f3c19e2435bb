# Writes a session of one kind, about as long as `bytes` says, as
#   awk -v kind=board -v bytes=4194304 -f sessions.awk

# Writes a piece and counts its bytes.
function put(piece) {
    printf "%s", piece
    written += length(piece)
}

# Chip `c` with its twelve rails, all under the battery.
function chip(c,    k) {
    put("\tpmic" c "@48 {\n\t\tcompatible = \"example,pm12\";\n")
    for (k = 1; k <= 4; k++) put("\t\tvin" k "-supply = <&battery>;\n")
    put("\t\tvinl1-supply = <&battery>;\n\t\tvinl2-supply = <&battery>;\n\t\tregulators {\n")
    for (k = 1; k <= 4; k++) rail("buck" k, c, 600000, 1000000)
    for (k = 1; k <= 4; k++) rail("ldo" k, c, 800000, 1200000)
    for (k = 5; k <= 8; k++) rail("ldo" k, c, 1000000, 1200000)
    put("\t\t};\n\t};\n")
}

function rail(node, c, least, greatest) {
    put("\t\t\t" node " {\n\t\t\t\tregulator-name = \"" node "_" c "\";\n")
    put("\t\t\t\tregulator-min-microvolt = <" least ">;\n\t\t\t\tregulator-max-microvolt = <" greatest ">;\n\t\t\t};\n")
}

# Fixed rail `n`, under the battery but for the battery itself.
function fixed(n) {
    put("\t" (n == 0 ? "battery: " : "") "fixed" n " {\n\t\tcompatible = \"regulator-fixed\";\n")
    put("\t\tregulator-min-microvolt = <4200000>;\n\t\tregulator-max-microvolt = <4200000>;\n")
    if (n > 0) put("\t\tvin-supply = <&battery>;\n")
    put("\t};\n")
}

# A board of 64 rails, and behind them as many nodes that are read over as fit.
function board(    n) {
    put("%session 1\n%board dts\n/dts-v1/;\n/ {\n")
    for (n = 0; n < 5; n++) chip(n)
    for (n = 0; n < 4; n++) fixed(n)
    for (n = 0; written < bytes - 4096; n++) put("a" n "{};" (n % 16 ? "" : " // so many\n"))
    put("\n")
    put("};\n%end\n")
    for (n = 0; n < 16; n++) put("%worker\n%end\n")
    put("%done\n")
}

# The built-in board, and as many lines of registers as fit.
function registers(    n) {
    put("%session 1\n%board demo\n")
    for (n = 0; written < bytes - 8; n++) put("%reg 0 0x10 0x30\n")
    put("%done\n")
}

# The built-in board, and as many updates that are refused as fit, none of which is ever made.
function faults(    n) {
    put("%session 1\n%board demo\n")
    for (n = 0; written < bytes - 32; n++) put("%fault 1 " (n % 9 + 1) "\n")
    put("%worker\n%end\n%done\n")
}

# Sixteen workers, each with as many calls as fit, 4,096 at most.
function workers(    w, n) {
    put("%session 1\n%board demo\n")
    for (w = 1; w <= 16; w++) {
        put("%worker\nopen h core\n")
        for (n = 1; n < 4096 && written < w * bytes / 16; n++) put(n % 2 ? "set h 900000 1000000\n" : "set h 800000 900000\n")
        put("%end\n")
    }
    put("%done\n")
}

BEGIN {
    if (kind == "board") board()
    else if (kind == "registers") registers()
    else if (kind == "faults") faults()
    else if (kind == "workers") workers()
}
